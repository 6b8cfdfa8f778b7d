//! The C functions over slices. Safety, in each: the C function reads the slices that it is lent, writes to the one that is mutable, and
//! touches nothing else, as its Rattle source says.
use crate::Mode;

unsafe extern "C" {
    fn giehtamun_list(text: *const u8, text_len: usize, mode: u32, list: *mut u8, list_len: usize) -> u64;
    fn giehtamun_list_up_to(text: *const u8, text_len: usize, mode: u32, position: usize, list: *mut u8, list_len: usize) -> u64;
    fn giehtamun_step(text: *const u8, text_len: usize, cursor: usize) -> u64;
    fn giehtamun_mask(text: *const u8, text_len: usize, copy: *mut u8, copy_len: usize) -> u64;
    fn giehtamun_token_text(text: *const u8, text_len: usize, start: usize, end: usize) -> u64;
    fn giehtamun_shown_text(text: *const u8, text_len: usize, copy: *const u8, copy_len: usize, kind: u32, start: usize, end: usize) -> u64;
    fn giehtamun_place(text: *const u8, text_len: usize, offset: usize) -> u64;
    fn giehtamun_first_statement(text: *const u8, text_len: usize) -> u64;
    fn giehtamun_statement_text(text: *const u8, text_len: usize) -> u64;
    fn giehtamun_save(text: *const u8, text_len: usize, list: *const u8, list_len: usize, flag: u32, file: *mut u8, file_len: usize) -> u64;
    fn giehtamun_load(file: *const u8, file_len: usize, list: *mut u8, list_len: usize) -> u64;
    fn giehtamun_saved_text(file: *const u8, file_len: usize) -> u64;
}

pub fn list(text: &[u8], mode: Mode, list: &mut [u8]) -> u64 {
    unsafe { giehtamun_list(text.as_ptr(), text.len(), mode as u32, list.as_mut_ptr(), list.len()) }
}

pub fn list_up_to(text: &[u8], mode: Mode, position: usize, list: &mut [u8]) -> u64 {
    unsafe { giehtamun_list_up_to(text.as_ptr(), text.len(), mode as u32, position, list.as_mut_ptr(), list.len()) }
}

pub fn step(text: &[u8], cursor: usize) -> u64 {
    unsafe { giehtamun_step(text.as_ptr(), text.len(), cursor) }
}

pub fn mask(text: &[u8], copy: &mut [u8]) -> u64 {
    unsafe { giehtamun_mask(text.as_ptr(), text.len(), copy.as_mut_ptr(), copy.len()) }
}

pub fn token_text(text: &[u8], start: usize, end: usize) -> u64 {
    unsafe { giehtamun_token_text(text.as_ptr(), text.len(), start, end) }
}

pub fn shown_text(text: &[u8], copy: &[u8], kind: u32, start: usize, end: usize) -> u64 {
    unsafe { giehtamun_shown_text(text.as_ptr(), text.len(), copy.as_ptr(), copy.len(), kind, start, end) }
}

pub fn place(text: &[u8], offset: usize) -> u64 {
    unsafe { giehtamun_place(text.as_ptr(), text.len(), offset) }
}

pub fn first_statement(text: &[u8]) -> u64 {
    unsafe { giehtamun_first_statement(text.as_ptr(), text.len()) }
}

pub fn statement_text(text: &[u8]) -> u64 {
    unsafe { giehtamun_statement_text(text.as_ptr(), text.len()) }
}

pub fn save(text: &[u8], list: &[u8], flag: u32, file: &mut [u8]) -> u64 {
    unsafe { giehtamun_save(text.as_ptr(), text.len(), list.as_ptr(), list.len(), flag, file.as_mut_ptr(), file.len()) }
}

pub fn load(file: &[u8], list: &mut [u8]) -> u64 {
    unsafe { giehtamun_load(file.as_ptr(), file.len(), list.as_mut_ptr(), list.len()) }
}

pub fn saved_text(file: &[u8]) -> u64 {
    unsafe { giehtamun_saved_text(file.as_ptr(), file.len()) }
}

//! The library, linked into this process: its C functions over slices.
use crate::{Answer, Call, Op};

extern "C" {
    fn probe_valid_length(text: *const u8, len: usize) -> usize;
    fn probe_code_at(text: *const u8, len: usize, at: usize) -> u32;
    fn probe_length_at(text: *const u8, len: usize, at: usize) -> usize;
    fn probe_is_white_space(code: u32) -> bool;
    fn probe_is_alphabetic(code: u32) -> bool;
    fn probe_is_alphanumeric(code: u32) -> bool;
    fn giehtamun_list(text: *const u8, len: usize, mode: u32, list: *mut u8, lent: usize) -> u64;
    fn giehtamun_list_up_to(text: *const u8, len: usize, mode: u32, position: usize, list: *mut u8, lent: usize) -> u64;
    fn giehtamun_step(text: *const u8, len: usize, cursor: usize) -> u64;
    fn giehtamun_mask(text: *const u8, len: usize, copy: *mut u8, lent: usize) -> u64;
    fn giehtamun_token_text(text: *const u8, len: usize, start: usize, end: usize) -> u64;
    fn giehtamun_shown_text(text: *const u8, len: usize, copy: *const u8, lent: usize, kind: u32, start: usize, end: usize) -> u64;
    fn giehtamun_place(text: *const u8, len: usize, offset: usize) -> u64;
    fn giehtamun_first_statement(text: *const u8, len: usize) -> u64;
    fn giehtamun_statement_text(text: *const u8, len: usize) -> u64;
    fn giehtamun_save(text: *const u8, len: usize, list: *const u8, list_len: usize, flag: u32, file: *mut u8, lent: usize) -> u64;
    fn giehtamun_load(file: *const u8, len: usize, list: *mut u8, lent: usize) -> u64;
    fn giehtamun_saved_text(file: *const u8, len: usize) -> u64;
}

// Safety, in each function below: the C function reads and writes the slices that it is lent and nothing else, as its Rattle source says.

#[inline]
pub fn valid_length(text: &[u8]) -> usize {
    unsafe { probe_valid_length(text.as_ptr(), text.len()) }
}

#[inline]
pub fn list(text: &[u8], mode: u32, list: &mut [u8]) -> u64 {
    unsafe { giehtamun_list(text.as_ptr(), text.len(), mode, list.as_mut_ptr(), list.len()) }
}

#[inline]
pub fn step(text: &[u8], cursor: usize) -> u64 {
    unsafe { giehtamun_step(text.as_ptr(), text.len(), cursor) }
}

#[inline]
pub fn mask(text: &[u8], copy: &mut [u8]) -> u64 {
    unsafe { giehtamun_mask(text.as_ptr(), text.len(), copy.as_mut_ptr(), copy.len()) }
}

#[inline]
pub fn place(text: &[u8], offset: usize) -> u64 {
    unsafe { giehtamun_place(text.as_ptr(), text.len(), offset) }
}

#[inline]
pub fn first_statement(text: &[u8]) -> u64 {
    unsafe { giehtamun_first_statement(text.as_ptr(), text.len()) }
}

#[inline]
pub fn statement_text(text: &[u8]) -> u64 {
    unsafe { giehtamun_statement_text(text.as_ptr(), text.len()) }
}

#[inline]
pub fn save(text: &[u8], list: &[u8], flag: u32, file: &mut [u8]) -> u64 {
    unsafe { giehtamun_save(text.as_ptr(), text.len(), list.as_ptr(), list.len(), flag, file.as_mut_ptr(), file.len()) }
}

#[inline]
pub fn load(file: &[u8], list: &mut [u8]) -> u64 {
    unsafe { giehtamun_load(file.as_ptr(), file.len(), list.as_mut_ptr(), list.len()) }
}

#[inline]
pub fn saved_text(file: &[u8]) -> u64 {
    unsafe { giehtamun_saved_text(file.as_ptr(), file.len()) }
}

pub fn call(c: &Call) -> Answer {
    let mut memory = c.memory.clone();
    let (number, end, lent) = (c.number as usize, c.end as usize, &mut memory[..c.lent]);
    let (text, len) = (c.text.as_ptr(), c.text.len());
    let answer = match c.op {
        Op::ValidLength => valid_length(c.text) as u64,
        Op::CodeAt => unsafe { probe_code_at(text, len, number) as u64 },
        Op::LengthAt => unsafe { probe_length_at(text, len, number) as u64 },
        Op::IsWhiteSpace => unsafe { probe_is_white_space(number as u32) as u64 },
        Op::IsAlphabetic => unsafe { probe_is_alphabetic(number as u32) as u64 },
        Op::IsAlphanumeric => unsafe { probe_is_alphanumeric(number as u32) as u64 },
        Op::List => list(c.text, c.mode, lent),
        Op::ListUpTo => unsafe { giehtamun_list_up_to(text, len, c.mode, number, lent.as_mut_ptr(), lent.len()) },
        Op::Step => step(c.text, number),
        Op::Mask => mask(c.text, lent),
        Op::TokenText => unsafe { giehtamun_token_text(text, len, number, end) },
        Op::ShownText => unsafe { giehtamun_shown_text(text, len, lent.as_ptr(), lent.len(), c.mode, number, end) },
        Op::Place => place(c.text, number),
        Op::FirstStatement => first_statement(c.text),
        Op::StatementText => statement_text(c.text),
        Op::Save => save(c.text, c.list, c.mode, lent),
        Op::Load => load(c.text, lent),
        Op::SavedText => saved_text(c.text),
    };
    Answer { answer, memory }
}

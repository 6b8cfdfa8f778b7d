//! The stack that the crate's page promises, measured: a thread is lent a stack that is filled, and what it wrote over is counted. To ask for a
//! thread with a small stack would not do: the C library gives it more, on Arm at least 128 KB.
use giehtamun::*;
use std::ffi::{c_int, c_void};
use std::ptr::null_mut;

/// Room for the C library's attributes of a thread: 56 bytes on x86-64, 64 on Arm.
#[repr(C, align(16))]
struct Attributes([u8; 128]);

unsafe extern "C" {
    fn pthread_attr_init(attributes: *mut Attributes) -> c_int;
    fn pthread_attr_setstack(attributes: *mut Attributes, stack: *mut u8, size: usize) -> c_int;
    fn pthread_create(thread: *mut usize, attributes: *const Attributes, run: extern "C" fn(*mut c_void) -> *mut c_void, with: *mut c_void) -> c_int;
    fn pthread_join(thread: usize, result: *mut *mut c_void) -> c_int;
}

type Calls<'a> = &'a (dyn Fn() + Sync);

extern "C" fn run(calls: *mut c_void) -> *mut c_void {
    unsafe { (*calls.cast::<Calls>())() };
    null_mut()
}

/// How far down its stack a thread writes that makes these calls.
fn depth(mut calls: Calls) -> usize {
    const FILL: u8 = 0xA5;
    let mut stack = vec![FILL; 2_000_000];
    let (mut attributes, mut thread) = (Attributes([0; 128]), 0);
    unsafe {
        assert_eq!(pthread_attr_init(&mut attributes), 0);
        assert_eq!(pthread_attr_setstack(&mut attributes, stack.as_mut_ptr(), stack.len()), 0);
        assert_eq!(pthread_create(&mut thread, &attributes, run, (&raw mut calls).cast()), 0);
        assert_eq!(pthread_join(thread, null_mut()), 0);
    }
    stack.len() - stack.iter().position(|byte| *byte != FILL).unwrap()
}

/// The calls take at most so many bytes of the stack, and more than a quarter of that: something was measured.
fn take_at_most(most: usize, calls: Calls) {
    let taken = depth(calls) - depth(&|| ());
    println!("{taken} bytes of the stack, of {most}");
    assert!(most / 4 < taken && taken <= most, "{taken} bytes of the stack, of {most}");
}

fn lists_masks_and_statements(text: &[u8]) {
    list(text).unwrap();
    list_lean(text).unwrap();
    list_up_to(text, Mode::Full, text.len() / 2).unwrap();
    list_up_to(text, Mode::Lean, text.len()).unwrap();
    mask(text).unwrap();
    first_statement(text).unwrap();
    statements(text).unwrap().for_each(drop);
}

#[test]
fn a_query_takes_two_kilobytes() {
    let text = "SELECT a, 'שלום', $$b$$ /* c */ FROM naïve, aक, 1क, 2一, 1१ -- d\n".repeat(1_000);
    take_at_most(2_000, &|| lists_masks_and_statements(text.as_bytes()));
}

#[test]
fn a_text_that_is_looked_ahead_in_takes_824() {
    let text: String = (0..20_000).map(|k| format!("$a{k}")).collect();
    take_at_most(824_000, &|| lists_masks_and_statements(text.as_bytes()));
}

#[test]
fn all_else_takes_two() {
    let text = "SELECT 'a' FROM naïve, 一 😀\r\n".repeat(1_000).into_bytes();
    let damaged = [&text[..], b"\xE2\x80a\xE2\x80'\xF0\x9F"].concat();
    let tokens = list(&text).unwrap();
    take_at_most(2_000, &|| {
        for text in [&text[..], &damaged] {
            assert!(steps(text).unwrap().count() > 1_000);
            place(text, text.len()).unwrap();
        }
        let string = step(&text, 7).unwrap();
        string.text(&text).unwrap();
        shown_text(&text, &text, string).unwrap();
        let file = save(&text, &tokens, false).unwrap();
        assert_eq!(load(&file).unwrap().tokens.len(), tokens.len());
        for c in '\0'..=char::MAX {
            for first in [b'a', b'1'] {
                let mut text = [first, 0, 0, 0, 0];
                let len = 1 + c.encode_utf8(&mut text[1..]).len();
                step(&text[..len], 0).unwrap();
            }
        }
    });
}

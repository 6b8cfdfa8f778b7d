//! The class of every code point against the Rust library's own `char`.
use host::{ask, Call, Op};

type Class = fn(char) -> bool;

/// What is no character, as a surrogate or a code past the last, has no class.
fn in_class(code: u64, class: Class) -> u64 {
    u32::try_from(code).ok().and_then(char::from_u32).is_some_and(class) as u64
}

#[test]
fn the_tables_unicode_version() {
    assert_eq!(char::UNICODE_VERSION, (17, 0, 0), "the tables are Unicode 17.0.0's: run this with Rust 1.95");
}

#[test]
fn every_code_point() {
    let codes: Vec<u64> = (0..=0x110000).chain([0x110001, 0x1FFFFF, u32::MAX as u64 - 1, u32::MAX as u64]).collect();
    let classes: [(Op, Class); 3] =
        [(Op::IsWhiteSpace, char::is_whitespace), (Op::IsAlphabetic, char::is_alphabetic), (Op::IsAlphanumeric, char::is_alphanumeric)];
    for (op, class) in classes {
        let calls: Vec<Call> = codes.iter().map(|&number| Call::read(op, number, &[])).collect();
        for (code, got) in codes.iter().zip(ask(&calls)) {
            assert_eq!(got.answer, in_class(*code, class), "{op:?} of U+{code:04X}");
        }
    }
}

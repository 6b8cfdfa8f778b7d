//! Texts with broken characters, all of which stand outside of strings and comments: there they would be a part of the token for us, and an end of it for
//! the Rust, which lexes the valid parts one by one.
use crate::rust;
use crate::texts::{self, letters, Group, Text};
use host::parser::syntax_kind::SyntaxKind as K;
use host::Random;

/// Characters of two to four bytes without their last.
const CUT: [&[u8]; 3] = [b"\xD7", b"\xE2\x80", b"\xF0\x9F\x98"];

const TEXTS: [Text<Vec<u8>>; 10] = [
    ("SQL, undamaged", |r, size| (texts::TEXTS[0].1)(r, size).into_bytes()),
    ("SQL, a cut character each 1,000 bytes", |r, size| sql(r, size, 1000)),
    ("SQL, a cut character each 100 bytes", |r, size| sql(r, size, 100)),
    ("Arabic in words, each 10th letter cut", |r, size| cut(size, 10, || format!("a{} ", letters(r, 'ب'..='غ', 5)))),
    ("CJK words, each 20th character cut", |r, size| cut(size, 20, || format!("{} ", letters(r, '一'..='龥', 4)))),
    ("emoji, each 10th cut to 3 bytes", |r, size| cut(size, 10, || letters(r, '\u{1F600}'..='\u{1F64F}', 9) + " ")),
    ("Hebrew words in ISO 8859-8, a byte a letter", |r, size| (0..size).map(|_| old_hebrew(r)).collect()),
    ("cut characters alone, `E2 80`", |_, size| CUT[1].repeat(size / 2)),
    ("cut emoji alone, `F0 9F 98`", |_, size| CUT[2].iter().copied().cycle().take(size).collect()),
    ("stray tails alone, `80`", |_, size| vec![0x80; size]),
];

pub const GROUPS: [Group<Vec<u8>>; 1] = [("damaged texts", &TEXTS)];

/// SQL with a cut character after white space, once in some bytes. No token is cut to come to the size: spaces fill up what is left.
fn sql(r: &mut Random, size: usize, bytes: usize) -> Vec<u8> {
    let sql = (texts::TEXTS[0].1)(r, size).into_bytes();
    let (mut text, mut next) = (vec![], bytes);
    for token in rust::full(&sql) {
        let mut piece = sql[token.start as usize..token.end as usize].to_vec();
        if token.kind == K::Whitespace && text.len() >= next {
            piece.extend(r.one_of(&CUT));
            next += bytes;
        }
        if text.len() + piece.len() > size {
            break;
        }
        text.extend(piece);
    }
    text.resize(size, b' ');
    text
}

/// Pieces to a number of bytes, in which each n-th character that is not ASCII has lost its last byte.
fn cut(size: usize, n: usize, mut piece: impl FnMut() -> String) -> Vec<u8> {
    let (mut text, mut characters) = (vec![], 0);
    while text.len() < size {
        for c in piece().chars() {
            text.extend(c.encode_utf8(&mut [0; 4]).bytes());
            characters += !c.is_ascii() as usize;
            if !c.is_ascii() && characters % n == 0 {
                text.pop();
            }
        }
    }
    text.truncate(size);
    text
}

/// A letter, or a space for one in six.
fn old_hebrew(r: &mut Random) -> u8 {
    match r.below(6) {
        0 => b' ',
        _ => 0xE0 + r.below(27) as u8,
    }
}

//! Document 01's bench sheet, by the C functions and by the Rust: what is proved of the definitions is what both do. And the cases of document 02's
//! requests.
use host::{compare, reading, texts, Answer, Call, Op, Triple, MAX_QUERY_SIZE, TOKEN_BYTES};

type Case = (&'static str, &'static [Triple]);

const PROVED: [Case; 12] = [
    ("", &[]),
    ("1e", &[(44, 0, 2)]),
    ("1name", &[(4, 0, 5)]),
    ("x.1.1", &[(4, 0, 1), (16, 1, 2), (3, 2, 3), (16, 3, 4), (3, 4, 5)]),
    ("=>", &[(28, 0, 2)]),
    ("=><", &[(29, 0, 3)]),
    ("0x1.8p3", &[(3, 0, 7)]),
    ("1.5a", &[(44, 0, 4)]),
    ("'a''b'", &[(5, 0, 6)]),
    ("$$$", &[(18, 0, 1), (18, 1, 2), (18, 2, 3)]),
    ("$a$b$a$", &[(7, 0, 7)]),
    ("/*/**/", &[(40, 0, 6)]),
];

const TO_RUN: [Case; 16] = [
    ("1_2", &[(4, 0, 3)]),
    ("12_3", &[(3, 0, 4)]),
    ("0x1_2", &[(3, 0, 5)]),
    ("1else", &[(44, 0, 2), (4, 2, 5)]),
    ("1e+5x", &[(44, 0, 5)]),
    ("1..2", &[(3, 0, 2), (16, 2, 3), (3, 3, 4)]),
    (".1e5", &[(16, 0, 1), (4, 1, 4)]),
    ("0b12", &[(3, 0, 4)]),
    ("0x", &[(4, 0, 2)]),
    ("a$b", &[(4, 0, 1), (18, 1, 2), (4, 2, 3)]),
    ("1a$b", &[(4, 0, 4)]),
    ("é", &[(47, 0, 2)]),
    ("aé", &[(4, 0, 3)]),
    ("a b", &[(4, 0, 1), (1, 1, 2), (4, 2, 3)]),
    ("a /*c*/ b", &[(4, 0, 1), (1, 1, 2), (2, 2, 7), (1, 7, 8), (4, 8, 9)]),
    ("x.1 <='é'", &[(4, 0, 1), (16, 1, 2), (3, 2, 3), (1, 3, 4), (32, 4, 6), (5, 6, 10)]),
];

/// #103: "Comments still stop at LF only, as in the Rust."
const COMMENTS: [Case; 2] = [("--a\rb", &[(2, 0, 5)]), ("--a\r\nb", &[(2, 0, 4), (1, 4, 5), (4, 5, 6)])];

/// Other lists of one text: listing, mode, position.
const LISTS_OF: &str = "a /*c*/ b";
const LISTS: [(Op, u32, u64, &[Triple]); 4] = [
    (Op::List, 1, 0, &[(4, 0, 1), (4, 8, 9)]),
    (Op::ListUpTo, 1, 3, &[(4, 0, 1), (2, 2, 7)]),
    (Op::ListUpTo, 1, 2, &[(4, 0, 1)]),
    (Op::ListUpTo, 0, 2, &[(4, 0, 1), (1, 1, 2)]),
];

/// A text and its masked copy.
const MASKED: [&str; 2] = ["$xxx$ a $$abc$$", "$xxx$ a $$###$$"];

/// #105: the tokens of texts with cut characters, step by step. They end words and numbers, begin none, and close nothing.
const CUT: [(&[u8], &[Triple]); 21] = [
    (b"\xE2\x80", &[(47, 0, 2)]),
    (b"\xF0\x9F\x98", &[(47, 0, 3)]),
    (b"\xE2\x80\xE2\x80", &[(47, 0, 2), (47, 2, 4)]),
    (b"\xE0\x80", &[(47, 0, 1), (47, 1, 2)]),
    (b"\xED\xA0", &[(47, 0, 1), (47, 1, 2)]),
    (b"\xF4\x90", &[(47, 0, 1), (47, 1, 2)]),
    (b"\xC0\xAF", &[(47, 0, 1), (47, 1, 2)]),
    (b"a\xE2\x80b", &[(4, 0, 1), (47, 1, 3), (4, 3, 4)]),
    (b"1\xF0\x9F\x98a", &[(3, 0, 1), (47, 1, 4), (4, 4, 5)]),
    (b"1a\xC3$", &[(4, 0, 2), (47, 2, 3), (18, 3, 4)]),
    (b"1e\xE2\x805", &[(44, 0, 2), (47, 2, 4), (3, 4, 5)]),
    (b" \xE2\x80 ", &[(1, 0, 1), (47, 1, 3), (1, 3, 4)]),
    (b".\xE2\x801", &[(16, 0, 1), (47, 1, 3), (3, 3, 4)]),
    (b"\\\xE2\x80g", &[(47, 0, 1), (47, 1, 3), (4, 3, 4)]),
    (b"'\xE2\x80'", &[(5, 0, 4)]),
    (b"'\\\xE2\x80'", &[(5, 0, 5)]),
    (b"--\xE2\x80\n", &[(2, 0, 4), (1, 4, 5)]),
    (b"/*\xF0\x9F\x98*/", &[(2, 0, 7)]),
    (b"$a$\xE2\x80$a$", &[(7, 0, 8)]),
    (b"$\xE2\x80$ $\xE2\x80$", &[(18, 0, 1), (47, 1, 3), (18, 3, 4), (1, 4, 5), (18, 5, 6), (47, 6, 8), (18, 8, 9)]),
    (b"\xE2\x80\xE2\x80\x98a\xE2\x80\xE2\x80\x99", &[(47, 0, 2), (5, 2, 11)]),
];

/// #103 and #105: offset, line and column of places in a text.
type Places = (&'static [u8], &'static [(u64, usize, usize)]);

const PLACES: [Places; 12] = [
    (b"a\r\nb", &[(0, 0, 0), (1, 0, 1), (2, 0, 2), (3, 1, 0), (4, 1, 1)]),
    (b"\r\r\n\n", &[(1, 1, 0), (2, 1, 1), (3, 2, 0), (4, 3, 0)]),
    ("é".as_bytes(), &[(1, 0, 0), (2, 0, 1)]),
    ("a𐐀b".as_bytes(), &[(1, 0, 1), (2, 0, 1), (3, 0, 1), (4, 0, 1), (5, 0, 3), (6, 0, 4)]),
    (b"\x80\x80", &[(1, 0, 1), (2, 0, 2)]),
    (b"\r", &[(1, 1, 0)]),
    (b"\xE2\x80", &[(0, 0, 0), (1, 0, 0), (2, 0, 1)]),
    (b"a\xF0\x9F\x98\r\n", &[(1, 0, 1), (2, 0, 1), (3, 0, 1), (4, 0, 2), (5, 0, 3), (6, 1, 0)]),
    (b"\n\xE2\x80\xC2b", &[(1, 1, 0), (2, 1, 0), (3, 1, 1), (4, 1, 2), (5, 1, 3)]),
    (b"\xE0\x80\r", &[(1, 0, 1), (2, 0, 2), (3, 1, 0)]),
    (b"\xED\xA0\x80", &[(1, 0, 1), (2, 0, 2), (3, 0, 3)]),
    (b"\xF4\x90\x80\x80", &[(1, 0, 1), (2, 0, 2), (3, 0, 3), (4, 0, 4)]),
];

const TOO_LONG: [Triple; 2] = [(48, 0, 0), (39, 0, 0)];

/// A listing's number and value, and the tokens that it stores.
fn lists(call: Call, number: u64, value: usize, tokens: &[Triple]) {
    let mut memory = reading::packed(tokens);
    memory.extend(&call.memory[memory.len()..]);
    compare(&[call], [Answer { answer: reading::answer(number, 0, value), memory }]);
}

/// What a function answers that is lent no memory.
fn answers(op: Op, text: &[u8], at: u64, answer: u64) {
    compare(&[Call::read(op, at, text)], [Answer { answer, memory: vec![] }]);
}

fn steps(text: &[u8], cursor: u64, number: u64, kind: u32, next: u32) {
    answers(Op::Step, text, cursor, reading::answer(number, kind, next as usize));
}

#[test]
fn the_cases_by_the_c_functions() {
    for (text, tokens) in PROVED.into_iter().chain(TO_RUN).chain(COMMENTS) {
        for lent in [TOKEN_BYTES * tokens.len(), TOKEN_BYTES * text.len()] {
            lists(Call::list(Op::List, 0, 0, text.as_bytes(), lent), 0, tokens.len(), tokens);
        }
        for (kind, start, end) in tokens {
            steps(text.as_bytes(), *start as u64, 0, *kind, *end);
        }
        steps(text.as_bytes(), text.len() as u64, 0, 39, text.len() as u32);
        steps(text.as_bytes(), text.len() as u64 + 1, 4, 0, 0);
    }
    for (op, mode, position, tokens) in LISTS {
        lists(Call::list(op, mode, position, LISTS_OF.as_bytes(), TOKEN_BYTES * tokens.len()), 0, tokens.len(), tokens);
    }
}

#[test]
fn the_masked_case_by_the_c_function() {
    let [text, copy] = MASKED.map(str::as_bytes);
    for lent in [15, 16] {
        let call = Call::mask(text, lent);
        let memory = [copy, &call.memory[15..]].concat();
        compare(&[call], [Answer { answer: reading::answer(0, 0, 15), memory }]);
    }
    lists(Call::mask(text, 14), 3, 15, &[]);
}

#[test]
fn the_places_by_the_c_function() {
    for (text, places) in PLACES {
        for (offset, line, column) in places {
            let answer = reading::packed_place((*line, *column));
            assert_eq!(reading::place(text, *offset), answer, "{offset} of {}", text.escape_ascii());
            answers(Op::Place, text, *offset, answer);
        }
        answers(Op::Place, text, text.len() as u64 + 1, reading::answer(4, 0, 0));
    }
}

/// Each unit's length and code, the step from it, and the place of each offset in it: all stand in one line, and each unit is one column.
#[test]
fn the_worked_cases_of_broken_characters_by_the_c_functions() {
    const NO_CODE: u64 = 0x110000;
    for (text, units) in texts::WORKED {
        let mut at = 0;
        for (column, unit) in units.chars().enumerate() {
            let (length, code, kind) = unit.to_digit(10).map_or((1, unit as u64, 4), |length| (length as u64, NO_CODE, 47));
            answers(Op::LengthAt, text, at, length);
            answers(Op::CodeAt, text, at, code);
            steps(text, at, 0, kind, (at + length) as u32);
            (at..at + length).for_each(|offset| answers(Op::Place, text, offset, reading::packed_place((0, column))));
            at += length;
        }
        assert_eq!(at, text.len() as u64);
        answers(Op::Place, text, at, reading::packed_place((0, units.len())));
    }
}

#[test]
fn cut_characters_step_by_step() {
    for (text, tokens) in CUT {
        let mut at = 0;
        for (kind, start, end) in tokens {
            assert_eq!(*start, at, "{}", text.escape_ascii());
            assert_eq!(reading::token_at(text, at as usize), (*kind, *start, *end), "{}", text.escape_ascii());
            steps(text, at as u64, 0, *kind, *end);
            at = *end;
        }
        assert_eq!(at as usize, text.len(), "{}", text.escape_ascii());
    }
    // A cursor inside of a character, whole or cut, is at a byte that begins none.
    for cursor in 1..4 {
        steps("😀".as_bytes(), cursor, 0, 47, cursor as u32 + 1);
    }
    for cursor in 1..3 {
        steps(b"\xF0\x9F\x98\xF0", cursor, 0, 47, cursor as u32 + 1);
    }
}

#[test]
fn room_for_a_list() {
    let (text, tokens) = TO_RUN[13];
    for op in [Op::List, Op::ListUpTo] {
        lists(Call::list(op, 0, u64::MAX, text.as_bytes(), 35), 3, 3, &[]);
        lists(Call::list(op, 0, u64::MAX, text.as_bytes(), 36), 0, 3, tokens);
    }
}

#[test]
fn text_that_is_not_utf8() {
    for (text, valid) in [(b"\x61\xC0\x80", 1), (b"\xED\xA0\x80", 0)] {
        for op in [Op::List, Op::ListUpTo, Op::Mask] {
            lists(Call::list(op, 0, u64::MAX, text, 36), 2, valid, &[]);
        }
    }
}

#[test]
fn the_size_limit_by_the_c_functions() {
    let text = [b' '; MAX_QUERY_SIZE + 1];
    lists(Call::list(Op::List, 0, 0, &text[1..], TOKEN_BYTES), 0, 1, &[(1, 0, MAX_QUERY_SIZE as u32)]);
    lists(Call::list(Op::List, 0, 0, &text, 2 * TOKEN_BYTES - 1), 3, 2, &[]);
    lists(Call::list(Op::List, 0, 0, &text, 2 * TOKEN_BYTES), 1, 2, &TOO_LONG);
    lists(Call::list(Op::ListUpTo, 0, 5, &text, 2 * TOKEN_BYTES), 1, 0, &[]);
}

#[cfg(oracle)]
mod by_the_rust {
    use super::*;
    use host::oracle::{asked, full};

    #[test]
    fn the_cases() {
        for (text, tokens) in PROVED.into_iter().chain(TO_RUN).chain(COMMENTS) {
            assert_eq!(full(text), tokens, "{text:?}");
        }
        for (op, mode, position, tokens) in LISTS {
            assert_eq!(asked(&Call::list(op, mode, position, LISTS_OF.as_bytes(), 0)), tokens, "{op:?}, mode {mode}, {position}");
        }
        // The masked case: the copy has the text's tokens, and would not with a letter for the mask.
        let [text, copy] = MASKED;
        assert_eq!(full(copy), full(text));
        assert_ne!(full(&copy.replace('#', "x")), full(text));
    }

    #[test]
    fn the_size_limit() {
        assert_eq!(full(&" ".repeat(MAX_QUERY_SIZE)), [(1, 0, MAX_QUERY_SIZE as u32)]);
        assert_eq!(full(&" ".repeat(MAX_QUERY_SIZE + 1)), TOO_LONG);
    }
}

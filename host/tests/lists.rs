//! The listings, through the C functions, against the Rust: what they answer, what they write, and what they do not write.
#![cfg(oracle)]
use host::{compare, oracle, reading, texts, Answer, Call, Op, Random, AROUND_THE_LIMIT, MAX_QUERY_SIZE, TOKEN_BYTES};

fn want(call: &Call) -> Answer {
    reading::listing(call, || oracle::asked(call))
}

/// The number of tokens of the list that a call asks for without a buffer.
fn tokens(call: &Call) -> usize {
    match want(call) {
        Answer { answer, .. } if answer >> 56 == 3 => answer as u32 as usize,
        _ => 0,
    }
}

/// Lengths of a buffer: none, a byte short of the list, just the list, almost a token more, and around a token for each byte of the text,
/// from where on the library need not count first.
fn lengths(call: &Call) -> [usize; 8] {
    let list = TOKEN_BYTES * tokens(call);
    let most = TOKEN_BYTES * call.text.len();
    [0, list.saturating_sub(1), list, list + TOKEN_BYTES - 1, most.saturating_sub(TOKEN_BYTES), most.saturating_sub(1), most, most + 25]
}

/// Calls for a list with buffers of some of these lengths.
fn with_lengths<'a>(calls: &mut Vec<Call<'a>>, op: Op, mode: u32, position: u64, text: &'a [u8], some: impl IntoIterator<Item = usize>) {
    let lengths = lengths(&Call::list(op, mode, position, text, 0));
    calls.extend(some.into_iter().map(|i| Call::list(op, mode, position, text, lengths[i])));
}

/// Positions around some of a text's edges: before, at and after each; with 0, the length, and the greatest number.
fn positions(text: &[u8], some: impl Fn(usize) -> bool) -> Vec<u64> {
    let edges = std::str::from_utf8(text).map_or(vec![], oracle::full).into_iter().map(|t| t.1 as u64);
    let some = edges.enumerate().filter(|(i, _)| some(*i)).map(|(_, edge)| edge);
    let mut all: Vec<u64> = some.chain([0, text.len() as u64]).flat_map(|p| [p.saturating_sub(1), p, p + 1]).collect();
    all.push(u64::MAX);
    all.sort();
    all.dedup();
    all
}

/// Both listings in modes that there are not.
fn without_mode<'a>(calls: &mut Vec<Call<'a>>, text: &'a [u8]) {
    for mode in [2, u32::MAX] {
        calls.push(Call::list(Op::List, mode, 0, text, TOKEN_BYTES * text.len()));
        calls.push(Call::list(Op::ListUpTo, mode, u64::MAX, text, TOKEN_BYTES * text.len()));
    }
}

#[test]
fn every_text_of_up_to_three_characters() {
    let (mut count, mut compared) = (0, 0);
    for some in (0..=3).flat_map(texts::every) {
        let mut calls = vec![];
        for text in some.iter().map(|t| t.as_bytes()) {
            for mode in [0, 1] {
                with_lengths(&mut calls, Op::List, mode, 0, text, 0..8);
                for position in positions(text, |_| true) {
                    with_lengths(&mut calls, Op::ListUpTo, mode, position, text, 0..8);
                }
            }
            without_mode(&mut calls, text);
        }
        count += some.len();
        compared += compare(&calls, calls.iter().map(want));
    }
    println!("{count} texts of up to 3 characters, all four lists around every edge with every length of buffer: {compared} calls");
}

#[test]
fn every_text_of_four_characters() {
    let mut r = Random(0xC0AC29B7C97C50DD);
    let mut compared = 0;
    for some in texts::every(4) {
        let mut calls = vec![];
        for text in some.iter().map(|t| t.as_bytes()) {
            for mode in [0, 1] {
                with_lengths(&mut calls, Op::List, mode, 0, text, [2, 6, r.below(8)]);
                for position in positions(text, |_| true) {
                    with_lengths(&mut calls, Op::ListUpTo, mode, position, text, [r.below(8)]);
                }
            }
        }
        compared += compare(&calls, calls.iter().map(want));
    }
    println!("every text of 4 characters, all four lists around every edge, each with a length of buffer: {compared} calls");
}

#[test]
fn every_character() {
    let texts: Vec<String> = ('\0'..=char::MAX).map(|c| format!("{c}a{c}1{c}'{c}")).collect();
    let mut compared = 0;
    for some in texts.chunks(1 << 14) {
        let calls: Vec<Call> = some.iter().map(|text| Call::list(Op::List, 0, 0, text.as_bytes(), TOKEN_BYTES * text.len())).collect();
        compared += compare(&calls, calls.iter().map(want));
    }
    println!("every character, first, in a word, after a number and in a string: {compared} calls");
}

/// Above, a word has begun before the number; here the number comes first. The texts are longer than a block. Each character stands in them an
/// even number of times, so that a quote is closed.
#[test]
fn every_character_in_words_and_after_numbers() {
    let pieces: Vec<String> = ('\0'..=char::MAX).map(|c| format!("a{c}b _{c}1 1{c}b 1_{c}b\n")).collect();
    let mut compared = 0;
    for some in pieces.chunks(1 << 6) {
        let text = some.concat();
        let calls = [0, 1].map(|mode| Call::list(Op::List, mode, 0, text.as_bytes(), TOKEN_BYTES * text.len()));
        compared += compare(&calls, calls.iter().map(want));
    }
    println!("{} characters in a word, after a number and in a word that starts with one, 64 of them in a text: {compared} calls", pieces.len());
}

#[test]
fn random_texts() {
    let mut r = Random(0x13198A2E03707344);
    let n = texts::how_many(300_000);
    let (mut bytes, mut broken, mut compared) = (0, 0, 0);
    for _ in 0..n / 100 {
        let text = |i| {
            let text = texts::random(&mut r);
            if i % 4 == 0 {
                texts::damaged(&mut r, &text)
            } else {
                text.into_bytes()
            }
        };
        let some: Vec<Vec<u8>> = (0..100).map(text).collect();
        let mut calls = vec![];
        for text in &some {
            bytes += text.len();
            broken += std::str::from_utf8(text).is_err() as usize;
            // Around every edge of a text of a few tokens, and around a few edges of any other.
            let step = 1 + text.len() / 25;
            let from = r.below(step);
            let positions = positions(text, |i| i % step == from);
            for mode in [0, 1] {
                with_lengths(&mut calls, Op::List, mode, 0, text, 0..8);
                for position in &positions {
                    with_lengths(&mut calls, Op::ListUpTo, mode, *position, text, [r.below(8)]);
                }
            }
            without_mode(&mut calls, text);
        }
        compared += compare(&calls, calls.iter().map(want));
    }
    println!("{n} random texts of {bytes} bytes, {broken} of them not UTF-8, all four lists: {compared} calls");
}

/// Blocks of 64 bytes must not show. There is room for the full list, or for a token for each byte.
#[test]
fn every_short_text_at_the_end_of_a_block() {
    let mut r = Random(0x718BCD5882154AEE);
    let (mut count, mut compared) = (0, 0);
    for (offset, some) in texts::at_the_end_of_a_block() {
        let mut calls = vec![];
        for text in some.iter().map(|t| t.as_bytes()) {
            let position = (offset + r.below(8)) as u64;
            let lengths = [TOKEN_BYTES * tokens(&Call::list(Op::List, 0, 0, text, 0)), TOKEN_BYTES * text.len()];
            for mode in [0, 1] {
                calls.push(Call::list(Op::List, mode, 0, text, r.one_of(&lengths)));
                calls.push(Call::list(Op::ListUpTo, mode, position, text, r.one_of(&lengths)));
            }
        }
        count += some.len();
        compared += compare(&calls, calls.iter().map(want));
    }
    println!("{count} texts with a short text at the end of a block, all four lists: {compared} calls");
}

#[test]
fn plain_stretches() {
    let mut r = Random(0x7B54A41DC25A59B5);
    let n = texts::how_many(30_000);
    let (mut bytes, mut compared) = (0, 0);
    for _ in 0..n / 100 {
        let some: Vec<String> = (0..100).map(|_| texts::stretches(&mut r)).collect();
        let mut calls = vec![];
        for text in some.iter().map(|t| t.as_bytes()) {
            bytes += text.len();
            for mode in [0, 1] {
                with_lengths(&mut calls, Op::List, mode, 0, text, [1, 2, 6]);
                for _ in 0..3 {
                    with_lengths(&mut calls, Op::ListUpTo, mode, r.below(text.len()) as u64, text, [r.below(8)]);
                }
            }
        }
        compared += compare(&calls, calls.iter().map(want));
    }
    println!("{n} texts of {bytes} bytes, of plain stretches, all four lists: {compared} calls");
}

#[test]
fn texts_of_many_dollars() {
    let mut r = Random(0x636920D871574E69);
    let n = texts::how_many(60);
    let (mut bytes, mut compared) = (0, 0);
    for _ in 0..n {
        let length = 10_000 + r.below(50_000);
        let text = texts::dollars(&mut r, length).into_bytes();
        bytes += text.len();
        let mut calls = vec![];
        for mode in [0, 1] {
            with_lengths(&mut calls, Op::List, mode, 0, &text, [1, 2, 6]);
            with_lengths(&mut calls, Op::ListUpTo, mode, r.below(text.len()) as u64, &text, [1, 2]);
        }
        compared += compare(&calls, calls.iter().map(want));
    }
    println!("{n} texts of {bytes} bytes with many dollar signs: {compared} calls");
}

/// Around the size limit: one long token, a token a byte, queries, and each of these with its last byte broken.
#[test]
fn sizes() {
    let mut compared = 0;
    for length in AROUND_THE_LIMIT {
        for part in [" ", "+", "SELECT 'שלום', 1.5e3 -- ؟\n FROM `t`;", "$a"] {
            let mut text = part.repeat(length / part.len()).into_bytes();
            text.resize(length, b'\n');
            let mut broken = text.clone();
            broken[length - 1] = 0xE2;
            for text in [&text, &broken] {
                for mode in [0, 1, 2] {
                    let mut calls = vec![];
                    let list = TOKEN_BYTES * tokens(&Call::list(Op::List, mode, 0, text, 0));
                    for lent in [0, TOKEN_BYTES - 1, TOKEN_BYTES, 2 * TOKEN_BYTES - 1, 2 * TOKEN_BYTES, 2 * TOKEN_BYTES + 1, 3 * TOKEN_BYTES, list.saturating_sub(1), list, TOKEN_BYTES * length] {
                        calls.push(Call::list(Op::List, mode, 0, text, lent));
                    }
                    for position in [0, 1, 2, MAX_QUERY_SIZE as u64 - 1, MAX_QUERY_SIZE as u64, u64::MAX] {
                        calls.push(Call::list(Op::ListUpTo, mode, position, text, 24));
                    }
                    calls.push(Call::list(Op::ListUpTo, mode, 999_999, text, list));
                    compared += compare(&calls, calls.iter().map(want));
                }
            }
        }
    }
    println!("texts of {AROUND_THE_LIMIT:?} bytes: {compared} calls");
}

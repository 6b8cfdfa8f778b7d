//! Single steps, through the C function: against the Rust from every token's edge, against the second reading from everywhere, and what is broken
//! against `utf8_chunks`.
use host::texts::{AROUND, BROKEN};
use host::{ask, compare, reading, texts, Answer, Call, Op, Random, AROUND_THE_LIMIT, MAX_QUERY_SIZE};

/// What document 01 has for a step, by the second reading.
fn want(call: &Call) -> Answer {
    Answer { answer: reading::step(call.text, call.number), memory: vec![] }
}

/// Compares the steps from each byte of some texts, from their ends, and from beyond.
fn compare_everywhere(texts: &[Vec<u8>]) -> usize {
    let mut calls = vec![];
    for text in texts {
        let length = text.len() as u64;
        let cursors = (0..=length + 1).chain([1 << 48 | length, u64::MAX]);
        calls.extend(cursors.map(|cursor| Call::read(Op::Step, cursor, text)));
    }
    compare(&calls, calls.iter().map(want))
}

/// Bytes that start, go on with, end and break the characters that the rules name, and what they stand beside. What is broken of these has 1 byte, or
/// 2 as E0 A0 and ED 9F, or 3 as F0 9F 98; and of E0 9F, ED A0, F0 80 and F4 9F each byte stands alone.
const BYTES: [u8; 24] = *b"'\\$a0.e\n \xE2\x80\x98\x99\xC2\xA0\xC3\xA9\xE0\xF0\x9F\xED\xF4\xFF-";

#[test]
fn from_everywhere_in_every_sequence_of_up_to_four_bytes() {
    let mut texts: Vec<Vec<u8>> = vec![vec![]];
    let mut compared = 0;
    for length in 0..=4 {
        if length > 0 {
            texts = texts.iter().flat_map(|t| BYTES.iter().map(move |b| [&t[..], &[*b]].concat())).collect();
        }
        compared += texts.chunks(1 << 15).map(compare_everywhere).sum::<usize>();
    }
    println!("every sequence of up to 4 of {} bytes, from everywhere: {compared} steps", BYTES.len());
}

#[test]
fn from_everywhere_in_broken_characters_within_everything() {
    let mut compared = 0;
    for (before, after) in AROUND {
        let mut texts = vec![];
        for (one, two) in BROKEN.iter().flat_map(|one| BROKEN.map(|two| (one, two))) {
            texts.push([before.as_bytes(), one, two, after.as_bytes()].concat());
            texts.push([before.as_bytes(), one, after.as_bytes(), two].concat());
        }
        // Long enough that what stands before and after goes by eights, and by blocks of 64 bytes.
        for (one, with) in BROKEN.iter().flat_map(|one| ["a", "1", " ", "é"].map(|with| (one, with))) {
            for (left, right) in (0..=9).flat_map(|left| [0, 1, 7, 8, 9, 90].map(|right| (left, right))) {
                let (left, right) = (with.repeat(left), with.repeat(right));
                texts.push([before.as_bytes(), left.as_bytes(), one, right.as_bytes(), after.as_bytes()].concat());
            }
        }
        compared += compare_everywhere(&texts);
    }
    println!("{} broken characters and others within {} surroundings, from everywhere: {compared} steps", BROKEN.len(), AROUND.len());
}

/// The tokens of a text by the library, from step to step.
fn walked(text: &[u8]) -> Vec<(u64, usize, usize)> {
    let (mut tokens, mut at) = (vec![], 0);
    while at < text.len() {
        let answer = ask(&[Call::read(Op::Step, at as u64, text)])[0].answer;
        let (kind, end) = (answer >> 48, (answer & 0xFFFF_FFFF_FFFF) as usize);
        assert!(end > at && end <= text.len(), "{answer:016x} at {at} of {}", text.escape_ascii());
        tokens.push((kind, at, end));
        at = end;
    }
    tokens
}

/// Holds the ErrorTokens of a text of letters, spaces, single quotes and what is broken to `utf8_chunks`, with no second reading: they are just the
/// broken parts that stand in no string, which is after an even number of quotes. Adds how many there are of each length. A text in which broken bytes
/// make a character is passed over.
fn compare_errors(text: &[u8], counts: &mut [usize; 4]) -> bool {
    if text.utf8_chunks().any(|chunk| !chunk.valid().is_ascii()) {
        return false;
    }
    let (mut want, mut at, mut quotes) = (vec![], 0, 0);
    for chunk in text.utf8_chunks() {
        let (start, length) = (at + chunk.valid().len(), chunk.invalid().len());
        quotes += chunk.valid().matches('\'').count();
        at = start + length;
        if length > 0 && quotes % 2 == 0 {
            want.push((start, at));
            counts[length] += 1;
        }
    }
    let errors: Vec<(usize, usize)> = walked(text).into_iter().filter(|token| token.0 == 47).map(|token| (token.1, token.2)).collect();
    assert_eq!(errors, want, "{}", text.escape_ascii());
    true
}

/// A letter, a space and a quote, and bytes that make what is broken of each length.
const OF_ERRORS: [u8; 11] = *b"a '\xC3\xE0\xE2\xED\xF0\x80\x9F\xA0";

#[test]
fn the_error_tokens_are_the_broken_parts() {
    let (mut texts, mut counts) = (0, [0; 4]);
    for length in 0..=6 {
        for i in 0..OF_ERRORS.len().pow(length) {
            let text: Vec<u8> = (0..length).rev().map(|k| OF_ERRORS[i / OF_ERRORS.len().pow(k) % OF_ERRORS.len()]).collect();
            texts += compare_errors(&text, &mut counts) as usize;
        }
    }
    let mut r = Random(0x3C6EF372FE94F82B);
    let n = texts::how_many(30_000);
    for _ in 0..n {
        let ascii: Vec<u8> = (0..r.below(200)).map(|_| r.one_of(b"aaaaaaaaaaaaaaaaaaaaaaaab        '")).collect();
        texts += compare_errors(&texts::cut(&mut r, &ascii), &mut counts) as usize;
    }
    let [_, one, two, three] = counts;
    println!(
        "every text of up to 6 of {} bytes and {n} random ones, without characters past ASCII: {texts} texts with {one}, {two} and {three} ErrorTokens \
         of 1, 2 and 3 bytes, all of them broken parts",
        OF_ERRORS.len()
    );
}

#[test]
fn from_everywhere_in_random_texts() {
    let mut r = Random(0x452821E638D01377);
    let n = texts::how_many(100_000);
    let mut compared = 0;
    for _ in 0..n / 100 {
        let text = |i| {
            let mut text = texts::random(&mut r);
            // A step may read to the text's end, so that steps from everywhere take the square of the length.
            text.truncate(text.floor_char_boundary(500));
            match i % 4 {
                0 => text.into_bytes(),
                1 => texts::cut(&mut r, text.as_bytes()),
                _ => texts::damaged(&mut r, &text),
            }
        };
        compared += compare_everywhere(&(0..100).map(text).collect::<Vec<_>>());
    }
    println!("{n} random texts, most of them damaged, from everywhere: {compared} steps");
}

/// Around the size limit, at edges, at the end and beyond; broken bytes are no reason to refuse.
#[test]
fn sizes() {
    let mut compared = 0;
    for length in AROUND_THE_LIMIT {
        for byte in *b" '\xE2" {
            let text = vec![byte; length];
            let limit = MAX_QUERY_SIZE as u64;
            let cursors = [0, 1, limit / 2, limit - 2, limit - 1, limit, limit + 1, limit + 2, u64::MAX];
            let calls = cursors.map(|cursor| Call::read(Op::Step, cursor, &text));
            compared += compare(&calls, calls.iter().map(want));
        }
    }
    println!("texts of {AROUND_THE_LIMIT:?} bytes: {compared} steps");
}

#[cfg(oracle)]
mod from_edges {
    use super::*;
    use host::oracle;

    /// Compares the steps from every edge of some texts, their ends among them, with the Rust.
    fn compare_edges(texts: &[String]) -> usize {
        let (mut calls, mut wanted) = (vec![], vec![]);
        for text in texts {
            for (kind, start, end) in oracle::steps(text) {
                calls.push(Call::read(Op::Step, start as u64, text.as_bytes()));
                wanted.push(Answer { answer: reading::answer(0, kind, end as usize), memory: vec![] });
            }
        }
        compare(&calls, wanted)
    }

    #[test]
    fn of_every_text_of_up_to_four_characters() {
        let compared: usize = (0..=4).flat_map(texts::every).map(|some| compare_edges(&some)).sum();
        println!("every edge of every text of up to 4 characters: {compared} steps");
    }

    #[test]
    fn of_random_texts() {
        let mut r = Random(0x082EFA98EC4E6C89);
        let n = texts::how_many(300_000);
        let compared: usize = (0..n / 1000).map(|_| compare_edges(&[(); 1000].map(|_| texts::random(&mut r)))).sum();
        println!("every edge of {n} random texts: {compared} steps");
    }
}

//! Token text and shown text, through the C functions, against the second reading.
use host::{compare, reading, texts, Answer, Call, Random, AROUND_THE_LIMIT};

/// What document 01 has for these, by the second reading: they write nothing.
fn want(call: &Call) -> Answer {
    Answer { answer: reading::part(call), memory: call.memory.clone() }
}

/// Each kind, what is none, and what would be one with its high bits lost.
fn kinds() -> impl Iterator<Item = u32> {
    (0..=50).chain([1 << 8 | 2, 1 << 16 | 5, 1 << 31 | 7, u32::MAX])
}

/// Calls for the part between two offsets: token text, and shown text of some kinds with a copy of the right length, one less and one more.
fn parts<'a>(calls: &mut Vec<Call<'a>>, text: &'a [u8], start: u64, end: u64, kinds: impl IntoIterator<Item = u32>) {
    calls.push(Call::token_text(text, start, end));
    for kind in kinds {
        let lengths = [text.len().saturating_sub(1), text.len(), text.len() + 1];
        calls.extend(lengths.map(|lent| Call::shown_text(text, lent, kind, start, end)));
    }
}

/// Bytes at the edges of the continuation bytes, and others.
const BYTES: [u8; 8] = *b"a\n\x00\x7F\x80\xBF\xC0\xFF";

#[test]
fn everywhere_in_every_sequence_of_up_to_four_bytes() {
    let mut r = Random(0xB8E1AFED6A267E96);
    let mut texts: Vec<Vec<u8>> = vec![vec![]];
    let mut compared = 0;
    for length in 0..=4 {
        if length > 0 {
            texts = texts.iter().flat_map(|t| BYTES.iter().map(move |b| [&t[..], &[*b]].concat())).collect();
        }
        for some in texts.chunks(1 << 6) {
            let mut calls = vec![];
            for text in some {
                let offsets: Vec<u64> = texts::everywhere(text).collect();
                for start in &offsets {
                    for end in &offsets {
                        if length < 3 {
                            parts(&mut calls, text, *start, *end, kinds());
                        } else {
                            parts(&mut calls, text, *start, *end, [r.below(50) as u32]);
                        }
                    }
                }
            }
            compared += compare(&calls, calls.iter().map(want));
        }
    }
    println!("every sequence of up to 4 of {} bytes, everywhere: {compared} calls", BYTES.len());
}

#[test]
fn random_texts() {
    let mut r = Random(0xBA7C9045F12C7F99);
    let n = texts::how_many(100_000);
    let mut compared = 0;
    for _ in 0..n / 100 {
        let text = |i| {
            let text = texts::random(&mut r);
            if i % 2 == 0 {
                texts::damaged(&mut r, &text)
            } else {
                text.into_bytes()
            }
        };
        let some: Vec<Vec<u8>> = (0..100).map(text).collect();
        let mut calls = vec![];
        for text in &some {
            for _ in 0..10 {
                let [start, end] = [(); 2].map(|_| r.below(text.len() + 2) as u64);
                parts(&mut calls, text, start, end, [r.below(50) as u32]);
            }
            let tokens = reading::full(text);
            for _ in 0..tokens.len().min(10) {
                let (kind, start, end) = r.one_of(&tokens);
                parts(&mut calls, text, start as u64, end as u64, [kind]);
            }
        }
        compared += compare(&calls, calls.iter().map(want));
    }
    println!("{n} random texts, half of them damaged, some of their tokens and other parts: {compared} calls");
}

/// The Rust's `Token::text` slices a `&str`, and panics just where `get` gives nothing.
#[test]
fn token_text_is_a_slice_of_the_rust() {
    let mut r = Random(0x24A19947B3916CF7);
    let n = texts::how_many(100_000);
    let (mut done, mut refused) = (0, 0);
    for _ in 0..n / 100 {
        let some = [(); 100].map(|_| texts::random(&mut r));
        let (mut calls, mut wanted) = (vec![], vec![]);
        for text in &some {
            for _ in 0..10 {
                let [start, end] = [(); 2].map(|_| r.below(text.len() + 2));
                let answer = text.get(start..end).map_or(reading::answer(5, 0, 0), |part| reading::answer(0, 0, part.len()));
                calls.push(Call::token_text(text.as_bytes(), start as u64, end as u64));
                wanted.push(Answer { answer, memory: vec![] });
                (done, refused) = if answer >> 56 == 0 { (done + 1, refused) } else { (done, refused + 1) };
            }
        }
        compare(&calls, wanted);
    }
    assert!(done > 0 && refused > 0);
    println!("{n} random texts, the Rust's slices: {done} parts, and {refused} that there are not");
}

/// Around the size limit, with several reasons to refuse at once; broken bytes are no reason.
#[test]
fn sizes() {
    let mut compared = 0;
    for length in AROUND_THE_LIMIT {
        for byte in *b" \n\x80\xE2" {
            let text = vec![byte; length];
            let end = length as u64;
            let mut calls = vec![];
            for (start, end) in [(0, 0), (0, end), (end - 1, end), (end, end), (end, end + 1), (1, 0)] {
                parts(&mut calls, &text, start, end, [0, 3, 5, 49]);
            }
            compared += compare(&calls, calls.iter().map(want));
        }
    }
    println!("texts of {AROUND_THE_LIMIT:?} bytes: {compared} calls");
}

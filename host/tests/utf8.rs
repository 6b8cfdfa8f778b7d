//! Decoding against the Rust library's own: `from_utf8`, `utf8_chunks`, and the marks that `from_utf8_lossy` puts for what is broken.
use host::{ask, texts, Call, Op, Random};

/// The code of what is broken, and of nothing.
const NO_CODE: u64 = 0x110000;

/// The code and the length of what stands at a place.
type Unit = (u64, u64);

fn valid_length(text: &[u8]) -> u64 {
    match std::str::from_utf8(text) {
        Ok(_) => text.len() as u64,
        Err(e) => e.valid_up_to() as u64,
    }
}

/// A text's units by `utf8_chunks`: the characters of each valid part, and each broken part.
fn units(text: &[u8]) -> impl Iterator<Item = Unit> + '_ {
    text.utf8_chunks().flat_map(|chunk| {
        let characters = chunk.valid().chars().map(|c| (c as u64, c.len_utf8() as u64));
        let broken = (NO_CODE, chunk.invalid().len() as u64);
        characters.chain((broken.1 > 0).then_some(broken))
    })
}

/// What stands at a place: the first unit of what follows, of which 4 bytes are enough.
fn unit_at(text: &[u8], at: usize) -> Unit {
    let rest = text.get(at..).unwrap_or_default();
    units(&rest[..rest.len().min(4)]).next().unwrap_or((NO_CODE, 0))
}

fn compare(texts: &[Vec<u8>], every_place: bool) -> usize {
    let mut calls = vec![];
    let mut want = vec![];
    for text in texts {
        let mut expect = |op, number, answer| {
            calls.push(Call::read(op, number, text));
            want.push(answer);
        };
        expect(Op::ValidLength, 0, valid_length(text));
        for at in 0..if every_place { text.len() + 2 } else { 1 } {
            let (code, length) = unit_at(text, at);
            expect(Op::CodeAt, at as u64, code);
            expect(Op::LengthAt, at as u64, length);
        }
    }
    for ((call, got), want) in calls.iter().zip(ask(&calls)).zip(want) {
        assert_eq!(got.answer, want, "{call:02x?}");
    }
    calls.len()
}

/// How many units texts have: characters, and broken ones of 1, 2 and 3 bytes.
#[derive(Debug, Default)]
struct Counts([usize; 4]);

impl Counts {
    /// Walks a text by the library, from its start to its end. Each unit is held to `utf8_chunks`, and the whole to `from_utf8_lossy`: a mark for each
    /// that is broken, and the other characters.
    fn walk(&mut self, text: &[u8]) {
        let lossy = String::from_utf8_lossy(text);
        let (mut shown, mut at) = (lossy.chars(), 0);
        for want in units(text) {
            let answers = ask(&[Op::CodeAt, Op::LengthAt].map(|op| Call::read(op, at, text)));
            let (code, length) = (answers[0].answer, answers[1].answer);
            assert_eq!((code, length), want, "code and length at {at} of {text:02X?}");
            let character = char::from_u32(code as u32);
            assert_eq!(shown.next(), Some(character.unwrap_or(char::REPLACEMENT_CHARACTER)), "at {at} of {text:02X?}");
            self.0[character.map_or(length as usize, |_| 0)] += 1;
            at += length;
        }
        assert_eq!((shown.next(), at), (None, text.len() as u64), "the end of {text:02X?}");
    }
}

impl std::fmt::Display for Counts {
    fn fmt(&self, f: &mut std::fmt::Formatter) -> std::fmt::Result {
        let [characters, one, two, three] = self.0;
        write!(f, "{characters} characters, and {one}, {two} and {three} broken units of 1, 2 and 3 bytes")
    }
}

#[test]
fn the_worked_cases() {
    let mut counts = Counts::default();
    for (text, want) in texts::WORKED {
        let as_written = |(code, length): Unit| char::from_u32(code as u32).unwrap_or_else(|| char::from_digit(length as u32, 10).unwrap());
        assert_eq!(units(text).map(as_written).collect::<String>(), want, "by the Rust library, {text:02X?}");
        counts.walk(text);
        compare(&[text.to_vec()], true);
    }
    println!("the worked cases: {counts}");
}

#[test]
fn every_sequence_of_up_to_three_bytes() {
    let (mut counts, mut texts) = (Counts::default(), 0);
    for length in 0..=3 {
        for number in 0u32..1 << (8 * length) {
            counts.walk(&number.to_be_bytes()[4 - length..]);
            texts += 1;
        }
    }
    println!("every sequence of up to 3 bytes, walked: {texts} texts, {counts}");
}

/// Every sequence of some bytes, of each length up to some, a part of them at a time.
fn every_sequence_of(bytes: &[u8], most: u32) -> impl Iterator<Item = Vec<Vec<u8>>> + '_ {
    const PART: usize = 1 << 15;
    let base = bytes.len();
    (0..=most).flat_map(move |length| {
        let count = base.pow(length);
        let text = move |i: usize| (0..length).rev().map(|k| bytes[i / base.pow(k) % base]).collect();
        (0..count).step_by(PART).map(move |from| (from..count.min(from + PART)).map(text).collect())
    })
}

/// Every lead byte, and the edges of each range of RFC 3629.
fn sharp() -> Vec<u8> {
    let mut bytes = vec![0x00, 0x41, 0x7F, 0x80, 0x8F, 0x90, 0x9F, 0xA0, 0xBF, 0xC0, 0xC1, 0xF5, 0xFF];
    bytes.extend(0xC2..=0xF4);
    bytes
}

#[test]
fn every_sequence_of_up_to_four_sharp_bytes() {
    let (mut texts, mut calls) = (0, 0);
    for some in every_sequence_of(&sharp(), 4) {
        texts += some.len();
        calls += compare(&some, false);
    }
    println!("every sequence of up to 4 of {} bytes, at their start: {texts} texts, {calls} calls", sharp().len());
}

/// The bytes at which RFC 3629's ranges begin and end.
#[rustfmt::skip]
const EDGES: [u8; 25] = [
    0x00, 0x41, 0x7F, 0x80, 0x8F, 0x90, 0x9F, 0xA0, 0xBF, 0xC0, 0xC1, 0xC2, 0xDF, 0xE0, 0xE1, 0xEC, 0xED, 0xEE, 0xEF, 0xF0, 0xF1, 0xF3,
    0xF4, 0xF5, 0xFF,
];

#[test]
fn every_sequence_of_up_to_four_bytes_at_the_edges() {
    let (mut counts, mut texts, mut calls) = (Counts::default(), 0, 0);
    for some in every_sequence_of(&EDGES, 4) {
        texts += some.len();
        calls += compare(&some, true);
        some.iter().for_each(|text| counts.walk(text));
    }
    println!("every sequence of up to 4 of {} bytes, at every place and walked: {texts} texts, {calls} calls, {counts}", EDGES.len());
}

/// All that characters begin with and that is not a whole one, at the end of a text and before each byte.
#[test]
fn every_cut_character_before_every_byte() {
    let (mut counts, mut texts, mut last) = (Counts::default(), 0, vec![]);
    for c in '\0'..=char::MAX {
        let whole = c.to_string().into_bytes();
        for left in 1..whole.len() {
            // Characters that share a front stand side by side.
            if last.get(..left) == Some(&whole[..left]) {
                continue;
            }
            let cut = &whole[..left];
            counts.walk(cut);
            (0..=0xFF).for_each(|next| counts.walk(&[cut, &[next]].concat()));
            texts += 257;
        }
        last = whole;
    }
    println!("every cut character at the end and before every byte, walked: {texts} texts, {counts}");
}

/// Texts of good characters and damaged ones, long enough that runs of ASCII are passed in blocks.
fn random_texts(n: usize) -> Vec<Vec<u8>> {
    let mut r = Random(0x9E3779B97F4A7C15);
    let good: [&[u8]; 8] =
        [b"a", b" ", b"SELECT number FROM system.numbers ", "é".as_bytes(), "ש".as_bytes(), "س".as_bytes(), "€".as_bytes(), "😀".as_bytes()];
    let bad: [&[u8]; 8] =
        [b"\x80", b"\xC0\x80", b"\xED\xA0\x80", b"\xF4\x90\x80\x80", b"\xE0\x80\x80", b"\xF0\x8F\x80\x80", b"\xE2\x82", b"\xF0\x9F\x98"];
    (0..n)
        .map(|_| {
            let mut text = vec![];
            for _ in 0..r.below(40) {
                text.extend(if r.below(60) == 0 { r.one_of(&bad) } else { r.one_of(&good) });
            }
            if r.below(4) == 0 && !text.is_empty() {
                let at = r.below(text.len());
                text[at] = r.next() as u8;
            }
            text
        })
        .collect()
}

#[test]
fn random_texts_at_every_place() {
    compare(&random_texts(3000), true);
}

/// Queries: half of them with bytes replaced, removed and doubled, and all that are still UTF-8 with cut characters put in.
#[test]
fn damaged_texts_at_every_place() {
    let mut r = Random(0xBB1377B7A7C15F39);
    let n = texts::how_many(300_000);
    let (mut counts, mut calls) = (Counts::default(), 0);
    for _ in 0..n / 100 {
        let text = |i| {
            let whole = texts::random(&mut r);
            let text = if i % 2 == 0 { texts::damaged(&mut r, &whole) } else { whole.into_bytes() };
            match std::str::from_utf8(&text) {
                Ok(_) => texts::cut(&mut r, &text),
                Err(_) => text,
            }
        };
        let some: Vec<Vec<u8>> = (0..100).map(text).collect();
        assert!(some.iter().all(|text| std::str::from_utf8(text).is_err()));
        calls += compare(&some, true);
        some.iter().for_each(|text| counts.walk(text));
    }
    println!("{n} damaged texts, none of them UTF-8, at every place and walked: {calls} calls, {counts}");
}

/// The fronts of a run, whole and with one byte replaced by each of some.
fn damaged(run: &[u8], bad: &[u8]) -> Vec<Vec<u8>> {
    let mut texts = vec![];
    for len in 0..run.len() {
        let front = run[..len].to_vec();
        for at in 0..len {
            texts.extend(bad.iter().map(|b| [&front[..at], &[*b], &front[at + 1..]].concat()));
        }
        texts.push(front);
    }
    texts
}

#[test]
fn one_bad_byte_at_every_place_of_a_run_of_ascii() {
    compare(&damaged(&[b'a'; 200], &[0x80]), false);
}

#[test]
fn one_bad_byte_at_every_place_of_a_run_of_two_byte_characters() {
    let whole = "ש".repeat(100);
    let split = format!("שa{whole}");
    for run in [whole, split] {
        compare(&damaged(run.as_bytes(), &[b'a', 0x80, 0xC1, 0xD7, 0xE0]), false);
    }
}

#[test]
fn a_cursor_far_beyond_the_text() {
    for at in [5, 6, 1 << 40, u64::MAX - 2, u64::MAX] {
        let calls = [Op::CodeAt, Op::LengthAt].map(|op| Call::read(op, at, "aשb".as_bytes()));
        let got: Vec<u64> = ask(&calls).iter().map(|a| a.answer).collect();
        assert_eq!(got, [NO_CODE, 0]);
    }
}

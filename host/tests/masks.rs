//! Masked copies, through the C function, against document 01's hidden bytes over the Rust's lists; and the Rust lists each copy as its text.
#![cfg(oracle)]
use host::{ask, compare, compared, oracle, reading, texts, Answer, Call, Random, Triple, AROUND_THE_LIMIT};

fn list(text: &[u8]) -> Vec<Triple> {
    oracle::full(std::str::from_utf8(text).expect("a text that is masked, and its copy, are UTF-8"))
}

fn want(call: &Call) -> Answer {
    reading::mask(call, || list(call.text))
}

/// Calls for the copy of a text with buffers of some of these lengths: none, a byte short, just enough, and more.
fn with_lengths<'a>(text: &'a [u8], some: impl IntoIterator<Item = usize>) -> impl Iterator<Item = Call<'a>> {
    let lengths = [0, text.len().saturating_sub(1), text.len(), text.len() + 25];
    some.into_iter().map(move |i| Call::mask(text, lengths[i]))
}

/// Compares, and holds each copy that the library gives to its promises: the Rust lists it as the text, and its own copy is the same.
fn compare_copies<'a>(calls: impl Iterator<Item = Call<'a>>) -> usize {
    let calls: Vec<Call> = calls.collect();
    let answers = compared(&calls, calls.iter().map(want));
    let done = calls.iter().zip(&answers).filter(|(_, answer)| answer.answer >> 56 == 0);
    let copies: Vec<(&[u8], &[u8])> = done.map(|(call, answer)| (call.text, &answer.memory[..call.text.len()])).collect();
    for (text, copy) in &copies {
        assert!(list(copy) == list(text), "{}\nis listed otherwise than\n{}", copy.escape_ascii(), text.escape_ascii());
    }
    let again: Vec<Call> = copies.iter().map(|(_, copy)| Call::mask(copy, copy.len())).collect();
    let same = again.iter().map(|call| {
        let memory = [call.text, &call.memory[call.text.len()..]].concat();
        Answer { answer: reading::answer(0, 0, call.text.len()), memory }
    });
    calls.len() + compare(&again, same)
}

#[test]
fn every_text_of_up_to_four_characters() {
    let mut r = Random(0x3F84D5B5B5470917);
    let mut compared = 0;
    for some in (0..=3).flat_map(texts::every) {
        compared += compare_copies(some.iter().flat_map(|text| with_lengths(text.as_bytes(), 0..4)));
    }
    for some in texts::every(4) {
        compared += compare_copies(some.iter().flat_map(|text| with_lengths(text.as_bytes(), [2, r.one_of(&[0, 1, 3])])));
    }
    println!("every text of up to 4 characters, with just enough bytes, and with fewer or more: {compared} calls");
}

#[test]
fn every_longer_text_of_a_few_characters() {
    let mut compared = 0;
    for (characters, most) in [(&texts::OF_HERE_DOCS[..], 9), (&texts::OF_COMMENTS, 8)] {
        for some in (0..=most).flat_map(|length| texts::every_of(characters, length)) {
            compared += compare_copies(some.iter().flat_map(|text| with_lengths(text.as_bytes(), [2])));
        }
    }
    println!("every text of up to 9 characters of here-documents, and of up to 8 of comments: {compared} calls");
}

#[test]
fn every_character() {
    let texts: Vec<String> = ('\0'..=char::MAX).map(|c| format!("{c}a{c}1{c}--{c}\n/*{c}*/'{c}'$a${c}$a$\u{2018}{c}")).collect();
    let mut compared = 0;
    for some in texts.chunks(1 << 14) {
        compared += compare_copies(some.iter().flat_map(|text| with_lengths(text.as_bytes(), [2])));
    }
    println!("every character, first, in a word, after a number, in comments, in strings and in a here-document: {compared} calls");
}

#[test]
fn random_texts() {
    let mut r = Random(0x9216D5D98979FB1B);
    let n = texts::how_many(300_000);
    let (mut bytes, mut broken, mut compared) = (0, 0, 0);
    for _ in 0..n / 100 {
        let text = |i| {
            let text = texts::random(&mut r);
            if i % 4 == 0 {
                texts::damaged(&mut r, &text)
            } else {
                text.into_bytes()
            }
        };
        let some: Vec<Vec<u8>> = (0..100).map(text).collect();
        bytes += some.iter().map(Vec::len).sum::<usize>();
        broken += some.iter().filter(|text| std::str::from_utf8(text).is_err()).count();
        compared += compare_copies(some.iter().flat_map(|text| with_lengths(text, 0..4)));
    }
    println!("{n} random texts of {bytes} bytes, {broken} of them not UTF-8: {compared} calls");
}

#[test]
fn every_short_text_at_the_end_of_a_block() {
    let (mut count, mut compared) = (0, 0);
    for (_, some) in texts::at_the_end_of_a_block() {
        count += some.len();
        compared += compare_copies(some.iter().flat_map(|text| with_lengths(text.as_bytes(), [2])));
    }
    println!("{count} texts with a short text at the end of a block: {compared} calls");
}

#[test]
fn plain_stretches() {
    let mut r = Random(0x9C30D5392AF26013);
    let n = texts::how_many(100_000);
    let (mut bytes, mut compared) = (0, 0);
    for _ in 0..n / 100 {
        let some: Vec<String> = (0..100).map(|_| texts::stretches(&mut r)).collect();
        bytes += some.iter().map(String::len).sum::<usize>();
        compared += compare_copies(some.iter().flat_map(|text| with_lengths(text.as_bytes(), [2])));
    }
    println!("{n} texts of {bytes} bytes, of plain stretches: {compared} calls");
}

#[test]
fn texts_of_many_dollars() {
    let mut r = Random(0xA458FEA3F4933D7E);
    let n = texts::how_many(60);
    let mut compared = 0;
    for _ in 0..n {
        let length = 10_000 + r.below(50_000);
        let text = texts::dollars(&mut r, length).into_bytes();
        compared += compare_copies(with_lengths(&text, [2]));
    }
    println!("{n} texts with many dollar signs: {compared} calls");
}

/// Around the size limit: one long token, a token a byte, queries, and each of these with its last byte broken.
#[test]
fn sizes() {
    let mut compared = 0;
    for length in AROUND_THE_LIMIT {
        for part in [" ", "+", "SELECT 'שלום', 1.5e3 -- ؟\n FROM `t`;", "$a", "'", "/*", "--"] {
            let mut text = part.repeat(length / part.len()).into_bytes();
            text.resize(length, b'\n');
            let mut broken = text.clone();
            broken[length - 1] = 0xE2;
            compared += compare_copies([text, broken].iter().flat_map(|text| with_lengths(text, 0..4)));
        }
    }
    println!("texts of {AROUND_THE_LIMIT:?} bytes: {compared} calls");
}

/// A text with its copy by the library, its list by the Rust, and which of its bytes are hidden.
struct Masked {
    text: String,
    copy: Vec<u8>,
    list: Vec<Triple>,
    hidden: Vec<bool>,
}

fn masked(texts: Vec<String>) -> Vec<Masked> {
    let calls: Vec<Call> = texts.iter().map(|text| Call::mask(text.as_bytes(), text.len())).collect();
    let copies = ask(&calls).into_iter().map(|answer| answer.memory);
    let of = |(text, mut copy): (&String, Vec<u8>)| {
        copy.truncate(text.len());
        let list = oracle::full(text);
        let hidden = reading::hidden(text.as_bytes(), &list);
        Masked { text: text.clone(), copy, list, hidden }
    };
    texts.iter().zip(copies).map(of).collect()
}

/// Whether two texts have the same list and agree on every byte that is not hidden. Just then their copies must be the same.
fn alike(a: &Masked, b: &Masked) -> bool {
    let mut bytes = a.text.bytes().zip(b.text.bytes()).zip(&a.hidden);
    let alike = a.list == b.list && bytes.all(|((x, y), hidden)| *hidden || x == y);
    assert_eq!(a.copy == b.copy, alike, "{:?} and {:?}", a.text, b.text);
    alike
}

#[test]
fn the_same_copy_of_texts_that_differ_in_a_character() {
    let mut counts = [0, 0];
    for (characters, most) in [(&texts::ALPHABET[..], 3), (&texts::OF_HERE_DOCS, 7), (&texts::OF_COMMENTS, 6)] {
        let base = characters.len();
        for length in 1..=most {
            let all = masked(texts::every_of(characters, length).flatten().collect());
            for (i, text) in all.iter().enumerate() {
                for unit in (0..length).map(|place| base.pow(place)) {
                    // All that this text becomes with another character at this place.
                    let first = i - i / unit % base * unit;
                    let others = (0..base).map(|digit| first + digit * unit).filter(|j| *j != i);
                    others.for_each(|j| counts[alike(text, &all[j]) as usize] += 1);
                }
            }
        }
    }
    assert!(!counts.contains(&0));
    println!("pairs of short texts, all but one character the same: {} with the same copy, {} without", counts[1], counts[0]);
}

#[test]
fn the_same_copy_of_altered_texts() {
    let mut r = Random(0xD1310BA698DFB5AC);
    let n = texts::how_many(300_000);
    let mut counts = [0, 0];
    for _ in 0..n / 100 {
        let some: Vec<String> = (0..100).map(|_| texts::random(&mut r)).collect();
        let alter = |text: &String| {
            let mut characters: Vec<char> = text.chars().collect();
            for _ in 0..characters.len().min(1 + r.below(3)) {
                let at = r.below(characters.len());
                characters[at] = r.one_of(&texts::ALPHABET);
            }
            characters.into_iter().collect()
        };
        let altered = masked(some.iter().map(alter).collect());
        for (a, b) in masked(some).iter().zip(&altered) {
            counts[alike(a, b) as usize] += 1;
        }
    }
    assert!(!counts.contains(&0));
    println!("{n} random texts, each with up to 3 characters altered: {} with the same copy, {} without", counts[1], counts[0]);
}

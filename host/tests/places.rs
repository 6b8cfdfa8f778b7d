//! Places, through the C function, against the second reading, and that against the protocol that editors follow.
use host::{compare, protocol, reading, texts, Answer, Call, Op, Random, AROUND_THE_LIMIT, MAX_QUERY_SIZE};

/// Compares the places of some offsets of a text: the library's with the second reading's, and those with the protocol's. The protocol is asked
/// about the text itself or, where that is not UTF-8, about one with a letter for each broken part.
fn compare_at(text: &[u8], offsets: impl IntoIterator<Item = u64>) -> usize {
    let (mended, places) = (protocol::mended(text), reading::places(text));
    let lines = protocol::lines(&mended);
    let calls: Vec<Call> = offsets.into_iter().map(|offset| Call::read(Op::Place, offset, text)).collect();
    for offset in calls.iter().map(|call| call.number as usize).filter(|offset| *offset <= text.len()) {
        let want = protocol::place(&lines, offset);
        assert!(places[offset] == want, "{offset} of {}: {:?}, by the protocol {want:?}", text.escape_ascii(), places[offset]);
    }
    let want = |call: &Call| Answer { answer: reading::place_of(text, call.number, &places), memory: vec![] };
    compare(&calls, calls.iter().map(want))
}

/// The same of every offset, and of some beyond.
fn compare_everywhere(text: &[u8]) -> usize {
    compare_at(text, texts::everywhere(text))
}

/// Compares every text of up to `most` of some pieces, everywhere; the number of texts and of calls.
fn compare_every(pieces: &[&[u8]], most: u32) -> (usize, usize) {
    let (mut count, mut compared) = (0, 0);
    for length in 0..=most {
        for i in 0..pieces.len().pow(length) {
            let text: Vec<u8> = (0..length).flat_map(|k| pieces[i / pieces.len().pow(k) % pieces.len()]).copied().collect();
            (count, compared) = (count + 1, compared + compare_everywhere(&text));
        }
    }
    (count, compared)
}

/// The characters that matter to a place, by their bytes, and bytes of which cut characters of 1 to 3 bytes are made where the rest is not there.
#[rustfmt::skip]
const PIECES: [&[u8]; 12] =
    [b"a", b"\r", b"\n", "é".as_bytes(), "😀".as_bytes(), "ש".as_bytes(), b"\x80", b"\x9F", b"\xC0", b"\xE2", b"\xED", b"\xF0"];

#[test]
fn every_text_of_up_to_six_characters_and_broken_bytes() {
    let (count, compared) = compare_every(&PIECES, 6);
    println!("every text of up to 6 of {} characters and broken bytes, everywhere: {count} texts, {compared} calls", PIECES.len());
}

/// Bytes at the edges of LF and CR, with and without the high bit, and of each range of RFC 3629.
#[rustfmt::skip]
const BYTES: [u8; 32] = [
    0x00, 0x09, 0x0A, 0x0B, 0x0C, 0x0D, 0x0E, 0x7F, 0x80, 0x8A, 0x8D, 0x8F, 0x90, 0x9F, 0xA0, 0xBF, 0xC0, 0xC1, 0xC2, 0xDF, 0xE0, 0xE1, 0xEC, 0xED,
    0xEE, 0xEF, 0xF0, 0xF1, 0xF3, 0xF4, 0xF5, 0xFF,
];

#[test]
fn every_text_of_up_to_four_sharp_bytes() {
    let pieces: Vec<&[u8]> = BYTES.iter().map(std::slice::from_ref).collect();
    let (count, compared) = compare_every(&pieces, 4);
    println!("every text of up to 4 of {} bytes, everywhere: {count} texts, {compared} calls", BYTES.len());
}

/// Before, between and after each, since its first and last byte may be taken for what they are not.
#[test]
fn every_character() {
    let mut compared = 0;
    for c in '\0'..=char::MAX {
        let text = format!("{c}\r{c}\n{c}");
        compared += compare_at(text.as_bytes(), 0..=text.len() as u64);
    }
    println!("every character, before, between and after line ends: {compared} calls");
}

/// Runs of characters of one length, and of several.
#[rustfmt::skip]
const RUNS: [&[u8]; 7] =
    [b"a", "ש".as_bytes(), "ა".as_bytes(), "😀".as_bytes(), "aש".as_bytes(), "שა".as_bytes(), "select 'שלום' ა😀 ".as_bytes()];

/// Runs of cut characters of each length, and of these beside whole ones of each: the blocks that places are counted by are told by the bytes in them.
#[rustfmt::skip]
const CUT_RUNS: [&[u8]; 10] = [
    b"\xC2", b"\xE1\x80", b"\xE0\xA0", b"\xF1\x80\x80", b"\xF0\x9F\x98", b"a\xE2\x80", b"\xD7\xA9\xC2\xE1\x80", b"\xE1\x83\x90\xE1\x80\xF0\x9F\x98",
    b"\xF0\x9F\x98\x80\xE1\x80\xF0\x9F", b"a\xE1\x80\xD7\xA9\xF0\x9F\x98\xE1\x83\x90\xC2\xF0\x9F\x98\x80\xF1\x80\x80",
];

/// Both.
fn all_runs() -> impl Iterator<Item = &'static [u8]> {
    RUNS.into_iter().chain(CUT_RUNS)
}

/// What ends a line or looks like it, characters of each length, and broken ones: cut after each of their bytes, with a line's end beside them too, of
/// surrogates, beyond the last, and too long for their code. The last, two tails, makes whole some of what is cut.
#[rustfmt::skip]
const BETWEEN: [&[u8]; 31] = [
    b"\r\n", b"\r", b"\n", b"\n\r", b"\r\r\n\n", b"\n\x0B", b"\r\x0C", b"\xE2\x80\xA8", b"\xC4\x8A", b"a", "ש".as_bytes(), "ა".as_bytes(),
    "😀".as_bytes(), b"\x80", b"\xD7", b"\xE2\x80", b"\xF0\x9F\x98", b"\xED\xA0\x80", b"\xF4\x90\x80\x80", b"\xC0\x80", b"\xE0\x80\x8A", b"\xFF",
    b"\xE0\xA0", b"\xED\x9F", b"\xF0\x9F", b"\xF1\x80\x80", b"\xF4\x8F\xBF", b"\xE2\x80\n", b"\r\xE2\x80", b"\r\xF0\x9F\x98\r\n", b"\x80\x80",
];

/// A run of some bytes at least.
fn run(of: &[u8], bytes: usize) -> Vec<u8> {
    of.repeat(bytes / of.len() + 1)
}

/// Places are counted in blocks, which begin where the text, a line or the offset lets them: everything stands at each place of several blocks, in
/// the middle of a character too.
#[test]
fn one_thing_at_every_place_of_a_run() {
    let mut compared = 0;
    for (run, between) in all_runs().flat_map(|of| BETWEEN.map(|between| (run(of, 260), between))) {
        for at in 0..=run.len() {
            compared += compare_everywhere(&[&run[..at], between, &run[at..]].concat());
        }
    }
    println!("each of {} things at every place of {} runs, everywhere: {compared} calls", BETWEEN.len(), all_runs().count());
}

/// A line that begins anywhere in the first blocks, and something at every place after its beginning.
#[test]
fn one_thing_at_every_place_of_a_line() {
    let mut compared = 0;
    for (run, between) in RUNS.iter().flat_map(|of| BETWEEN.map(|between| (run(of, 80), between))) {
        for (eol, from) in [&b"\n"[..], b"\r\n", b"\r"].into_iter().flat_map(|eol| (0..=16).map(move |from| (eol, from))) {
            for at in 0..=run.len() {
                let text = [&run[..from], eol, &run[..at], between, &run[at..]].concat();
                compared += compare_at(&text, (text.len() - between.len()) as u64 - 3..=text.len() as u64);
            }
        }
    }
    println!("each of {} things at every place of a line in {} runs, at the end: {compared} calls", BETWEEN.len(), RUNS.len());
}

/// The first and the last character are whole or cut, and the text begins at any address.
#[test]
fn every_part_of_a_run() {
    let mut compared = 0;
    for run in all_runs().map(|of| run(of, 260)) {
        for start in 0..=16 {
            compared += (start..=run.len()).map(|end| compare_everywhere(&run[start..end])).sum::<usize>();
        }
    }
    println!("every part of {} runs from their first 17 bytes on, everywhere: {compared} calls", all_runs().count());
}

/// As long as a count that is held in a byte or in two of a block's would overflow.
#[test]
fn long_runs() {
    let mut r = Random(0x636920D871574E69);
    let mut compared = 0;
    for of in all_runs().chain(BETWEEN) {
        let text = of.repeat(300_000 / of.len());
        let anywhere = (0..300).map(|_| r.below(text.len()) as u64);
        let around = (1..=16).flat_map(|k| [2040, 4080, 8160, 16_320].map(|bytes| k * bytes)).flat_map(|at| at - 1..=at + 1);
        let offsets: Vec<u64> = anywhere.chain(around).chain(text.len() as u64 - 20..=text.len() as u64).collect();
        compared += compare_at(&text, offsets);
    }
    println!("texts of 300,000 bytes, each of one thing: {compared} calls");
}

#[test]
fn random_texts() {
    let mut r = Random(0x71574E69A458FEA3);
    let n = texts::how_many(30_000);
    let (mut broken, mut astral, mut cr, mut cr_lf, mut compared) = (0, 0, 0, 0, 0);
    for i in 0..n {
        let mut text = if i % 3 < 2 { texts::lines(&mut r) } else { texts::random(&mut r) };
        text.truncate(text.floor_char_boundary(1500));
        let text = match i % 4 {
            0 | 2 => text.into_bytes(),
            1 => texts::cut(&mut r, text.as_bytes()),
            _ => texts::damaged(&mut r, &text),
        };
        match std::str::from_utf8(&text) {
            Ok(valid) => astral += valid.chars().any(|c| c.len_utf16() == 2) as usize,
            Err(_) => broken += 1,
        }
        cr_lf += text.windows(2).any(|two| two == b"\r\n") as usize;
        cr += text.windows(2).any(|two| two[0] == b'\r' && two[1] != b'\n') as usize;
        compared += compare_everywhere(&text);
    }
    assert!([broken, astral, cr, cr_lf].iter().all(|some| *some > n / 20), "{broken}, {astral}, {cr} and {cr_lf} of {n} texts");
    println!(
        "{n} random texts, {broken} of them not UTF-8, {astral} of the others with a character above U+FFFF, {cr} with a CR alone, \
         {cr_lf} with CR LF, everywhere: {compared} calls"
    );
}

/// Document 01's own sentence still holds of ASCII without CR: the line counts LF bytes, the column bytes.
#[test]
fn ascii_without_cr_has_the_places_of_old() {
    let mut r = Random(0xA458FEA3F4933D7E);
    let n = texts::how_many(10_000);
    let mut compared = 0;
    for i in 0..n {
        let text = if i % 2 == 0 { texts::random(&mut r) } else { texts::stretches(&mut r) };
        let mut text: Vec<u8> = text.bytes().filter(|byte| byte.is_ascii() && *byte != b'\r').collect();
        text.truncate(1000);
        let calls: Vec<Call> = (0..=text.len() as u64).map(|offset| Call::read(Op::Place, offset, &text)).collect();
        let old = |call: &Call| {
            let before = &text[..call.number as usize];
            let line = before.iter().filter(|byte| **byte == b'\n').count();
            let column = before.iter().rev().take_while(|byte| **byte != b'\n').count();
            Answer { answer: reading::packed_place((line, column)), memory: vec![] }
        };
        compared += compare(&calls, calls.iter().map(old));
    }
    println!("{n} random texts of ASCII without CR, everywhere, by document 01: {compared} calls");
}

/// Around the size limit, with several reasons to refuse at once; broken bytes are no reason.
#[test]
fn sizes() {
    let mut compared = 0;
    for length in AROUND_THE_LIMIT {
        for piece in all_runs().chain(BETWEEN) {
            let mut text = piece.repeat(MAX_QUERY_SIZE / piece.len() + 2);
            text.truncate(length);
            let end = length as u64;
            compared += compare_at(&text, [0, 1, 500_000, end - 2, end - 1, end, end + 1, u64::MAX]);
        }
    }
    println!("texts of {AROUND_THE_LIMIT:?} bytes: {compared} calls");
}

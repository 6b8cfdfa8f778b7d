//! The library in the bridge against the linked one: the same answers, byte for byte. On x86-64 the archive that hosts link is linked, and the
//! bridge has it too or, where GIEHTAMUN_BRIDGE is aarch64, the one for Arm.
use host::{ask, bridge, compare, reading, saved, texts, Answer, Call, Op, Random, MAX_QUERY_SIZE, TOKEN_BYTES};

/// Calls for a list with buffers of some lengths: none, a byte short, just enough, and a token for each byte of the text.
fn lists<'a>(calls: &mut Vec<Call<'a>>, op: Op, mode: u32, position: u64, text: &'a [u8]) {
    let without = Call::list(op, mode, position, text, 0);
    let tokens = match ask(&[without])[0].answer {
        refused if refused >> 56 == 3 => refused as u32 as usize,
        _ => 0,
    };
    let lengths = [0, (TOKEN_BYTES * tokens).saturating_sub(1), TOKEN_BYTES * tokens, TOKEN_BYTES * text.len()];
    calls.extend(lengths.map(|lent| Call::list(op, mode, position, text, lent)));
}

/// A list for the writer and a file for the reader: those of the text, half of them spoilt. Without such a file it is the text.
fn list_and_file(r: &mut Random, text: &[u8]) -> [Vec<u8>; 2] {
    let Answer { answer, mut memory } = ask(&[Call::list(Op::List, 0, 0, text, TOKEN_BYTES * text.len())]).remove(0);
    let tokens = if answer >> 56 == 0 { answer as usize } else { 0 };
    let flag = r.below(2);
    memory.truncate(TOKEN_BYTES * if flag == 0 { tokens } else { r.below(tokens + 1) });
    let file = saved::written(text, &memory, flag as u32).unwrap_or(text.to_vec());
    [memory, file].map(|right| if r.below(2) == 0 { texts::spoilt(r, &right) } else { right })
}

/// Calls of each function for a text, at a few of its places: the token from anywhere, and any other part; and for a list and a file.
fn calls<'a>(r: &mut Random, text: &'a [u8], [list, file]: &'a [Vec<u8>; 2]) -> Vec<Call<'a>> {
    let length = text.len();
    let any = |r: &mut Random| r.below(length + 2) as u64;
    let mut calls = [Op::ValidLength, Op::FirstStatement, Op::StatementText].map(|op| Call::read(op, 0, text)).to_vec();
    for mode in [0, 1, 2] {
        lists(&mut calls, Op::List, mode, 0, text);
        lists(&mut calls, Op::ListUpTo, mode, any(r), text);
    }
    calls.extend([0, length.saturating_sub(1), length, length + 25].map(|lent| Call::mask(text, lent)));
    for _ in 0..3 {
        let (kind, start, end) = reading::token_at(text, r.below(length + 1));
        for (kind, start, end) in [(kind, start as u64, end as u64), (r.below(50) as u32, any(r), any(r))] {
            calls.extend([Op::Step, Op::Place, Op::CodeAt, Op::LengthAt].map(|op| Call::read(op, start, text)));
            calls.push(Call::token_text(text, start, end));
            calls.extend([length, length + 1].map(|lent| Call::shown_text(text, lent, kind, start, end)));
        }
        let codes = r.one_of(&[0x3000, 0x110000]);
        let code = r.below(codes) as u64;
        calls.extend([Op::IsWhiteSpace, Op::IsAlphabetic, Op::IsAlphanumeric].map(|op| Call::read(op, code, &[])));
    }
    let needed = length + saved::RECORD_BYTES * (list.len() / TOKEN_BYTES) + saved::TRAILER_BYTES;
    calls.extend([(0, needed), (1, needed - 1), (1, needed + 25), (2, needed)].map(|(flag, lent)| Call::save(text, list, flag, lent)));
    calls.extend([0, list.len().saturating_sub(1), TOKEN_BYTES * length].map(|lent| Call::load(file, lent)));
    calls.push(Call::read(Op::SavedText, 0, file));
    calls
}

/// A text, one of four damaged: a query mostly; of plain stretches, which the library takes in blocks; of lines of all kinds, as it counts places in
/// blocks too; or with so many `$` that it looks ahead.
fn text(r: &mut Random, i: usize) -> Vec<u8> {
    let text = match i % 100 {
        0 => texts::dollars(r, 20_000),
        1..=20 => texts::stretches(r),
        21..=40 => texts::lines(r),
        _ => texts::random(r),
    };
    if r.below(4) == 0 {
        texts::damaged(r, &text)
    } else {
        text.into_bytes()
    }
}

#[test]
fn random_texts() {
    let mut r = Random(0xA4093822299F31D0);
    let n = texts::how_many(20_000);
    let (mut bytes, mut broken, mut compared) = (0, 0, 0);
    for _ in 0..n / 100 {
        let some: Vec<Vec<u8>> = (0..100).map(|i| text(&mut r, i)).collect();
        bytes += some.iter().map(Vec::len).sum::<usize>();
        broken += some.iter().filter(|text| std::str::from_utf8(text).is_err()).count();
        let saved: Vec<[Vec<u8>; 2]> = some.iter().map(|text| list_and_file(&mut r, text)).collect();
        let all: Vec<Call> = some.iter().zip(&saved).flat_map(|(text, saved)| calls(&mut r, text, saved)).collect();
        compared += compare(&all, bridge::ask(&all));
    }
    println!("the bridge: {n} random texts of {bytes} bytes, {broken} of them not UTF-8: {compared} calls");
}

#[test]
fn sizes() {
    let mut r = Random(0x801F2E2858EFC16);
    let mut compared = 0;
    for length in [MAX_QUERY_SIZE, MAX_QUERY_SIZE + 1] {
        for part in ["+", "\n", "'", "$a"] {
            let mut text = part.repeat(length / part.len()).into_bytes();
            text.resize(length, b'a');
            let saved = list_and_file(&mut r, &text);
            let all = calls(&mut r, &text, &saved);
            compared += compare(&all, bridge::ask(&all));
        }
    }
    println!("the bridge: texts of the size limit and a byte more: {compared} calls");
}

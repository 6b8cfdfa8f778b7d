//! A second program for saved token lists, from the text of document 02 alone (#101): what a file is, both ways, and what the three C functions must
//! answer and leave.
use crate::{reading, Answer, Call, Op, Triple, MAX_QUERY_SIZE, TOKEN_BYTES};

/// "a trailer of 12 bytes that points back"
pub const TRAILER_BYTES: usize = 12;

/// "A record is a kind byte and the token's end in 24 bits"
pub const RECORD_BYTES: usize = 4;

/// A refusal: its number and its value.
pub type Refusal = (u64, usize);

/// "Value 0, as for later refusals that name none."
const TOO_LONG: Refusal = (1, 0);
const MALFORMED: Refusal = (8, 0);
const UNKNOWN_VERSION: Refusal = (9, 0);

/// What a file holds. The flag is "0 full list, 1 partial".
#[derive(Debug, PartialEq)]
pub struct Saved<'a> {
    pub text: &'a [u8],
    pub tokens: Vec<Triple>,
    pub flag: u32,
}

/// "Both check that starts chain, ends rise and stay in the text, a full list ends with it, and kinds are 1 to 47 without 39"
fn is_sound(saved: &Saved) -> bool {
    let tokens = &saved.tokens;
    let ends: Vec<u32> = tokens.iter().map(|token| token.2).collect();
    // "its start is the end before it, and the first starts at 0"
    let chain = tokens.iter().zip([0].iter().chain(&ends)).all(|(token, before)| token.1 == *before);
    let rise = tokens.iter().all(|(_, start, end)| start < end);
    let stay = ends.iter().all(|end| *end as usize <= saved.text.len());
    let ends_with_it = ends.last().copied().unwrap_or(0) as usize == saved.text.len();
    let kinds = tokens.iter().all(|token| matches!(token.0, 1..=38 | 40..=47));
    chain && rise && stay && (saved.flag == 1 || ends_with_it) && kinds
}

/// The last reason but room: "not UTF-8", with the "length of the longest valid prefix that ends at a character's end".
fn tested(text: &[u8]) -> Result<&str, Refusal> {
    std::str::from_utf8(text).map_err(|e| (2, e.valid_up_to()))
}

/// A number of up to four bytes, "low byte first".
fn number(bytes: &[u8]) -> u32 {
    bytes.iter().rev().fold(0, |number, byte| number << 8 | *byte as u32)
}

/// The file of a text, a packed list and a flag: "the query text first, then the records, then a trailer".
pub fn written(text: &[u8], list: &[u8], flag: u32) -> Result<Vec<u8>, Refusal> {
    if text.len() > MAX_QUERY_SIZE {
        return Err(TOO_LONG);
    }
    // "a flag above 1 or an incomplete last token is 8"
    if flag > 1 || !list.len().is_multiple_of(TOKEN_BYTES) {
        return Err(MALFORMED);
    }
    let tokens = list.chunks(TOKEN_BYTES).map(|token| (number(&token[..4]), number(&token[4..8]), number(&token[8..]))).collect();
    let saved = Saved { text, tokens, flag };
    if !is_sound(&saved) {
        return Err(MALFORMED);
    }
    let mut file = tested(text)?.as_bytes().to_vec();
    for (kind, _, end) in &saved.tokens {
        file.push(*kind as u8);
        file.extend(&end.to_le_bytes()[..3]);
    }
    // "offset of the first record (32 bits), number of records (32 bits), a flag byte (0 full list, 1 partial), version byte 1, two zero bytes"
    file.extend((text.len() as u32).to_le_bytes());
    file.extend((saved.tokens.len() as u32).to_le_bytes());
    file.extend([flag as u8, 1, 0, 0]);
    Ok(file)
}

/// What a file holds, "in the order 9, 1 (by the trailer's offset), 8, 2".
pub fn read(file: &[u8]) -> Result<Saved<'_>, Refusal> {
    // "a file under 12 bytes is 8"
    let Some((front, trailer)) = file.split_last_chunk::<TRAILER_BYTES>() else {
        return Err(MALFORMED);
    };
    let (offset, count) = (number(&trailer[..4]) as usize, number(&trailer[4..8]) as usize);
    let [flag, version, zeros @ ..] = &trailer[8..] else { unreachable!() };
    if *version != 1 {
        return Err(UNKNOWN_VERSION);
    }
    if offset > MAX_QUERY_SIZE {
        return Err(TOO_LONG);
    }
    // "The reader also checks lengths, flag and zero bytes"
    if front.len() != offset + RECORD_BYTES * count || *flag > 1 || zeros != [0, 0] {
        return Err(MALFORMED);
    }
    // "its text is a part of the file"
    let (text, records) = front.split_at(offset);
    let mut saved = Saved { text, tokens: vec![], flag: *flag as u32 };
    let mut start = 0;
    for record in records.chunks(RECORD_BYTES) {
        let end = number(&record[1..]);
        saved.tokens.push((record[0] as u32, start, end));
        start = end;
    }
    if !is_sound(&saved) {
        return Err(MALFORMED);
    }
    tested(text)?;
    Ok(saved)
}

/// "A refusal writes nothing".
fn refused(call: &Call, (number, value): Refusal) -> Answer {
    Answer { answer: reading::answer(number, 0, value), memory: call.memory.clone() }
}

/// "A success fills the front of the buffer and keeps the rest." The flag, which the reader alone gives, stands where a step has its kind.
fn done(call: &Call, flag: u32, value: usize, mut stored: Vec<u8>) -> Answer {
    stored.extend(&call.memory[stored.len()..]);
    Answer { answer: reading::answer(0, flag, value), memory: stored }
}

fn save(call: &Call) -> Answer {
    match written(call.text, call.list, call.mode) {
        Err(refusal) => refused(call, refusal),
        Ok(file) if call.lent < file.len() => refused(call, (3, file.len())),
        Ok(file) => done(call, 0, file.len(), file),
    }
}

/// "its 3 counts tokens"
fn load(call: &Call) -> Answer {
    match read(call.text) {
        Err(refusal) => refused(call, refusal),
        Ok(saved) if call.lent / TOKEN_BYTES < saved.tokens.len() => refused(call, (3, saved.tokens.len())),
        Ok(saved) => done(call, saved.flag, saved.tokens.len(), reading::packed(&saved.tokens)),
    }
}

/// It needs no room.
fn saved_text(call: &Call) -> Answer {
    match read(call.text) {
        Err(refusal) => refused(call, refusal),
        Ok(saved) => done(call, 0, saved.text.len(), vec![]),
    }
}

/// What a call of one of the three functions must give.
pub fn answer(call: &Call) -> Answer {
    match call.op {
        Op::Save => save(call),
        Op::Load => load(call),
        Op::SavedText => saved_text(call),
        op => panic!("{op:?} saves nothing"),
    }
}

//! A second reading of document 01, from its text alone: the lexical rules over any bytes, and what the C functions must answer and leave. Places and
//! broken characters are as document 02 has mended them (#103, #105), and the first statement is its own (#102). Sentences are numbered as in
//! docs/DECISIONS.md: 4.1 is the first sentence of rule 4.
use crate::{Answer, Call, Op, Statement, Triple, MAX_QUERY_SIZE, TOKEN_BYTES};
use std::ops::Range;
use std::sync::OnceLock;

const WHITESPACE: u32 = 1;
const COMMENT: u32 = 2;
const NUMBER: u32 = 3;
const BARE_WORD: u32 = 4;
const STRING: u32 = 5;
const QUOTED_IDENTIFIER: u32 = 6;
const HERE_DOC: u32 = 7;
const SEMICOLON: u32 = 15;
const DOLLAR_SIGN: u32 = 18;
const VERTICAL_DELIMITER: u32 = 38;
const END_OF_STREAM: u32 = 39;
const COMMENT_IS_NOT_CLOSED: u32 = 40;
const SINGLE_QUOTE_IS_NOT_CLOSED: u32 = 41;
const DOUBLE_QUOTE_IS_NOT_CLOSED: u32 = 42;
const BACK_QUOTE_IS_NOT_CLOSED: u32 = 43;
const WRONG_NUMBER: u32 = 44;
const ERROR_TOKEN: u32 = 47;
const MAX_QUERY_SIZE_EXCEEDED: u32 = 48;

/// Rule 2, all of it but the character at which no rule starts a token. The longest choice that fits is taken.
#[rustfmt::skip]
const OPERATORS: [(&str, u32); 38] = [
    ("(", 8), (")", 9), ("[", 10), ("]", 11), ("{", 12), ("}", 13), (",", 14), (";", 15), (".", 16), ("*", 17), ("+", 19), ("%", 23),
    ("?", 24), ("^", 27), ("-", 20), ("/", 22), (":", 25), ("<", 31), (">", 33), ("@", 36), ("\u{2212}", 20), ("->", 21), ("::", 26),
    ("||", 35), ("@@", 37), ("!=", 30), ("<>", 30), ("<=", 32), ("<=>", 29), (">=", 34), ("=", 28), ("==", 28), ("=>", 28), ("=><", 29),
    ("\\G", 38), ("\\g", 38), ("!", 45), ("|", 46),
];

/// Some bytes as a number, the first the highest.
fn joined(bytes: &[u8]) -> usize {
    bytes.iter().fold(0, |joined, byte| joined << 8 | *byte as usize)
}

/// Whether up to 3 bytes, of which the first is not 0, begin some well-formed character and are not all of it. Every character is tried, once.
fn begins_some(bytes: &[u8]) -> bool {
    static BEGINNINGS: OnceLock<Vec<bool>> = OnceLock::new();
    let beginnings = BEGINNINGS.get_or_init(|| {
        let mut beginnings = vec![false; 1 << 24];
        for c in '\0'..=char::MAX {
            let mut bytes = [0; 4];
            let whole = c.encode_utf8(&mut bytes).as_bytes();
            (1..whole.len()).for_each(|n| beginnings[joined(&whole[..n])] = true);
        }
        beginnings
    });
    beginnings[joined(bytes)]
}

/// What stands at a place and its length: a character, or what is broken and of no class, or nothing, of length 0. Document 02, #105: "at a place
/// where no well-formed character begins, the unit is the longest run of bytes there that begins some well-formed character, or one byte if there is
/// none."
fn unit(text: &[u8], at: usize) -> (Option<char>, usize) {
    let rest = &text[at..];
    for n in 1..=rest.len().min(4) {
        if let Ok(one) = std::str::from_utf8(&rest[..n]) {
            return (one.chars().next(), n);
        }
    }
    let longest = (1..=rest.len().min(3)).rev().find(|n| begins_some(&rest[..*n]));
    (None, longest.unwrap_or(rest.len().min(1)))
}

/// Where the longest run of characters and broken units that pass a test ends.
fn run(text: &[u8], from: usize, test: impl Fn(Option<char>) -> bool) -> usize {
    let mut at = from;
    while at < text.len() && test(unit(text, at).0) {
        at += unit(text, at).1;
    }
    at
}

/// White_Space.
fn is_space(c: Option<char>) -> bool {
    c.is_some_and(char::is_whitespace)
}

/// 3.1: "alphanumeric characters (Alphabetic or general category Nd, Nl, No) and `_`"
fn is_of_words(c: Option<char>) -> bool {
    c.is_some_and(|c| c.is_alphabetic() || c.is_numeric() || c == '_')
}

/// 1.3: where a nested comment ends, if it is closed.
fn after_comment(text: &[u8], cursor: usize) -> Option<usize> {
    let (mut at, mut depth) = (cursor + 2, 1);
    while depth > 0 {
        match text.get(at..at + 2)? {
            b"/*" => (at, depth) = (at + 2, depth + 1),
            b"*/" => (at, depth) = (at + 2, depth - 1),
            _ => at += 1,
        }
    }
    Some(at)
}

/// 4.1: where the token of an ASCII quote ends, if it is closed.
fn after_quote(text: &[u8], cursor: usize, quote: char) -> Option<usize> {
    let mut at = cursor + 1;
    loop {
        let (c, n) = unit(text, at);
        let after = at + n;
        if n == 0 {
            return None;
        } else if c == Some('\\') {
            at = after + unit(text, after).1;
        } else if c != Some(quote) {
            at = after;
        } else if unit(text, after).0 == Some(quote) {
            at = after + 1;
        } else {
            return Some(after);
        }
    }
}

/// 4.2: where the token of a Unicode quote ends, if it is closed.
fn after_pair(text: &[u8], cursor: usize, close: char) -> Option<usize> {
    let at = run(text, cursor, |c| c != Some(close));
    (at < text.len()).then_some(at + close.len_utf8())
}

/// Rule 5: where the HereDoc ends, if one starts here.
fn after_here_doc(text: &[u8], cursor: usize) -> Option<usize> {
    let tag = text[cursor + 1..].iter().position(|b| *b == b'$')?;
    let whole = &text[cursor..cursor + tag + 2];
    let valid = whole[1..=tag].iter().all(|b| b.is_ascii_alphanumeric() || *b == b'_');
    let body = cursor + whole.len();
    let again = text[body..].windows(whole.len()).position(|w| w == whole)?;
    valid.then_some(body + again + whole.len())
}

/// 6.2: where a run of digits ends.
fn after_digits(text: &[u8], from: usize, digit: fn(&u8) -> bool) -> usize {
    let is_digit = |i: usize| text.get(i).is_some_and(digit);
    let mut at = from;
    while is_digit(at) || (at > from && is_digit(at - 1) && text.get(at) == Some(&b'_') && is_digit(at + 1)) {
        at += 1;
    }
    at
}

/// Rule 6: where the number ends, and whether it ended well.
fn after_number(text: &[u8], cursor: usize) -> (usize, bool) {
    // No rule names the byte 0.
    let byte = |at: usize| text.get(at).copied().unwrap_or(0);
    if cursor > 0 && byte(cursor - 1) == b'.' {
        return (after_digits(text, cursor + 1, u8::is_ascii_digit), true);
    }
    let prefix = (byte(cursor), byte(cursor + 1).to_ascii_lowercase(), byte(cursor + 2));
    let hex = matches!(prefix, (b'0', b'x', _)) && prefix.2.is_ascii_hexdigit();
    let taken = hex || matches!(prefix, (b'0', b'b', b'0' | b'1'));
    let digit = if hex { u8::is_ascii_hexdigit } else { u8::is_ascii_digit };
    let mut at = after_digits(text, cursor + 1 + taken as usize, digit);
    if byte(at) == b'.' {
        at = after_digits(text, at + 1, digit);
    }
    if byte(at).to_ascii_lowercase() == if hex { b'p' } else { b'e' } {
        at += 1;
        at += matches!(byte(at), b'+' | b'-') as usize;
        if !byte(at).is_ascii_digit() {
            return (at, false);
        }
        at = after_digits(text, at, u8::is_ascii_digit);
    }
    (at, true)
}

/// Rules 6 and 7: kind and end of what a digit starts.
fn number(text: &[u8], cursor: usize) -> (u32, usize) {
    let (end, well) = after_number(text, cursor);
    if !well {
        return (WRONG_NUMBER, end);
    }
    if !unit(text, end).0.is_some_and(|c| c.is_alphabetic() || c == '_') {
        return (NUMBER, end);
    }
    let taken = |c| is_of_words(c) || c == Some('$');
    let after = run(text, end, taken);
    (if run(text, cursor, taken) == after { BARE_WORD } else { WRONG_NUMBER }, after)
}

/// The token at a cursor that is not beyond the text.
pub fn token_at(text: &[u8], cursor: usize) -> Triple {
    let (first, length) = unit(text, cursor);
    let rest = &text[cursor..];
    let closed_or = |kind, unclosed, end: Option<usize>| end.map_or((unclosed, text.len()), |end| (kind, end));
    let (kind, end) = match first {
        None if length == 0 => (END_OF_STREAM, cursor),
        None => (ERROR_TOKEN, cursor + length),
        _ if is_space(first) => (WHITESPACE, run(text, cursor, is_space)),
        Some('0'..='9') => number(text, cursor),
        Some('a'..='z' | 'A'..='Z' | '_') => (BARE_WORD, run(text, cursor, is_of_words)),
        Some('\'') => closed_or(STRING, SINGLE_QUOTE_IS_NOT_CLOSED, after_quote(text, cursor, '\'')),
        Some('"') => closed_or(QUOTED_IDENTIFIER, DOUBLE_QUOTE_IS_NOT_CLOSED, after_quote(text, cursor, '"')),
        Some('`') => closed_or(QUOTED_IDENTIFIER, BACK_QUOTE_IS_NOT_CLOSED, after_quote(text, cursor, '`')),
        Some('\u{2018}') => closed_or(STRING, SINGLE_QUOTE_IS_NOT_CLOSED, after_pair(text, cursor, '\u{2019}')),
        Some('\u{201C}') => closed_or(QUOTED_IDENTIFIER, DOUBLE_QUOTE_IS_NOT_CLOSED, after_pair(text, cursor, '\u{201D}')),
        Some('$') => after_here_doc(text, cursor).map_or((DOLLAR_SIGN, cursor + 1), |end| (HERE_DOC, end)),
        Some('-') if rest.starts_with(b"--") => (COMMENT, run(text, cursor, |c| c != Some('\n'))),
        Some('/') if rest.starts_with(b"/*") => closed_or(COMMENT, COMMENT_IS_NOT_CLOSED, after_comment(text, cursor)),
        Some(_) => {
            let fits = OPERATORS.iter().filter(|(operator, _)| rest.starts_with(operator.as_bytes()));
            let longest = fits.max_by_key(|(operator, _)| operator.len());
            longest.map_or((ERROR_TOKEN, cursor + length), |(operator, kind)| (*kind, cursor + operator.len()))
        }
    };
    (kind, cursor as u32, end as u32)
}

/// The full list.
pub fn full(text: &[u8]) -> Vec<Triple> {
    let mut tokens = vec![];
    let mut at = 0;
    while at < text.len() {
        let token = token_at(text, at);
        at = token.2 as usize;
        tokens.push(token);
    }
    tokens
}

/// The list that a call of a listing asks for, from the full one.
pub fn asked(call: &Call, mut tokens: Vec<Triple>) -> Vec<Triple> {
    if call.op == Op::ListUpTo {
        tokens.retain(|t| (t.1 as u64) < call.number);
    }
    if call.mode == 1 {
        tokens.retain(|t| t.0 != WHITESPACE && (t.0 != COMMENT || call.op == Op::ListUpTo));
    }
    tokens
}

/// "the number in bits 56 to 63, a kind in bits 48 to 55 (steps only, else 0), the value in bits 0 to 47"
pub fn answer(number: u64, kind: u32, value: usize) -> u64 {
    number << 56 | (kind as u64) << 48 | value as u64
}

/// "A packed list holds 12 bytes a token: kind, start, end, each 32 bits, low byte first."
pub fn packed(tokens: &[Triple]) -> Vec<u8> {
    tokens.iter().flat_map(|t| [t.0, t.1, t.2]).flat_map(u32::to_le_bytes).collect()
}

/// What a call of a listing must give, where `asked` makes the list that it asks for.
pub fn listing(call: &Call, asked: impl FnOnce() -> Vec<Triple>) -> Answer {
    let refused = |number, value| Answer { answer: answer(number, 0, value), memory: call.memory.clone() };
    let stored = |number, tokens: Vec<Triple>| {
        if call.lent / TOKEN_BYTES < tokens.len() {
            return refused(3, tokens.len());
        }
        let mut memory = packed(&tokens);
        memory.extend(&call.memory[memory.len()..]);
        Answer { answer: answer(number, 0, tokens.len()), memory }
    };
    if call.mode > 1 {
        refused(6, 0)
    } else if call.text.len() > MAX_QUERY_SIZE {
        match call.op {
            Op::List => stored(1, vec![(MAX_QUERY_SIZE_EXCEEDED, 0, 0), (END_OF_STREAM, 0, 0)]),
            _ => refused(1, 0),
        }
    } else if let Err(e) = std::str::from_utf8(call.text) {
        refused(2, e.valid_up_to())
    } else {
        stored(0, asked())
    }
}

/// What a step must answer.
pub fn step(text: &[u8], cursor: u64) -> u64 {
    if text.len() > MAX_QUERY_SIZE {
        answer(1, 0, 0)
    } else if cursor > text.len() as u64 {
        answer(4, 0, 0)
    } else {
        let (kind, _, end) = token_at(text, cursor as usize);
        answer(0, kind, end as usize)
    }
}

/// "Hidden: in StringToken, all but the opening and closing quote .. Nothing else.": which bytes of a token are hidden.
fn hidden_in(kind: u32, token: &[u8]) -> Range<usize> {
    let length = token.len();
    // "1 byte, or 3 for the Unicode pair"
    let quote = if token[0].is_ascii() { 1 } else { 3 };
    match kind {
        STRING => quote..length - quote,
        HERE_DOC => {
            let tag = 2 + token[1..].iter().position(|b| *b == b'$').unwrap();
            tag..length - tag
        }
        COMMENT if token.starts_with(b"--") => 2..length,
        COMMENT => 2..length - 2,
        COMMENT_IS_NOT_CLOSED => 2..length,
        SINGLE_QUOTE_IS_NOT_CLOSED | DOUBLE_QUOTE_IS_NOT_CLOSED | BACK_QUOTE_IS_NOT_CLOSED => quote..length,
        _ => 0..0,
    }
}

/// Of each byte of a text, whether it is hidden in one of the text's tokens.
pub fn hidden(text: &[u8], tokens: &[Triple]) -> Vec<bool> {
    let mut hidden = vec![false; text.len()];
    for (kind, start, end) in tokens {
        let token = *start as usize..*end as usize;
        hidden[token.clone()][hidden_in(*kind, &text[token])].fill(true);
    }
    hidden
}

/// "Each hidden byte becomes 23 hex. The copy is as long as the text."
fn masked(text: &[u8], tokens: &[Triple]) -> Vec<u8> {
    text.iter().zip(hidden(text, tokens)).map(|(byte, hidden)| if hidden { 0x23 } else { *byte }).collect()
}

/// What a call for the masked copy must give, where `tokens` makes the text's full list.
pub fn mask(call: &Call, tokens: impl FnOnce() -> Vec<Triple>) -> Answer {
    let length = call.text.len();
    let refused = |number, value| Answer { answer: answer(number, 0, value), memory: call.memory.clone() };
    if length > MAX_QUERY_SIZE {
        refused(1, 0)
    } else if let Err(e) = std::str::from_utf8(call.text) {
        refused(2, e.valid_up_to())
    } else if call.lent < length {
        refused(3, length)
    } else {
        let mut memory = masked(call.text, &tokens());
        memory.extend(&call.memory[length..]);
        Answer { answer: answer(0, 0, length), memory }
    }
}

/// What a call for a token's text or shown text must answer.
pub fn part(call: &Call) -> u64 {
    let (text, start, end) = (call.text, call.number, call.end);
    let is_continuation = |at: u64| text.get(at as usize).is_some_and(|byte| (0x80..=0xBF).contains(byte));
    let no_kind = call.op == Op::ShownText && !(1..=48).contains(&call.mode);
    if text.len() > MAX_QUERY_SIZE {
        answer(1, 0, 0)
    } else if start > end || end > text.len() as u64 || is_continuation(start) || is_continuation(end) || no_kind {
        answer(5, 0, 0)
    } else if call.op == Op::ShownText && call.lent != text.len() {
        answer(7, 0, 0)
    } else {
        answer(0, 0, (end - start) as usize)
    }
}

/// What a place is read over: the text's characters and what is broken between them, with their lengths.
fn characters(text: &[u8]) -> Vec<(Option<char>, usize)> {
    let mut characters = vec![];
    let mut at = 0;
    while at < text.len() {
        let (c, length) = unit(text, at);
        at += length;
        characters.push((c, length));
    }
    characters
}

/// Document 02, #103: "a line ends at LF, at CR LF taken together, or at CR alone": whether one ends between a character and what follows it.
fn ends_line(c: Option<char>, next: Option<char>) -> bool {
    c == Some('\n') || (c == Some('\r') && next != Some('\n'))
}

/// "columns are UTF-16 code units (two for a character above U+FFFF, otherwise one)"; of what is broken, #105: "the unit is one character of one
/// column".
fn columns(c: Option<char>) -> usize {
    if c.is_some_and(|c| c > '\u{FFFF}') {
        2
    } else {
        1
    }
}

/// The line and the column of each offset in a text, and of its end.
pub fn places(text: &[u8]) -> Vec<(usize, usize)> {
    let characters = characters(text);
    // What ends a line belongs to it: "one between CR and LF belongs to the line they end, after the CR".
    let mut lines: Vec<&[(Option<char>, usize)]> = characters.chunk_by(|one, next| !ends_line(one.0, next.0)).collect();
    if characters.last().is_none_or(|last| ends_line(last.0, None)) {
        lines.push(&[]);
    }
    let mut places = vec![];
    let mut end = (0, 0);
    for (line, characters) in lines.into_iter().enumerate() {
        end = (line, 0);
        for (c, length) in characters {
            // "An offset inside a character has the place of that character"
            places.extend(std::iter::repeat_n(end, *length));
            end.1 += columns(*c);
        }
    }
    places.push(end);
    places
}

/// The line in bits 28 to 55, the column in bits 0 to 27; the number, in bits 56 to 63, is 0.
pub fn packed_place((line, column): (usize, usize)) -> u64 {
    (line as u64) << 28 | column as u64
}

/// What a place must answer, where `places` are those of the text.
pub fn place_of(text: &[u8], offset: u64, places: &[(usize, usize)]) -> u64 {
    if text.len() > MAX_QUERY_SIZE {
        answer(1, 0, 0)
    } else if offset > text.len() as u64 {
        answer(4, 0, 0)
    } else {
        packed_place(places[offset as usize])
    }
}

/// What a place must answer.
pub fn place(text: &[u8], offset: u64) -> u64 {
    place_of(text, offset, &places(text))
}

/// Whether a token ends a statement.
pub fn is_delimiter(token: &Triple) -> bool {
    token.0 == SEMICOLON || token.0 == VERTICAL_DELIMITER
}

/// Document 02, #102: "what stands before the first Semicolon or VerticalDelimiter", of a text with this full list.
pub fn statement(text: &[u8], tokens: &[Triple]) -> Statement {
    match tokens.iter().position(is_delimiter) {
        // "the end offset of that first delimiter token", "the delimiter's place in the full list counted from one"
        Some(i) => Statement { tokens: i + 1, before: tokens[i].1 as usize, end: tokens[i].2 as usize },
        // "or the text's length if there is none", "or the list's length"
        None => Statement { tokens: tokens.len(), before: text.len(), end: text.len() },
    }
}

/// What the first statement must answer: the tokens read in bits 28 to 55, the end in bits 0 to 27. "Refusals: only 1."
pub fn first_statement(text: &[u8], statement: Statement) -> u64 {
    if text.len() > MAX_QUERY_SIZE {
        answer(1, 0, 0)
    } else {
        (statement.tokens as u64) << 28 | statement.end as u64
    }
}

/// What its text must answer: the length of "what stands before". "Refusals: only 1."
pub fn statement_text(text: &[u8], statement: Statement) -> u64 {
    if text.len() > MAX_QUERY_SIZE {
        answer(1, 0, 0)
    } else {
        answer(0, 0, statement.before)
    }
}

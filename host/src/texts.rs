//! Texts to compare on: every short one over an alphabet, and seeded random ones, whole and damaged. And token lists that no lexer made.
use crate::{reading, Random, Triple};

/// The characters that matter to some rule, and a few of each class.
#[rustfmt::skip]
pub const ALPHABET: [char; 41] = [
    '\'', '"', '`', '\u{2018}', '\u{2019}', '\u{201C}', '\u{201D}', '\\', '$', '_', '0', '1', '7', 'x', 'e', 'p', 'b', 'a', 'G', '.', '+',
    '-', '/', '*', '=', '<', '>', '!', '|', '@', ':', '\n', ' ', '\u{A0}', 'é', 'ש', '\u{661}', '\u{2212}', '𝒳', '😀', '#',
];

/// A few characters, for longer texts: a here-document that holds something has five at least.
pub const OF_HERE_DOCS: [char; 4] = ['$', 'x', '#', '\''];

/// The same for comments.
pub const OF_COMMENTS: [char; 5] = ['/', '*', '-', '\n', 'a'];

/// The characters that decide where a token ends, for texts at the end of a block.
#[rustfmt::skip]
pub const OF_EDGES: [char; 20] = ['a', '1', '_', '.', '\'', '$', '-', '/', '*', '\n', ' ', 'e', 'x', '=', '<', '>', 'é', 'ب', '\\', '"'];

/// The characters that decide where a statement ends.
#[rustfmt::skip]
pub const OF_STATEMENTS: [char; 19] = [';', '\\', 'G', 'g', '\'', '"', '`', '$', 'a', '1', '.', '-', '/', '*', '\n', ' ', '‘', '’', 'é'];

/// Every text of some length, in characters of the alphabet, a part of them at a time.
pub fn every(length: u32) -> impl Iterator<Item = Vec<String>> {
    every_of(&ALPHABET, length)
}

/// The same in other characters. The first character is the lowest digit of a text's number among them.
pub fn every_of(characters: &[char], length: u32) -> impl Iterator<Item = Vec<String>> + '_ {
    const PART: usize = 1 << 11;
    let base = characters.len();
    let count = base.pow(length);
    let text = move |i: usize| (0..length).map(|k| characters[i / base.pow(k) % base]).collect();
    (0..count).step_by(PART).map(move |from| (from..count.min(from + PART)).map(text).collect())
}

/// Plain tokens, whose edges the library takes from blocks of 64 bytes, where 72 bytes are left at least.
const PLAIN: &str = "SELECT count, sum(amount) + 12 AS total FROM orders AS t, users2 GROUP BY user_id, 7 LIMIT 100 ";

/// Where texts are put: around the end of the block that begins with a text's first byte.
const OFFSETS: std::ops::RangeInclusive<usize> = 56..=72;

/// A short text after some bytes of plain tokens and before others. What stands beside it is a space, or a word, a number, a dot, an operator
/// or a string that it may go on with.
fn within(r: &mut Random, short: &str, offset: usize) -> String {
    let (last, next) = (r.one_of(&["  ", " a", " 1", "a.", " <", " '"]), r.one_of(&[" ", "a", "1", "' "]));
    let before = &PLAIN[..offset - last.len()];
    format!("{before}{last}{short}{next}{PLAIN}")
}

/// Some short texts from each of the offsets in a longer text, a part of them at a time, with their offset.
fn from_each_offset(short: impl Iterator<Item = Vec<String>>) -> impl Iterator<Item = (usize, Vec<String>)> {
    let mut r = Random(0x0D95748F728EB658);
    short.flat_map(|some| OFFSETS.map(move |offset| (offset, some.clone()))).map(move |(offset, some)| {
        let long = some.iter().map(|short| within(&mut r, short, offset)).collect();
        (offset, long)
    })
}

/// Every text of up to 3 characters of the alphabet, and of 4 of the characters that decide, there. All 41 characters would be 30 times as many texts
/// of 4.
pub fn at_the_end_of_a_block() -> impl Iterator<Item = (usize, Vec<String>)> {
    from_each_offset((0..=3).flat_map(every).chain(every_of(&OF_EDGES, 4)))
}

/// Every text of up to 3 of the characters that decide where a statement ends, there; most have a delimiter further on, too.
pub fn statements_at_the_end_of_a_block() -> impl Iterator<Item = Vec<String>> {
    let mut r = Random(0x2B60A47681E67400);
    from_each_offset((0..=3).flat_map(|length| every_of(&OF_STATEMENTS, length))).map(move |(_, mut some)| {
        for text in &mut some {
            let delimiter = r.one_of(&["", ";", "\\G"]);
            *text += &format!("{delimiter}{PLAIN}");
        }
        some
    })
}

/// A text of 60 to 2,000 bytes: stretches of plain tokens, up to a block long and longer, and up to 3 of the characters that decide after each.
pub fn stretches(r: &mut Random) -> String {
    let bytes = 60 + r.below(1941);
    let mut text = String::new();
    while text.len() < bytes {
        let from = r.below(PLAIN.len());
        text += &PLAIN[from..from + r.below(PLAIN.len() - from + 1)];
        text.extend((0..r.below(4)).map(|_| r.one_of(&OF_EDGES)));
    }
    text.truncate(text.floor_char_boundary(bytes));
    text
}

/// How many random texts a test takes: some, or 30 times as many where GIEHTAMUN_LONG is set.
pub fn how_many(normally: usize) -> usize {
    normally * if std::env::var_os("GIEHTAMUN_LONG").is_some() { 30 } else { 1 }
}

#[rustfmt::skip]
const WORDS: [&str; 28] = [
    "SELECT", "FROM", "where", "GROUP BY", "ORDER BY", "LIMIT", "AS", "WITH", "INSERT INTO", "Array", "Nullable", "toDateTime64", "count",
    "number", "x", "_a1", "t", "user_id", "system", "e5", "x1F", "b01", "naïve", "aé", "z_ש", "v١", "mⅫ", "k½",
];

#[rustfmt::skip]
const OPERATORS: [&str; 50] = [
    "(", ")", "[", "]", "{", "}", ",", ";", ".", "*", "$", "+", "-", "->", "/", "%", "?", ":", "::", "^", "=", "==", "=>", "=><", "!=", "!",
    "<", "<=", "<=>", "<>", ">", ">=", "||", "|", "@", "@@", "\\G", "\\g", "\\", "\u{2212}", "--", "/*", "*/", "\u{2019}", "\u{201D}", "#",
    "&", "~", "\u{200B}", "\u{FEFF}",
];

const SPACES: [&str; 12] = [" ", " ", " ", "  ", "\n", "\r\n", "\t", "\u{B}", "\u{85}", "\u{A0}", "\u{2003}", "\u{3000}"];

#[rustfmt::skip]
const BODIES: [&str; 26] = [
    "a", "b c", "0", "''", "\"\"", "``", "'", "\"", "`", "\\", "\\\\", "\\'", "\\\"", "\\`", "\\n", "\n", "--", "/*", "*/", "$", "$$",
    "é", "שלום", "القاهرة", "𝒳", "\u{2019}",
];

/// One of some texts, several times over.
fn some(r: &mut Random, from: &[&str], most: usize) -> String {
    (0..r.below(most + 1)).map(|_| r.one_of(from)).collect()
}

fn number(r: &mut Random) -> String {
    let prefix = r.one_of(&["", "", "", "0x", "0X", "0b", "0B", "0", "."]);
    let digits = ["0", "1", "9", "12", "7_", "_", "345"];
    let hex_digits = ["0", "1", "aF", "e", "9_", "_", "B"];
    let digits = if prefix.ends_with(['x', 'X']) && r.below(8) > 0 { hex_digits } else { digits };
    let mut text = format!("{prefix}{}{}", r.one_of(&["", "0", "1", "8"]), some(r, &digits, 3));
    if r.below(3) == 0 {
        text += r.one_of(&[".", ".", ".", ".."]);
        text += &some(r, &digits, 2);
    }
    if r.below(3) == 0 {
        text += r.one_of(&["e", "E", "p", "P"]);
        text += r.one_of(&["", "+", "-", "+-"]);
        text += &some(r, &digits, 2);
    }
    if r.below(4) == 0 {
        text += r.one_of(&["a", "_", "$", "é", "ש", "١", "x", "lse", "_$b", "e"]);
    }
    text
}

fn comment(r: &mut Random, depth: usize) -> String {
    let mut text = "/*".to_string();
    for _ in 0..r.below(3) {
        text += &some(r, &["a", " ", "*", "/", "é", "--", "'"], 4);
        if depth < 4 && r.below(2) == 0 {
            text += &comment(r, depth + 1);
        }
    }
    text + r.one_of(&["*/", "*/", "*/", "*/", "**/", "*", ""])
}

/// A piece of a query, now and then one that has no end.
fn piece(r: &mut Random) -> String {
    match r.below(16) {
        0..=2 => r.one_of(&SPACES).to_string(),
        3..=4 => r.one_of(&WORDS).to_string(),
        5..=6 => number(r),
        7..=8 => r.one_of(&OPERATORS).to_string(),
        9..=10 => {
            let (open, close) = r.one_of(&[("'", "'"), ("\"", "\""), ("`", "`"), ("\u{2018}", "\u{2019}"), ("\u{201C}", "\u{201D}")]);
            format!("{open}{}{}", some(r, &BODIES, 5), if r.below(8) == 0 { "" } else { close })
        }
        11 => {
            let tag = r.one_of(&["$$", "$a$", "$a$", "$ab_1$", "$é$", "$a b$"]);
            format!("{tag}{}{}", some(r, &BODIES, 4), if r.below(5) == 0 { "" } else { tag })
        }
        12 => format!("--{}{}", some(r, &BODIES, 4), if r.below(8) == 0 { "" } else { "\n" }),
        13 => comment(r, 0),
        14 => r.one_of(&ALPHABET).to_string(),
        _ => char::from_u32(r.below(0x110000) as u32).unwrap_or('\u{FFFD}').to_string(),
    }
}

/// Whether what a text ends with would take all that follows: a quote or a comment that is not closed.
fn is_open(text: &str) -> bool {
    reading::full(text.as_bytes()).last().is_some_and(|token| (40..=43).contains(&token.0))
}

/// A query of 0 to 300 pieces, mostly of a few; one of 3,000 has up to 20,000 bytes. Of three, two have only pieces that are closed.
pub fn random(r: &mut Random) -> String {
    let (pieces, bytes) = match r.below(3000) {
        0 => (20_000, r.below(20_000)),
        1..=60 => (300, 20_000),
        61..=700 => (40, 20_000),
        701..=1700 => (12, 20_000),
        _ => (4, 20_000),
    };
    let closed = r.below(3) > 0;
    let mut text = String::new();
    for _ in 0..r.below(pieces + 1) {
        let piece = piece(r);
        if text.len() + piece.len() > bytes {
            break;
        }
        if !(closed && is_open(&piece)) {
            text += &piece;
        }
    }
    text
}

/// What ends a statement, and what makes the end of one where it meets the other.
const DELIMITERS: [&str; 8] = [";", ";", ";", ";;", "\\G", "\\g", "\\", "G"];

/// A text with up to some number of delimiters put in: between any two characters, so inside of literals and comments too.
pub fn delimited(r: &mut Random, text: &str, most: usize) -> String {
    let mut text = text.to_string();
    for _ in 0..r.below(most + 1) {
        let at = text.floor_char_boundary(r.below(text.len() + 1));
        text.insert_str(at, r.one_of(&DELIMITERS));
    }
    text
}

/// A script of up to 6 queries, a delimiter after each, and up to 3 more anywhere.
pub fn script(r: &mut Random) -> String {
    let mut text = String::new();
    for _ in 0..r.below(7) {
        text += &random(r);
        text += r.one_of(&DELIMITERS);
    }
    delimited(r, &text, 3)
}

/// A text with some of its bytes replaced, removed or doubled, or cut off at a byte.
pub fn damaged(r: &mut Random, text: &str) -> Vec<u8> {
    let mut text = text.as_bytes().to_vec();
    for _ in 0..1 + r.below(4) {
        if text.is_empty() {
            break;
        }
        let at = r.below(text.len());
        match r.below(5) {
            0 => text[at] = r.next() as u8,
            1 => text[at] = r.one_of(&[0x80, 0xBF, 0xC0, 0xC3, 0xE2, 0xED, 0xF0, 0xFF]),
            2 => drop(text.remove(at)),
            3 => text.insert(at, text[at]),
            _ => text.truncate(at),
        }
    }
    text
}

/// A list that no lexer made, of a text of some length: tokens of any kind that chain, to its end or to somewhere in it. An end may be inside of a
/// character.
pub fn invented(r: &mut Random, length: usize, full: bool) -> Vec<Triple> {
    let to = if full { length } else { r.below(length + 1) };
    let longest = r.one_of(&[1, 3, 20, 400, 100_000]);
    let (mut tokens, mut start) = (vec![], 0);
    while start < to {
        let end = to.min(start + 1 + r.below(longest));
        // 1 to 47 without 39.
        let kind = 1 + r.below(46) as u32;
        tokens.push((kind + (kind >= 39) as u32, start as u32, end as u32));
        start = end;
    }
    tokens
}

/// Numbers that a field of 32 bits may be spoilt to, beside the right one: near it, equal to it in its low bits or its high ones, the least and the
/// greatest, and those at which sums and products of four bytes begin anew.
#[rustfmt::skip]
pub fn beside(right: u32) -> [u32; 24] {
    let near = |by: u32| right.wrapping_add(by);
    [
        near(1), near(2), near(4), near(12), near(u32::MAX), near(u32::MAX - 3), near(1 << 8), near(1 << 16), near(1 << 24), near(1 << 30),
        near(1 << 31), near(3 << 30), right << 1, right << 8, !right, right.wrapping_neg(), 0, 1, 1_000_000, 1_000_001, (1 << 24) - 1, 1 << 30,
        1 << 31, u32::MAX,
    ]
}

/// A saved file or a packed list with one thing spoilt: a byte, a bit, a number of four bytes, a piece cut off or out, or bytes put in. Half of the
/// time it is among the last 40 bytes, where a file has its trailer.
pub fn spoilt(r: &mut Random, bytes: &[u8]) -> Vec<u8> {
    let among = if r.below(2) == 0 { bytes.len().min(40) } else { bytes.len() };
    let (before, after) = bytes.split_at(bytes.len() - r.below(among + 1));
    match (r.below(8), after) {
        (0, [_, rest @ ..]) => [before, &[r.next() as u8], rest].concat(),
        (1 | 2, [byte, rest @ ..]) => [before, &[byte ^ 1 << r.below(8)], rest].concat(),
        (3, [a, b, c, d, rest @ ..]) => {
            let other = r.one_of(&beside(u32::from_le_bytes([*a, *b, *c, *d])));
            [before, &other.to_le_bytes(), rest].concat()
        }
        (4, _) => before.to_vec(),
        (5, _) => after.to_vec(),
        (6, _) => [before, &after[r.below(after.len() + 1)..]].concat(),
        _ => {
            let more: Vec<u8> = (0..1 + r.below(20)).map(|_| r.next() as u8 >> r.below(8)).collect();
            [before, &more, after].concat()
        }
    }
}

/// The first and the last character of each row of RFC 3629's table, and some between: the bytes that may go on after their first differ.
#[rustfmt::skip]
const TO_CUT: [char; 22] = [
    '\u{80}', 'é', 'ש', '\u{7FF}', '\u{800}', '\u{FFF}', '\u{1000}', '‘', '一', '\u{CFFF}', '\u{D000}', '\u{D7FF}', '\u{E000}', '\u{FFFF}', '\u{10000}', '😀', '\u{3FFFF}',
    '\u{40000}', '\u{80000}', '\u{FFFFF}', '\u{100000}', '\u{10FFFF}',
];

/// A text with up to 6 characters put in that are cut short after their first, second or third byte: anywhere, inside of other characters too.
pub fn cut(r: &mut Random, text: &[u8]) -> Vec<u8> {
    let mut text = text.to_vec();
    for _ in 0..1 + r.below(6) {
        let whole = r.one_of(&TO_CUT).to_string().into_bytes();
        let (at, left) = (r.below(text.len() + 1), 1 + r.below(whole.len() - 1));
        text.splice(at..at, whole.into_iter().take(left));
    }
    text
}

/// Cut characters of each length, with the least and the greatest bytes that may go on; pairs that begin none, and bytes alone; and whole characters.
#[rustfmt::skip]
pub const BROKEN: [&[u8]; 26] = [
    b"\xC3", b"\xE2", b"\xF0", b"\xF4", b"\xE0\xA0", b"\xE2\x80", b"\xED\x9F", b"\xEF\xBF", b"\xF0\x90", b"\xF0\x9F", b"\xF4\x8F", b"\xF0\x9F\x98",
    b"\xF1\x80\x80", b"\xF4\x8F\xBF", b"\xC0\xAF", b"\xE0\x80", b"\xED\xA0", b"\xF0\x8F", b"\xF4\x90", b"\xF5\x80", b"\x80", b"\xFF", b"\xC3\xA9",
    b"\xE2\x80\x99", b"\xE2\x80\x83", b"\xF0\x9F\x98\x80",
];

/// What stands before and after: nothing, each kind of literal with and without its end, words, numbers, tags, operators and what a backslash takes.
#[rustfmt::skip]
pub const AROUND: [(&str, &str); 45] = [
    ("", ""), ("'", "'"), ("'", ""), ("\"", "\""), ("\"", ""), ("`", "`"), ("`", ""), ("‘", "’"), ("‘", ""), ("“", "”"), ("“", ""), ("--", "\n"),
    ("--", ""), ("/*", "*/"), ("/*/*", "*/*/"), ("/*", ""), ("/", "*"), ("$", "$b$a$"), ("$a", "$b$a$"), ("$a$", "$a$"), ("$a$", "$a"), ("$$", "$$"),
    ("$$", ""), ("a", "b"), ("_", "é"), ("aé", "1"), ("1", "x"), ("12", "_3"), ("0x", "1"), ("1e", "5"), ("1.", "e5"), (".", "1"), ("1a$", "$"),
    (" ", " "), ("\u{A0}", "\u{2003}"), ("\\", "G"), ("\\", ""), ("'\\", "'"), ("'\\", "''"), ("`\\", "`"), ("-", "-"), ("=", ">"),
    ("<", "="), ("@", "'a'"), ("’", "\"a\""),
];

/// The worked cases of #105, of which four are the Unicode Standard's (tables 3-8 to 3-11): a text and its units, for each that is broken the digit of
/// its length, and each letter for itself.
pub const WORKED: [(&[u8], &str); 5] = [
    (b"\xC0\xAF\xE0\x80\xBF\xF0\x81\x82A", "11111111A"),
    (b"\xED\xA0\x80\xED\xBF\xBF\xED\xAFA", "11111111A"),
    (b"\xF4\x91\x92\x93\xFFA\x80\xBFB", "11111A11B"),
    (b"\xE1\x80\xE2\xF0\x91\x92\xF1\xBFA", "2132A"),
    (b"a\xF1\x80\x80\xE1\x80\xC2b\x80c\x80\xBFd", "a321b1c11d"),
];

/// Runs to count places over: of characters of one to four bytes, and of several.
const RUNS: [&str; 14] = ["a", "b", "select 1, ", "é", "ש", "\u{7FF}", "ა", "一", "\u{FFFD}", "😀", "𐐀", "aש", "שלום ", "a😀ა"];

/// What ends a line, what looks like it by some of its bytes or bits or ends one elsewhere, and single characters.
#[rustfmt::skip]
const BETWEEN: [&str; 24] = [
    "\n", "\n", "\r", "\r", "\r\n", "\r\n", "\n\r", "\r\r\n", "\r\n\n", "\u{9}", "\u{B}", "\u{C}", "\u{E}", "\u{85}", "\u{2028}", "Ċ", "č",
    "\u{2D0A}", "a", "é", "ש", "ა", "😀", "\u{10FFFF}",
];

/// A text for places, of up to 8 runs of up to 160 bytes, with up to 3 line ends or single characters after each.
pub fn lines(r: &mut Random) -> String {
    let mut text = String::new();
    for _ in 0..r.below(9) {
        let run = r.one_of(&RUNS);
        text += &run.repeat(r.below(160 / run.len() + 1));
        text += &some(r, &BETWEEN, 3);
    }
    text
}

/// Offsets everywhere in a text and just beyond, and some that would be in it with their high bits lost.
pub fn everywhere(text: &[u8]) -> impl Iterator<Item = u64> {
    let length = text.len() as u64;
    (0..=length + 1).chain([1 << 32 | length, 1 << 48 | length, u64::MAX])
}

/// A text of some length with many `$`, most of which begin nothing, so that the library looks ahead: tags of their own, tags that come again nearby or far
/// away, long ones that share their beginnings, and `$` without a tag.
pub fn dollars(r: &mut Random, bytes: usize) -> String {
    let mut text = String::new();
    let mut own = 0;
    while text.len() < bytes {
        own += 1;
        text += &match r.below(400) {
            0..=299 => format!("$a{own}"),
            300..=319 => format!("$q{own}$ 'x' $q{own}$"),
            320..=339 => format!("$a{own}$$$ "),
            340..=359 => format!("$ {} ", r.one_of(&WORDS)),
            360..=379 => format!("$é{own}$"),
            380..=389 => format!("${}", "k".repeat(r.below(300))),
            390..=392 => format!("${}{own}", "long_".repeat(r.below(2000))),
            393 => format!("$far{}$", r.below(12)),
            394..=396 => r.one_of(&["'", "/*", "*/", "--", "\n"]).to_string(),
            _ => "$$".to_string(),
        };
    }
    text
}

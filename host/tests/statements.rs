//! The first statement and its text, through the C functions: against the Rust where the text is UTF-8, against the second reading where it is not,
//! and where neither is needed against what is known of the text.
#[cfg(oracle)]
use host::oracle;
use host::texts::{AROUND, BROKEN};
use host::{ask, compare, reading, texts, Answer, Call, Op, Random, Statement, Triple, AROUND_THE_LIMIT, MAX_QUERY_SIZE};

/// The first statement of a text: the Rust's, or the second reading's where the text is not UTF-8 or the Rust is not here.
fn first(text: &[u8]) -> Statement {
    #[cfg(oracle)]
    if let Ok(text) = std::str::from_utf8(text) {
        return oracle::first_statement(text);
    }
    reading::statement(text, &reading::full(text))
}

/// The full list of a text, in the same way.
fn full(text: &[u8]) -> Vec<Triple> {
    #[cfg(oracle)]
    if let Ok(text) = std::str::from_utf8(text) {
        return oracle::full(text);
    }
    reading::full(text)
}

/// Both calls for a text, and what they must answer where this is its first statement.
fn both(text: &[u8], statement: Statement) -> [(Call<'_>, Answer); 2] {
    let (first, its_text) = (reading::first_statement(text, statement), reading::statement_text(text, statement));
    [(Op::FirstStatement, first), (Op::StatementText, its_text)].map(|(op, answer)| (Call::read(op, 0, text), Answer { answer, memory: vec![] }))
}

/// Compares both answers about each of some texts with its first statement.
fn compare_known<T: AsRef<[u8]>>(texts: &[(T, Statement)]) -> usize {
    let (calls, wanted): (Vec<Call>, Vec<Answer>) = texts.iter().flat_map(|(text, statement)| both(text.as_ref(), *statement)).unzip();
    compare(&calls, wanted)
}

/// Compares both answers about each of some texts with the Rust or the second reading.
fn compare_both<T: AsRef<[u8]>>(texts: &[T]) -> usize {
    let known: Vec<(&[u8], Statement)> = texts.iter().map(|text| (text.as_ref(), first(text.as_ref()))).collect();
    compare_known(&known)
}

/// Texts with the tokens read, the bytes before the delimiter, and its end.
#[rustfmt::skip]
const CASES: [(&str, usize, usize, usize); 38] = [
    ("", 0, 0, 0), (";", 1, 0, 1), (";;", 1, 0, 1), (" ", 1, 1, 1), (" ;", 2, 1, 2), ("a;b;", 2, 1, 2), ("SELECT 1", 3, 8, 8),
    ("SELECT 1; SELECT 2", 4, 8, 9), ("\\G", 1, 0, 2), ("\\g", 1, 0, 2), ("a\\Gb", 2, 1, 3), ("a\\gb", 2, 1, 3), ("a\\G;", 2, 1, 3),
    ("a;\\G", 2, 1, 2), ("\\", 1, 1, 1), ("\\;", 2, 1, 2), ("\\\\G", 2, 1, 3), ("\\ G", 3, 3, 3), ("';'", 1, 3, 3), ("';';", 2, 3, 4),
    ("'\\';", 1, 4, 4), ("'\\';';", 2, 5, 6), ("'\\G'\\G", 2, 4, 6), ("\";\"", 1, 3, 3), ("`;`;", 2, 3, 4), ("‘;’;", 2, 7, 8), ("“;", 1, 4, 4),
    ("--;", 1, 3, 3), ("--;\n;", 3, 4, 5), ("-;", 2, 1, 2), ("/*;*/;", 2, 5, 6), ("/*;", 1, 3, 3), ("$a$;$a$;", 2, 7, 8), ("$a$;$b$", 4, 3, 4),
    ("$$;$$", 1, 5, 5), ("$$;$", 3, 2, 3), ("$;$;", 2, 1, 2), ("é;", 2, 2, 3),
];

/// The same with what is broken: it is read as a step reads it, and a delimiter stands before or after it.
#[rustfmt::skip]
const BROKEN_CASES: [(&[u8], usize, usize, usize); 8] = [
    (b"\xE2\x80;", 2, 2, 3), (b"a\xFF;\xFF", 3, 2, 3), (b"\\\xE2\x80G;", 4, 4, 5), (b"';\xE2", 1, 3, 3), (b"';\xE2';", 2, 4, 5),
    (b"\xE2\x80\x98;\xE2\x80", 1, 6, 6), (b"\xE2\x98;", 2, 2, 3), (b"--\xF0\x9F;", 1, 5, 5),
];

/// By the library, by the second reading and by the Rust.
#[test]
fn the_worked_cases() {
    let cases = CASES.map(|(text, tokens, before, end)| (text.as_bytes(), Statement { tokens, before, end }));
    let broken = BROKEN_CASES.map(|(text, tokens, before, end)| (text, Statement { tokens, before, end }));
    for (text, statement) in cases.into_iter().chain(broken) {
        assert_eq!(reading::statement(text, &reading::full(text)), statement, "{}", text.escape_ascii());
        assert_eq!(first(text), statement, "{}", text.escape_ascii());
    }
    println!("the worked cases: {} calls", compare_known(&cases) + compare_known(&broken));
}

/// The delimiters.
const DELIMITERS: [&str; 3] = [";", "\\G", "\\g"];

/// What opens a literal that goes on to the end if it is not closed, and what closes it: for the first a line's end, which is a token of its own.
#[rustfmt::skip]
const LITERALS: [(&str, &str); 8] =
    [("--", "\n"), ("'", "'"), ("\"", "\""), ("`", "`"), ("‘", "’"), ("“", "”"), ("/*", "*/"), ("/*/*", "*/*/")];

/// A here-document that is not closed is none.
const HERE_DOCS: [(&str, &str); 2] = [("$$", "$$"), ("$tag$", "$tag$")];

/// A delimiter that stands in a literal, at the text's end or long before it, is none. One after the literal's end is.
#[test]
fn a_delimiter_in_a_literal_is_none() {
    let long = "SELECT a, 1 + 2 FROM t; ".repeat(5);
    let (mut none, mut one) = (vec![], vec![]);
    for (delimiter, rest) in DELIMITERS.into_iter().flat_map(|delimiter| ["", &long].map(|rest| (delimiter, rest))) {
        for body in (0..=130).map(|bytes| "x".repeat(bytes)) {
            for (open, _) in LITERALS {
                let text = format!("a {open}{body}{delimiter}{rest}");
                let length = text.len();
                none.push((text, Statement { tokens: 3, before: length, end: length }));
            }
            for (open, close) in LITERALS.into_iter().chain(HERE_DOCS) {
                let before = format!("a {open}{body}{delimiter}{close}");
                let (tokens, length) = (if close == "\n" { 5 } else { 4 }, before.len());
                one.push((format!("{before}{delimiter}{rest}"), Statement { tokens, before: length, end: length + delimiter.len() }));
            }
        }
    }
    let compared = compare_known(&none) + compare_known(&one);
    println!("{} texts with a delimiter in a literal, and {} with one after it: {compared} calls", none.len(), one.len());
}

#[test]
fn every_text_of_up_to_four_characters() {
    let (mut count, mut compared) = (0, 0);
    for some in (0..=4).flat_map(|length| texts::every_of(&texts::OF_STATEMENTS, length)) {
        count += some.len();
        compared += compare_both(&some);
    }
    println!("{count} texts, every one of up to 4 of {} characters: {compared} calls", texts::OF_STATEMENTS.len());
}

/// Of here-documents, of comments, and of strings with what a backslash takes.
#[test]
fn every_longer_text_of_a_few_characters() {
    let (mut count, mut compared) = (0, 0);
    for (characters, most) in [("$a;\\G", 7), ("/*-\n;", 7), ("'\\;G\"", 6), ("‘’;“”", 6)] {
        let characters: Vec<char> = characters.chars().collect();
        for some in (0..=most).flat_map(|length| texts::every_of(&characters, length)) {
            count += some.len();
            compared += compare_both(&some);
        }
    }
    println!("{count} texts, every one of up to 6 or 7 of a few characters: {compared} calls");
}

/// Bytes that make delimiters, literals, and what is broken of 1 to 3 bytes.
const BYTES: [u8; 19] = *b";\\Gg'$a-/*\n\xE2\x80\x98\x99\xC3\xF0\x9F\xFF";

#[test]
fn every_sequence_of_up_to_four_bytes() {
    let mut texts: Vec<Vec<u8>> = vec![vec![]];
    let mut compared = 0;
    for length in 0..=4 {
        if length > 0 {
            texts = texts.iter().flat_map(|t| BYTES.iter().map(move |b| [&t[..], &[*b]].concat())).collect();
        }
        compared += texts.chunks(1 << 15).map(compare_both).sum::<usize>();
    }
    println!("every sequence of up to 4 of {} bytes: {compared} calls", BYTES.len());
}

/// A delimiter before, between and after what is broken and what stands around it; long enough for blocks, too.
#[test]
fn broken_characters_within_everything() {
    let mut compared = 0;
    for (before, after) in AROUND.map(|(before, after)| (before.as_bytes(), after.as_bytes())) {
        let mut texts = vec![];
        for (one, delimiter) in BROKEN.iter().flat_map(|one| DELIMITERS.map(|delimiter| (one, delimiter.as_bytes()))) {
            texts.push([before, one, delimiter, after, delimiter].concat());
            texts.push([before, delimiter, one, after, delimiter].concat());
            texts.push([before, one, after, one, delimiter, one].concat());
            for (with, times) in [&b"a"[..], b"1 ", b" "].into_iter().flat_map(|with| [7, 8, 60, 90].map(|times| (with, times))) {
                texts.push([before, one, &with.repeat(times), after, one, delimiter, &with.repeat(80)].concat());
            }
        }
        compared += compare_both(&texts);
    }
    println!("a delimiter beside {} broken characters and others within {} surroundings: {compared} calls", BROKEN.len(), AROUND.len());
}

/// Blocks of 64 bytes must not show.
#[test]
fn every_short_text_at_the_end_of_a_block() {
    let (mut count, mut compared) = (0, 0);
    for some in texts::statements_at_the_end_of_a_block() {
        count += some.len();
        compared += compare_both(&some);
    }
    println!("{count} texts with a short text at the end of a block: {compared} calls");
}

/// Runs of plain tokens, of one long token, of a token a byte, of `$`, and of what is broken.
#[rustfmt::skip]
const RUNS: [&[u8]; 12] = [
    b"SELECT count, sum(amount) + 12 FROM t2 ", b"a", b" ", b"1", b"+", b"a ", b"1.", b"$", b"$a ", "é".as_bytes(), b"\xE2\x80", b"\xFF",
];

/// Delimiters, what hides them, and what is almost one.
#[rustfmt::skip]
const THINGS: [&[u8]; 16] = [
    b";", b"\\G", b"\\g", b";;", b"\\", b"\\\\g", b"';'", b"';", b"--;\n", b"/*;*/", b"$$;$$", b"$a$;$a$;", "‘;’".as_bytes(), b"\xE2;",
    b"\xE2\x80\\G", b"\\\xC3G",
];

#[test]
fn one_thing_at_every_place_of_a_run() {
    let mut compared = 0;
    for (run, thing) in RUNS.into_iter().flat_map(|run| THINGS.map(|thing| (run, thing))) {
        let run = run.repeat(200 / run.len());
        let texts: Vec<Vec<u8>> = (0..=run.len()).map(|at| [&run[..at], thing, &run[at..], b";"].concat()).collect();
        compared += compare_both(&texts);
    }
    println!("each of {} things at every place of {} runs: {compared} calls", THINGS.len(), RUNS.len());
}

/// Whether a text is not UTF-8, has no delimiter, has its first in the first half, has it in the second, and has a `;` before that which is none.
fn kinds(text: &[u8]) -> [bool; 5] {
    let Statement { before, end, .. } = first(text);
    let (one, early) = (before < end, before < text.len() / 2);
    [std::str::from_utf8(text).is_err(), !one, one && early, one && !early, text[..before].contains(&b';')]
}

/// Compares some random texts, a hundred at a time; how many there are of each kind, and the number of calls.
fn compare_random(n: usize, mut text: impl FnMut(usize) -> Vec<u8>) -> ([usize; 5], usize) {
    let (mut counts, mut compared) = ([0; 5], 0);
    for _ in 0..n / 100 {
        let some: Vec<Vec<u8>> = (0..100).map(&mut text).collect();
        for text in &some {
            counts.iter_mut().zip(kinds(text)).for_each(|(count, is)| *count += is as usize);
        }
        compared += compare_both(&some);
    }
    (counts, compared)
}

#[test]
fn random_texts() {
    let mut r = Random(0x93CC7314211A1477);
    let n = texts::how_many(60_000);
    let (counts, compared) = compare_random(n, |i| {
        let text = match i % 4 {
            0 => texts::script(&mut r),
            1 => texts::stretches(&mut r),
            _ => texts::random(&mut r),
        };
        let text = texts::delimited(&mut r, &text, 3);
        match i % 10 {
            7 => texts::cut(&mut r, text.as_bytes()),
            8 | 9 => texts::damaged(&mut r, &text),
            _ => text.into_bytes(),
        }
    });
    assert!(counts.iter().all(|count| *count > n / 20), "{counts:?} of {n} texts");
    let [broken, none, early, late, hidden] = counts;
    println!(
        "{n} random texts, {broken} of them not UTF-8, {none} without a delimiter, {early} with the first in the first half, {late} with it in the \
         second, {hidden} with a `;` that is none: {compared} calls"
    );
}

/// Tags that come again or do not, before a delimiter, around it and after it.
#[test]
fn random_texts_of_tags() {
    const PIECES: [&str; 14] = ["$a$", "$a$", "$b$", "$b", "$$", "$", "a", "ab$", " ", "'", ";", ";", "\\G", "\\g"];
    let mut r = Random(0xE6AD206577B5FA86);
    let n = texts::how_many(40_000);
    let (counts, compared) = compare_random(n, |_| (0..r.below(60)).map(|_| r.one_of(&PIECES)).collect::<String>().into_bytes());
    let [_, none, early, late, hidden] = counts;
    assert!([none, early, late, hidden].iter().all(|count| *count > n / 20), "{counts:?} of {n} texts");
    println!(
        "{n} random texts of tags, {none} without a delimiter, {early} with the first in the first half, {late} with it in the second, {hidden} with \
         a `;` that is none: {compared} calls"
    );
}

/// Where many `$` begin nothing, the library looks ahead, past the delimiter. Half of the texts have no quotes and no comments, which would take it.
#[test]
fn texts_of_many_dollars() {
    let mut r = Random(0x75372AC9B9A5A2C3);
    let n = texts::how_many(60);
    let (mut late, mut compared) = (0, 0);
    for i in 0..n {
        let length = 5_000 + r.below(30_000);
        let mut text = texts::dollars(&mut r, length);
        if i % 2 == 0 {
            text = text.replace(['\'', '/', '-'], "+");
        }
        let at = text.floor_char_boundary(length / 2 + r.below(length / 2));
        text.insert_str(at, r.one_of(&DELIMITERS));
        let texts = [texts::delimited(&mut r, &text, 1), text];
        late += texts.iter().filter(|text| kinds(text.as_bytes())[3]).count();
        compared += compare_both(&texts);
    }
    assert!(late > n / 2, "{late} of {n} texts");
    println!("{n} texts with many dollar signs, each twice, {late} times with a delimiter in the second half: {compared} calls");
}

/// The Rust takes the square of the length over these, but what is read is known: no tag comes again, so that each is a DollarSign and a BareWord.
#[test]
fn a_million_bytes_of_tags_that_never_come_again() {
    const TAGS: usize = MAX_QUERY_SIZE / 8 - 1;
    let tags = |from, to| (from..to).map(|i| format!("$t{i:06}")).collect::<String>();
    let mut texts = vec![(tags(0, TAGS), Statement { tokens: 2 * TAGS, before: 8 * TAGS, end: 8 * TAGS })];
    for (at, delimiter) in [(0, ";"), (1, "\\G"), (TAGS / 2, ";"), (TAGS - 1, "\\g"), (TAGS, ";")] {
        let text = tags(0, at) + delimiter + &tags(at, TAGS);
        texts.push((text, Statement { tokens: 2 * at + 1, before: 8 * at, end: 8 * at + delimiter.len() }));
    }
    println!("{} texts of {TAGS} tags that never come again: {} calls", texts.len(), compare_known(&texts));
}

/// Broken bytes of all kinds, literals that are not closed, and delimiters. None has a `$`, by which it may decide about a tag before it.
#[rustfmt::skip]
const RESTS: [&[u8]; 14] = [
    b"\xFF", b"\x80", b"\xC3", b"\xE2\x80", b"\xF0\x9F\x98", b"\xED\xA0\x80", b"'\xFF", b"/*\xE2", b"--\xC0\n;", b";\xFF", b"\\\xC3", b"G\xFF",
    b"a\xE2\x80 b", b"\xE2\x80\x98\xE2",
];

/// A valid statement with its delimiter, and broken bytes after it: the answers are those about the statement alone.
#[test]
fn the_rest_is_not_tested() {
    let mut r = Random(0x19C91F6B57C1F5C8);
    let n = texts::how_many(20_000);
    let (mut count, mut compared) = (0, 0);
    for _ in 0..n / 100 {
        let mut known = vec![];
        for _ in 0..100 {
            let text = if r.below(4) == 0 { texts::stretches(&mut r) } else { texts::random(&mut r) };
            let text = texts::delimited(&mut r, &text, 4);
            let Statement { before, end, .. } = first(text.as_bytes());
            if before < end {
                let alone = &text.as_bytes()[..end];
                let rest = r.one_of(&RESTS);
                known.extend([1, 1 + r.below(100)].map(|times| ([alone, &rest.repeat(times)].concat(), first(alone))));
            }
        }
        assert!(known.iter().all(|(text, _)| std::str::from_utf8(text).is_err()));
        count += known.len();
        compared += compare_known(&known);
    }
    assert!(count > n / 2, "{count} of {n} texts, each twice");
    println!("{count} texts of a valid statement and broken bytes after it: {compared} calls");
}

/// The answer of the library to one call.
fn answer(op: Op, text: &[u8]) -> usize {
    ask(&[Call::read(op, 0, text)])[0].answer as usize
}

/// The statements of a text by the library, each from the end of the one before, with offsets in the whole text.
fn walked(text: &[u8]) -> Vec<Statement> {
    let (mut statements, mut at) = (vec![], 0);
    while at < text.len() {
        let rest = &text[at..];
        let (first, before) = (answer(Op::FirstStatement, rest), answer(Op::StatementText, rest));
        let end = at + (first & 0xFFF_FFFF);
        assert!(end > at && end <= text.len(), "{first:016x} at {at} of {}", text.escape_ascii());
        statements.push(Statement { tokens: first >> 28, before: at + before, end });
        at = end;
    }
    assert_eq!((answer(Op::FirstStatement, &text[at..]), answer(Op::StatementText, &text[at..])), (0, 0));
    statements
}

/// What the delimiters of a full list cut its text into.
fn pieces(tokens: &[Triple]) -> Vec<Statement> {
    let piece = |tokens: &[Triple]| {
        let last = tokens[tokens.len() - 1];
        let before = if reading::is_delimiter(&last) { last.1 } else { last.2 };
        Statement { tokens: tokens.len(), before: before as usize, end: last.2 as usize }
    };
    tokens.split_inclusive(reading::is_delimiter).map(piece).collect()
}

#[test]
fn walking_from_statement_to_statement() {
    let mut r = Random(0xF6D6FF38D3B4D1A3);
    let n = texts::how_many(10_000);
    let (mut broken, mut statements) = (0, 0);
    for i in 0..n {
        let text = if i % 3 == 0 { texts::stretches(&mut r) } else { texts::script(&mut r) };
        let text = texts::delimited(&mut r, &text, 10);
        let text = match i % 5 {
            3 => texts::cut(&mut r, text.as_bytes()),
            4 => texts::damaged(&mut r, &text),
            _ => text.into_bytes(),
        };
        let walked = walked(&text);
        assert_eq!(walked, pieces(&full(&text)), "{}", text.escape_ascii());
        broken += std::str::from_utf8(&text).is_err() as usize;
        statements += walked.len();
    }
    assert!(broken > n / 5 && statements > 3 * n, "{broken} of {n} texts, {statements} statements");
    println!("walks through {n} random scripts, {broken} of them not UTF-8: {statements} statements");
}

/// "Reading stops there.": of a text of a million bytes all but the statement, and the block of bytes that its delimiter may be in, is memory that
/// cannot be read. Who reads on is killed.
#[cfg(linked)]
mod unread {
    use super::*;
    use std::ffi::c_int;

    extern "C" {
        fn mmap(at: *mut u8, bytes: usize, may: c_int, flags: c_int, file: c_int, offset: i64) -> *mut u8;
        fn mprotect(at: *mut u8, bytes: usize, may: c_int) -> c_int;
        fn giehtamun_first_statement(text: *const u8, len: usize) -> u64;
        fn giehtamun_statement_text(text: *const u8, len: usize) -> u64;
    }

    const NOTHING: c_int = 0;
    const READ_AND_WRITE: c_int = 3;
    const OF_NO_FILE: c_int = 0x22;

    /// A number of bytes that every page's size divides.
    const PAGES: usize = 1 << 16;

    /// What the library reads at a time: blocks of 64 bytes and eight more.
    const BLOCK: usize = 72;

    #[test]
    fn nothing_past_the_delimiters_block() {
        let bytes = MAX_QUERY_SIZE.next_multiple_of(PAGES) + PAGES;
        let memory = unsafe { mmap(std::ptr::null_mut(), bytes, READ_AND_WRITE, OF_NO_FILE, -1, 0) };
        assert_ne!(memory as isize, -1);
        assert_eq!(unsafe { mprotect(memory.add(PAGES), bytes - PAGES, NOTHING) }, 0);
        let mut r = Random(0x4E3F2A9B7C1D8065);
        let n = texts::how_many(5_000);
        let mut tried = 0;
        for i in 0..n {
            let text = if i % 2 == 0 { texts::stretches(&mut r) } else { texts::random(&mut r) };
            // A `$` may have the rest searched.
            let mut alone = text.replace('$', "+").into_bytes();
            alone.truncate(first(&alone).before);
            alone.extend(r.one_of(&DELIMITERS).as_bytes());
            let known = first(&alone);
            // A literal that is not closed has taken the delimiter, and goes on to the end.
            if known.before == known.end {
                continue;
            }
            tried += 1;
            let readable = [&alone[..], &[b' '; BLOCK]].concat();
            let (first, its_text) = unsafe {
                let start = memory.add(PAGES - readable.len());
                start.copy_from_nonoverlapping(readable.as_ptr(), readable.len());
                (giehtamun_first_statement(start, MAX_QUERY_SIZE), giehtamun_statement_text(start, MAX_QUERY_SIZE))
            };
            let want = (reading::first_statement(&alone, known), reading::statement_text(&alone, known));
            assert_eq!((first, its_text), want, "{}", alone.escape_ascii());
        }
        assert!(tried > n / 2, "{tried} of {n} statements");
        println!("{tried} random statements before a million bytes that cannot be read");
    }
}

/// Around the size limit: without a delimiter, and with one as the first bytes, in the middle and as the last. Broken bytes are no reason to refuse.
#[test]
fn sizes() {
    let mut compared = 0;
    for length in AROUND_THE_LIMIT {
        for part in [&b" "[..], b"SELECT a1, ", b"+", b"'", b"$", b"\xFF"] {
            let mut text = part.repeat(length / part.len());
            text.resize(length, b' ');
            compared += compare_both(&[&text]);
            for delimiter in [&b";"[..], b"\\G"] {
                for at in [0, length / 2, length - delimiter.len()] {
                    let mut text = text.clone();
                    text[at..at + delimiter.len()].copy_from_slice(delimiter);
                    compared += compare_both(&[text]);
                }
            }
        }
    }
    println!("texts of {AROUND_THE_LIMIT:?} bytes: {compared} calls");
}

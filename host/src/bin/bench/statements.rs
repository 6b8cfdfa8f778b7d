//! First statements: what the rest of a text adds, what a text without a delimiter takes, and a walk from statement to statement.
use crate::chosen::Chosen;
use crate::tables::{make, mean_and_worst, SIZE};
use crate::texts::{self, fitted, TEXTS};
use crate::timing::{race, Pair};
use crate::{hostile, ours, rust};
use host::{linked, oracle, reading, Random};
use std::hint::black_box;

/// The bytes of a statement, its delimiter not among them.
const LENGTHS: [usize; 5] = [0, 10, 100, 1_000, 10_000];

/// So many statements are measured, each from a place of its own, so that no processor learns one by heart.
const STATEMENTS: usize = 1_000;

/// A text without a delimiter: a comma for each `;`, and a slash for each backslash before G or g.
fn undelimited(mut text: Vec<u8>) -> Vec<u8> {
    for i in 0..text.len() {
        match text[i] {
            b';' => text[i] = b',',
            b'\\' if matches!(text.get(i + 1), Some(b'G' | b'g')) => text[i] = b'/',
            _ => {}
        }
    }
    text
}

/// SQL in statements of some bytes, a `;` after each: each begins where a token of a longer text does, and has no quotes and no `$`, which might have the
/// rest read.
fn script(length: usize, bytes: usize) -> Vec<u8> {
    let mut r = Random(0x2D98C9A17B3E5F04);
    let sql = String::from_utf8(undelimited(make(TEXTS[0], 0, SIZE))).unwrap().replace(['\'', '"', '`', '$', '-', '*', '‘', '“'], "+");
    let tokens = oracle::full(&sql);
    let statement = |r: &mut Random| fitted(sql[r.one_of(&tokens).1 as usize..].chars().take(length).collect(), length, || " ".into()) + ";";
    let mut script = String::new();
    while script.len() < bytes {
        script += &statement(&mut r);
    }
    script.truncate(script.floor_char_boundary(bytes));
    script.into_bytes()
}

/// The Rust's way to a first statement: a token after another up to a delimiter. The text is taken to be UTF-8, as the library does not test it either.
fn by_the_rust(text: &[u8]) -> (usize, usize) {
    let first = oracle::first_statement(unsafe { str::from_utf8_unchecked(text) });
    (first.tokens, first.end)
}

fn by_us(text: &[u8]) -> (usize, usize) {
    let answer = linked::first_statement(text) as usize;
    (answer >> 28, answer & 0xFFF_FFFF)
}

/// A call over all of some texts, in ns a call.
fn each(texts: &[&[u8]]) -> Pair {
    for text in texts {
        assert_eq!(by_us(text), by_the_rust(text));
    }
    let over = |of: fn(&[u8]) -> (usize, usize)| texts.iter().map(|text| of(black_box(text)).1).sum::<usize>();
    let pair = race(|| over(by_us), || over(by_the_rust));
    Pair { ours: pair.ours * 1e9 / texts.len() as f64, theirs: pair.theirs * 1e9 / texts.len() as f64 }
}

/// A statement alone, and the same with a `;` and 1,000,000 bytes less its own after it.
pub fn early(chosen: &Chosen) {
    const TITLE: &str = "First statement, and what follows it";
    let lengths: Vec<usize> = LENGTHS.into_iter().filter(|length| chosen.has(TITLE, &format!("{length} bytes"))).collect();
    if lengths.is_empty() {
        return;
    }
    println!("\n### {TITLE}\n");
    println!("| bytes before the `;` | alone, ns | with the rest, ns | with the rest to alone | Rust, with the rest, ns | ratio |");
    println!("|---------------------:|----------:|------------------:|-----------------------:|------------------------:|------:|");
    for length in lengths {
        let script = script(length, SIZE + STATEMENTS * (length + 1));
        let starts = || (0..STATEMENTS).map(|i| i * (length + 1));
        let alone = each(&starts().map(|at| &script[at..at + length]).collect::<Vec<_>>());
        let rest = each(&starts().map(|at| &script[at..at + SIZE]).collect::<Vec<_>>());
        let (times, ratio) = (rest.ours / alone.ours, rest.ratio());
        println!("| {length:20} | {:9.1} | {:17.1} | {times:22.2} | {:23.1} | {ratio:5.2} |", alone.ours, rest.ours, rest.theirs);
    }
}

/// A text without a delimiter, against the full list of the same text by the library.
fn whole(name: &str, text: &[u8]) -> f64 {
    let mut list = ours::room(text);
    let tokens = linked::list(text, 0, &mut list) as usize;
    assert_eq!(by_us(text), (tokens, text.len()), "{name}");
    let pair = race(|| linked::first_statement(black_box(text)), || linked::list(black_box(text), 0, &mut list));
    println!("| {name:72} | {:19.3} | {:13.3} | {:5.2} |", pair.ours * 1e3, pair.theirs * 1e3, pair.ratio());
    pair.ratio()
}

/// Texts without a delimiter, the bad ones among them.
pub fn none(chosen: &Chosen) {
    const TITLE: &str = "First statement of a text without a delimiter";
    let good: Vec<_> = texts::GROUPS[..3].iter().flat_map(|(_, texts)| chosen.of(TITLE, texts)).collect();
    let bad = chosen.of(TITLE, &hostile::TEXTS);
    if good.is_empty() && bad.is_empty() {
        return;
    }
    println!("\n### {TITLE}\n");
    println!("| {:72} | first statement, ms | full list, ms | ratio |", "Text");
    println!("|{:-<74}|--------------------:|--------------:|------:|", "");
    let mut ratios: Vec<f64> = good.into_iter().map(|text| whole(text.0, &undelimited(make(text, 0, SIZE)))).collect();
    ratios.extend(bad.into_iter().map(|(name, make)| whole(name, &undelimited(make(SIZE).into_bytes()))));
    for (name, ratio) in mean_and_worst(&ratios) {
        println!("| {name:72} | {:19} | {:13} | {ratio:5.2} |", "", "");
    }
}

/// All statements of a text, each by a call on what is left; how many there are.
fn walk(text: &[u8]) -> usize {
    let (mut rest, mut statements) = (text, 0);
    while !rest.is_empty() {
        rest = &rest[by_us(rest).1..];
        statements += 1;
    }
    statements
}

/// Walks through scripts of 1,000,000 bytes, against their full lists by the library.
pub fn walks(chosen: &Chosen) {
    const TITLE: &str = "Statement by statement";
    let lengths: Vec<usize> = LENGTHS.into_iter().filter(|length| chosen.has(TITLE, &format!("{length} bytes"))).collect();
    if lengths.is_empty() {
        return;
    }
    println!("\n### {TITLE}\n");
    println!("| bytes of a statement | statements | the walk, ms | full list, ms | ratio |");
    println!("|---------------------:|-----------:|-------------:|--------------:|------:|");
    for length in lengths {
        let script = script(length, SIZE);
        let mut list = ours::room(&script);
        let delimiters = oracle::full(rust::checked(&script)).split_inclusive(reading::is_delimiter).count();
        assert_eq!(walk(&script), delimiters);
        let pair = race(|| walk(black_box(&script)), || linked::list(black_box(&script), 0, &mut list));
        println!("| {length:20} | {delimiters:10} | {:12.3} | {:13.3} | {:5.2} |", pair.ours * 1e3, pair.theirs * 1e3, pair.ratio());
    }
}

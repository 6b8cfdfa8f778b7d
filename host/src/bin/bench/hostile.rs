//! Texts that are meant to be slow, most of them for the search of a here-document's end, and a search for worse ones.
use crate::chosen::Chosen;
use crate::texts::{self, fitted, tag_byte, TAG_BYTES};
use crate::timing::best;
use crate::{ours, rust};
use host::{linked, Random};
use std::hint::black_box;

const SIZES: [usize; 4] = [10_000, 30_000, 100_000, 1_000_000];

/// Nothing runs that should take longer than this, in seconds.
const LIMIT: f64 = 8.0;

/// What the search tries for lengths.
const LENGTHS: [usize; 13] = [0, 1, 2, 3, 4, 6, 10, 20, 50, 100, 300, 1000, 4000];

/// A text's name, and what makes it.
type Text = (&'static str, fn(usize) -> String);

#[rustfmt::skip]
pub const TEXTS: [Text; 36] = [
    ("SQL", sql),
    ("`$a0$a1$a2$`, each tag another", |size| numbered(size, |k| format!("$a{k}"))),
    ("the shortest tags, each another", |size| numbered(size, |k| format!("${}", shortest(k)))),
    ("random tags of 3 bytes", |size| random(size, 3)),
    ("random tags of 10 bytes", |size| random(size, 10)),
    ("random tags of 100 bytes", |size| random(size, 100)),
    ("random tags of 1,000 bytes", |size| random(size, 1000)),
    ("random tags of 5,000 bytes", |size| random(size, 5000)),
    ("tags with 30 first bytes in common", |size| numbered(size, |k| format!("${}{k}", "a".repeat(30)))),
    ("tags with 300 first bytes in common", |size| numbered(size, |k| format!("${}{k}", "a".repeat(300)))),
    ("tags with 300 last bytes in common", |size| numbered(size, |k| format!("${}{}", shortest(k), "a".repeat(300)))),
    ("`$a$aa$aaa$`, each tag begins the next", |size| numbered(size, |k| format!("${}", "a".repeat(k)))),
    ("the same, each tag begins the one before", |size| numbered(size, |k| format!("${}", "a".repeat(2000 - k.min(2000))))),
    ("`$ab$abab$ababab$`", |size| numbered(size, |k| format!("${}", "ab".repeat(k)))),
    ("different tags, then as many bytes without `$`", |size| halves(size, |_| "word ".into())),
    ("different tags, then the same a letter longer", |size| halves(size, |k| format!("$a{k}_"))),
    ("different tags with a space after each", |size| numbered(size, |k| format!("$a{k}$ "))),
    ("tags with up to 10 of 2 letters after", |size| Family { shared: 0, after: 10, letters: 2, gap: 0, bare: 0 }.text(size)),
    ("the shortest tags, and each 5,000 bytes a string with one", |size| mixed(size, 5000, "$'$_q$'")),
    ("the shortest tags, and each 100 bytes a here-document", |size| mixed(size, 100, "$_x$$_x$")),
    ("strings of 1,000 bytes of `$a$b`, each with a tag after it", |size| wrapped(size, "'", "$a$b", 1000, "' ")),
    ("strings of 10,000 bytes of `$a$b`, each with a tag after it", |size| wrapped(size, "'", "$a$b", 10_000, "' ")),
    ("strings of 1,000 bytes of `$`, each with a tag after it", |size| wrapped(size, "'", "$", 1000, "' ")),
    ("comments of 100 bytes of `$`, each with a tag after it", |size| wrapped(size, "/*", "$", 100, "*/")),
    ("here-documents of 16 bytes of `$a$b`, each with a tag after it", |size| wrapped(size, "$_x$", "$a$b", 16, "$$_x$")),
    ("only `$`", |size| "$".repeat(size)),
    ("`$a$b$a$b$`", |size| "$a$b".repeat(size / 4)),
    ("`$ $ $`", |size| "$ ".repeat(size / 2)),
    ("`$aaa` without an end, again and again", |size| numbered(size, |k| format!("${}.", "a".repeat(k % 500)))),
    ("an ASCII and an Arabic letter, a space", |size| "aب ".repeat(size / 4)),
    ("a digit and an Arabic letter, a space", |size| "1ب ".repeat(size / 4)),
    ("a digit and a Devanagari letter, a space", |size| "1क ".repeat(size / 5)),
    ("a digit and a Devanagari digit, a space", |size| "1१ ".repeat(size / 5)),
    ("Arabic letters alone", |size| "ب".repeat(size / 2)),
    ("`/*/*/*`, none closed", |size| "/*".repeat(size / 2)),
    ("one string of escapes", |size| format!("'{}", "\\'".repeat(size / 2 - 1))),
];

fn sql(size: usize) -> String {
    (texts::TEXTS[0].1)(&mut Random(0xBE5466CF34E90C6C), size)
}

/// Pieces by their number.
fn numbered(size: usize, mut piece: impl FnMut(usize) -> String) -> String {
    let mut numbers = 0..;
    fitted(String::new(), size, || piece(numbers.next().unwrap()))
}

/// Numbered tags in the first half, and other pieces in the second.
fn halves(size: usize, piece: impl Fn(usize) -> String) -> String {
    let mut numbers = 0..;
    fitted(numbered(size / 2, |k| format!("$a{k}")), size, || piece(numbers.next().unwrap()))
}

/// The k-th tag of those that start with a letter, the short ones first.
fn shortest(k: usize) -> String {
    let (mut rest, mut tag) = (k / 52, TAG_BYTES[k % 52..][..1].to_string());
    while rest > 0 {
        tag += &TAG_BYTES[rest % 63..][..1];
        rest /= 63;
    }
    tag
}

fn random(size: usize, length: usize) -> String {
    texts::tags(&mut Random(0x452821E638D01377), size, length)
}

/// The shortest tags, and something else after some bytes of them, again and again.
fn mixed(size: usize, bytes: usize, other: &str) -> String {
    let mut numbers = 0..;
    numbered(size, |_| {
        let mut piece = String::new();
        while piece.len() < bytes {
            piece += &format!("${}", shortest(numbers.next().unwrap()));
        }
        piece + other
    })
}

/// Tags of their own, and before each some bytes of other tags between an opening and a closing.
fn wrapped(size: usize, open: &str, tags: &str, bytes: usize, close: &str) -> String {
    let before = format!("{open}{}{close}", tags.repeat(bytes / tags.len()));
    numbered(size, |k| format!("{before}$_{}$ ", shortest(k)))
}

/// A family of texts, for the search: tags that differ, with some bytes before that all share and up to some random ones after, out of
/// some letters; a gap of other bytes behind each; and a part of the text, in percent, that has no `$`.
#[derive(Clone)]
struct Family {
    shared: usize,
    after: usize,
    letters: usize,
    gap: usize,
    bare: usize,
}

impl Family {
    fn text(&self, size: usize) -> String {
        let mut r = Random(0x452821E638D01377);
        let gap = if self.gap == 0 { String::new() } else { format!("${}", " ".repeat(self.gap)) };
        let tags = numbered(size / 100 * (100 - self.bare), |k| {
            let tag = format!("${}{}", "a".repeat(self.shared), shortest(k));
            (0..r.below(self.after + 1)).fold(tag, |tag, _| tag + tag_byte(&mut r, self.letters)) + &gap
        });
        fitted(tags, size, || "word ".into())
    }

    /// The same but for one number.
    fn changed(&self, r: &mut Random) -> Family {
        let mut other = self.clone();
        match r.below(5) {
            0 => other.shared = r.one_of(&LENGTHS),
            1 => other.after = r.one_of(&LENGTHS),
            2 => other.letters = r.one_of(&[1, 2, 10, 63]),
            3 => other.gap = r.one_of(&[0, 1, 2, 10, 100]),
            _ => other.bare = r.one_of(&[0, 10, 30, 50, 80]),
        }
        other
    }

    fn name(&self) -> String {
        let Family { shared, after, letters, gap, bare } = self;
        format!("found: {shared} in common, up to {after} of {letters} letters after, gap {gap}, bare {bare} %")
    }
}

/// Changes a family as long as it gets slower.
fn worst_family(size: usize) -> Family {
    let mut r = Random(0x082EFA98EC4E6C89);
    let mut worst = Family { shared: 0, after: 0, letters: 63, gap: 0, bare: 0 };
    let mut slowest = ours_takes(&worst.text(size));
    for _ in 0..120 {
        let other = worst.changed(&mut r);
        let takes = ours_takes(&other.text(size));
        if takes > slowest {
            (worst, slowest) = (other, takes);
        }
    }
    worst
}

fn ours_takes(text: &str) -> f64 {
    let text = text.as_bytes();
    let mut list = ours::room(text);
    best(|| linked::list(black_box(text), 0, &mut list))
}

/// What the others are divided by: the shortest of many runs over a second or so, since the machine may have other work for a while.
fn sql_takes() -> f64 {
    let text = sql(SIZES[3]);
    (0..20).map(|_| ours_takes(&text)).fold(f64::MAX, f64::min)
}

fn rust_takes(text: &str) -> f64 {
    best(|| rust::full(black_box(text.as_bytes())))
}

/// How long a text of some size takes, in seconds; where it was not run, what the sizes before let expect.
#[derive(Clone, Copy)]
struct Time {
    seconds: f64,
    was_run: bool,
}

impl Time {
    fn shown(self) -> String {
        format!("{}{:.*}", self.mark(), if self.seconds < 0.1 { 3 } else { 0 }, self.seconds * 1e3)
    }

    /// What stands before a number that was reckoned.
    fn mark(self) -> &'static str {
        if self.was_run {
            ""
        } else {
            "~"
        }
    }
}

/// What the time of the next size should be: it grows as from the first size to the last, or with the square where there is but one.
fn expected(times: &[Time]) -> f64 {
    let grown = |from: usize, to: usize| (SIZES[to] as f64 / SIZES[from] as f64).ln();
    match times {
        [] => 0.0,
        [one] => one.seconds * (2.0 * grown(0, 1)).exp(),
        [first, .., last] => {
            let i = times.len();
            last.seconds * ((last.seconds / first.seconds).ln() / grown(0, i - 1) * grown(i - 1, i)).exp()
        }
    }
}

fn times(make: impl Fn(usize) -> String, takes: fn(&str) -> f64) -> [Time; 4] {
    let mut times = vec![];
    for size in SIZES {
        let expected = expected(&times);
        let was_run = expected < LIMIT;
        times.push(Time { seconds: if was_run { takes(&make(size)) } else { expected }, was_run });
    }
    times.try_into().ok().unwrap()
}

fn row(name: &str, make: impl Fn(usize) -> String, sql: f64) {
    let (ours, theirs) = (times(&make, ours_takes), times(&make, rust_takes));
    let [a, b, c, d] = ours.map(Time::shown);
    let (ours, theirs) = (ours[3], theirs[3]);
    let multiple = format!("{}{:.1}", ours.mark(), ours.seconds / sql);
    let ratio = format!("{}{:.2}", if ours.was_run { theirs.mark() } else { ours.mark() }, ours.seconds / theirs.seconds);
    println!("| {name:72} | {a:>12} | {b:>8} | {c:>8} | {d:>9} | {multiple:>9} | {:>15} | {ratio:>6} |", theirs.shown());
}

/// The greatest size at which different tags take us less than 0.15 seconds: a search over it ends soon.
fn size_to_search() -> usize {
    let hangs = times(TEXTS[1].1, ours_takes);
    (0..4).rev().find(|i| hangs[*i].was_run && hangs[*i].seconds < 0.15).map_or(SIZES[0], |i| SIZES[i])
}

pub fn table(chosen: &Chosen) {
    const TITLE: &str = "Bad texts, in ms";
    let texts = chosen.of(TITLE, &TEXTS);
    let searched = chosen.has(TITLE, "found");
    if texts.is_empty() && !searched {
        return;
    }
    println!("\n### {TITLE}\n");
    println!("| {:72} | ours, 10,000 |   30,000 |  100,000 | 1,000,000 | times SQL | Rust, 1,000,000 |  ratio |", "Text");
    println!("|{:-<74}|-------------:|---------:|---------:|----------:|----------:|----------------:|-------:|", "");
    let sql = sql_takes();
    for (name, make) in texts {
        row(name, make, sql);
    }
    if searched {
        let size = size_to_search();
        let worst = worst_family(size);
        row(&worst.name(), |size| worst.text(size), sql);
        println!("\nThe last is the worst that a search over 120 families of texts found, at {size} bytes.");
    }
}

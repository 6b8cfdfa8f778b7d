//! Short calls: many texts of each size, so that no processor learns one by heart.
use crate::chosen::Chosen;
use crate::tables::{self, mean_and_worst};
use crate::texts::{self, fitted};
use crate::timing::{race, Pair};
use crate::{ours, rust};
use host::{linked, oracle, reading, Random};
use std::hint::black_box;

const SIZES: [usize; 8] = [0, 1, 2, 5, 10, 20, 50, 100];

/// How many texts of a size there are. The first tokens of 1,000 were learned by heart where this was tried, those of 4,000 were not.
const TEXTS: usize = 10_000;

/// What a call makes, and what measures it over some texts of one size.
const CALLS: [(&str, fn(&[Vec<u8>]) -> Pair); 4] =
    [("full list", full), ("lean list", lean), ("masked copy", mask), ("step of the first token", step)];

/// Parts of a long text of SQL, each from where a token starts.
fn texts(size: usize) -> Vec<Vec<u8>> {
    let mut r = Random(0xC97C50DD3F84D5B5);
    let sql = String::from_utf8(tables::make(texts::TEXTS[0], 0, tables::SIZE)).unwrap();
    let tokens = oracle::full(&sql);
    let part = |_| fitted(sql[r.one_of(&tokens).1 as usize..].chars().take(size).collect(), size, || " ".into()).into_bytes();
    (0..TEXTS).map(part).collect()
}

/// A call over all the texts, by us and by the Rust, in ns a call. What the Rust makes is let go of within the time.
fn race_over<A>(texts: &[Vec<u8>], mut ours: impl FnMut(&[u8]) -> u64, mut theirs: impl FnMut(&[u8]) -> A) -> Pair {
    let pair = race(
        || texts.iter().map(|text| ours(black_box(text))).fold(0, u64::wrapping_add),
        || texts.iter().for_each(|text| drop(black_box(theirs(black_box(text))))),
    );
    Pair { ours: pair.ours * 1e9 / texts.len() as f64, theirs: pair.theirs * 1e9 / texts.len() as f64 }
}

fn full(texts: &[Vec<u8>]) -> Pair {
    let mut list = ours::room(&texts[0]);
    for text in texts {
        linked::list(text, 0, &mut list);
        assert!(list.starts_with(&reading::packed(&oracle::full(rust::checked(text)))));
    }
    race_over(texts, |text| linked::list(text, 0, &mut list), rust::full)
}

fn lean(texts: &[Vec<u8>]) -> Pair {
    let mut list = ours::room(&texts[0]);
    for text in texts {
        linked::list(text, 1, &mut list);
        assert!(list.starts_with(&reading::packed(&oracle::lean(rust::checked(text)))));
    }
    race_over(texts, |text| linked::list(text, 1, &mut list), rust::lean)
}

fn mask(texts: &[Vec<u8>]) -> Pair {
    let (mut ours, mut theirs) = (vec![0; texts[0].len()], vec![0; texts[0].len()]);
    for text in texts {
        linked::mask(text, &mut ours);
        rust::mask(text, &mut theirs);
        assert!(ours == theirs);
    }
    race_over(texts, |text| linked::mask(text, &mut ours), |text| rust::mask(text, &mut theirs))
}

fn step(texts: &[Vec<u8>]) -> Pair {
    for text in texts {
        let (kind, _, end) = oracle::steps(rust::checked(text))[0];
        assert_eq!(linked::step(text, 0), reading::answer(0, kind, end as usize));
    }
    // The Rust's text is taken to be UTF-8, as in the other table of steps.
    race_over(texts, |text| linked::step(text, 0), |text| rust::step(unsafe { std::str::from_utf8_unchecked(text) }))
}

pub fn table(chosen: &Chosen) {
    const TITLE: &str = "Short calls";
    let mut ratios = vec![];
    for (call, measure) in CALLS {
        for size in SIZES {
            if !chosen.has(TITLE, &format!("{call}, {size} bytes")) {
                continue;
            }
            if ratios.is_empty() {
                println!("\n### {TITLE}\n");
                println!("| {:23} | bytes | ours, ns | Rust, ns | ratio |", "Call");
                println!("|{:-<25}|------:|---------:|---------:|------:|", "");
            }
            let pair = measure(&texts(size));
            println!("| {call:23} | {size:5} | {:8.1} | {:8.1} | {:5.2} |", pair.ours, pair.theirs, pair.ratio());
            ratios.push(pair.ratio());
        }
    }
    if !ratios.is_empty() {
        for (name, ratio) in mean_and_worst(&ratios) {
            println!("| {name:23} | {:5} | {:8} | {:8} | {ratio:5.2} |", "", "", "");
        }
    }
}

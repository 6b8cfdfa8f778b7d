//! The tables of times against the Rust's.
use crate::chosen::Chosen;
use crate::texts::{Group, Text, TEXTS};
use crate::timing::{race, Pair};
use crate::{ours, rust};
use host::{linked, oracle, reading, Random};
use std::hint::black_box;

pub const SIZE: usize = 1_000_000;

/// A text of some size, the same for the same number.
pub fn make<T: Into<Vec<u8>>>(text: Text<T>, number: usize, size: usize) -> Vec<u8> {
    let (name, make) = text;
    let made: Vec<u8> = make(&mut Random(0xB5297A4D1B56C4E9 ^ number as u64), size).into();
    assert_eq!(made.len(), size, "{name}");
    made
}

/// The last rows of a table: the geometric mean of the ratios and the worst of them.
pub fn mean_and_worst(ratios: &[f64]) -> [(&'static str, f64); 2] {
    let mean = (ratios.iter().map(|x| x.ln()).sum::<f64>() / ratios.len() as f64).exp();
    [("geometric mean", mean), ("worst", ratios.iter().copied().fold(0.0, f64::max))]
}

/// One table of the rows that are chosen: a row a text, below the name of its group where there are several groups.
pub fn table<T: Into<Vec<u8>> + 'static>(chosen: &Chosen, title: &str, groups: &[Group<T>], measure: impl Fn(&[u8]) -> Pair) {
    let several = groups.len() > 1;
    let mut ratios = vec![];
    for (group, texts) in groups {
        let texts = chosen.of(title, texts);
        if ratios.is_empty() && !texts.is_empty() {
            println!("\n### {title}\n");
            println!("| {:48} | ours, ms | Rust, ms | ours, MB/s | ratio |", "Text");
            println!("|{:-<50}|---------:|---------:|-----------:|------:|", "");
        }
        if several && !texts.is_empty() {
            println!("| {:48} | {:8} | {:8} | {:10} | {:5} |", format!("**{group}**"), "", "", "", "");
        }
        for text in texts {
            let pair = measure(&make(text, 0, SIZE));
            let (ours, theirs) = (pair.ours * 1e3, pair.theirs * 1e3);
            println!("| {:48} | {ours:8.3} | {theirs:8.3} | {:10.0} | {:5.2} |", text.0, SIZE as f64 / pair.ours / 1e6, pair.ratio());
            ratios.push(pair.ratio());
        }
    }
    if !ratios.is_empty() {
        for (name, ratio) in mean_and_worst(&ratios) {
            println!("| {name:48} | {:8} | {:8} | {:10} | {ratio:5.2} |", "", "", "");
        }
    }
}

pub fn full(text: &[u8]) -> Pair {
    let mut list = ours::room(text);
    linked::list(text, 0, &mut list);
    assert!(list.starts_with(&reading::packed(&oracle::full(rust::checked(text)))));
    race(|| linked::list(black_box(text), 0, &mut list), || rust::full(black_box(text)))
}

pub fn lean(text: &[u8]) -> Pair {
    let mut list = ours::room(text);
    linked::list(text, 1, &mut list);
    assert!(list.starts_with(&reading::packed(&oracle::lean(rust::checked(text)))));
    race(|| linked::list(black_box(text), 1, &mut list), || rust::lean(black_box(text)))
}

pub fn mask(text: &[u8]) -> Pair {
    let (mut ours, mut theirs) = (vec![0; text.len()], vec![0; text.len()]);
    linked::mask(text, &mut ours);
    rust::mask(text, &mut theirs);
    assert!(ours == theirs);
    race(|| linked::mask(black_box(text), &mut ours), || rust::mask(black_box(text), &mut theirs))
}

pub fn steps(text: &[u8]) -> Pair {
    let checked = rust::checked(text);
    assert_eq!(ours::steps(text), rust::steps(checked));
    race(|| ours::steps(black_box(text)), || rust::steps(black_box(checked)))
}

pub fn damaged_steps(text: &[u8]) -> Pair {
    assert_eq!(ours::steps(text), rust::damaged_steps(text));
    race(|| ours::steps(black_box(text)), || rust::damaged_steps(black_box(text)))
}

pub fn place(text: &[u8]) -> Pair {
    let (checked, last) = (rust::checked(text), text.len() - 1);
    assert_eq!(linked::place(text, last), reading::packed_place(rust::place(checked, last)));
    race(|| linked::place(black_box(text), last), || rust::place(black_box(checked), last))
}

pub fn valid(text: &[u8]) -> Pair {
    assert_eq!(linked::valid_length(text), text.len());
    race(|| linked::valid_length(black_box(text)), || std::str::from_utf8(black_box(text)).is_ok())
}

/// The full list of 1,000,000 bytes, as texts of each size: a text of its own each time, so that no processor learns a short one by heart.
pub fn growth(chosen: &Chosen) {
    const TITLE: &str = "Growth, in ns a byte";
    let texts = chosen.of(TITLE, &TEXTS);
    if texts.is_empty() {
        return;
    }
    println!("\n### {TITLE}\n");
    println!("| {:48} | ours, 10,000 | 100,000 | 1,000,000 | last to first | Rust, 10,000 | 100,000 | 1,000,000 |", "Text");
    println!("|{:-<50}|-------------:|--------:|----------:|--------------:|-------------:|--------:|----------:|", "");
    for text in texts {
        let [a, b, c] = [10_000, 100_000, 1_000_000].map(|size| {
            let texts: Vec<Vec<u8>> = (0..SIZE / size).map(|number| make(text, number, size)).collect();
            let mut list = ours::room(&texts[0]);
            let ours = || texts.iter().map(|text| linked::list(black_box(text), 0, &mut list)).fold(0, u64::wrapping_add);
            let pair = race(ours, || texts.iter().map(|text| black_box(rust::full(black_box(text))).len()).sum::<usize>());
            Pair { ours: pair.ours * 1e9 / SIZE as f64, theirs: pair.theirs * 1e9 / SIZE as f64 }
        });
        println!(
            "| {:48} | {:12.3} | {:7.3} | {:9.3} | {:13.2} | {:12.3} | {:7.3} | {:9.3} |",
            text.0,
            a.ours,
            b.ours,
            c.ours,
            c.ours / a.ours,
            a.theirs,
            b.theirs,
            c.theirs
        );
    }
}

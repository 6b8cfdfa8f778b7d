//! Saved token lists: writing and reading the full list of a text, beside listing it.
use crate::chosen::Chosen;
use crate::ours;
use crate::tables::{make, mean_and_worst, SIZE};
use crate::texts::GROUPS;
use crate::timing::{race, Pair};
use host::{linked, saved, TOKEN_BYTES};
use std::hint::black_box;

/// Writing and then reading, each in turns with listing.
fn both(name: &str, text: &[u8]) -> [Pair; 2] {
    let (mut room, mut loaded) = (ours::room(text), ours::room(text));
    let tokens = linked::list(text, 0, &mut room) as usize;
    let list = room[..TOKEN_BYTES * tokens].to_vec();
    let file = saved::written(text, &list, 0).expect("a list that the library made");
    let mut written = vec![0; file.len()];
    assert_eq!((linked::save(text, &list, 0, &mut written), linked::load(&file, &mut loaded)), (file.len() as u64, tokens as u64), "{name}");
    assert!(written == file && loaded.starts_with(&list), "{name}");
    let mut lists = || linked::list(black_box(text), 0, &mut room);
    let writing = race(|| linked::save(black_box(text), black_box(&list), 0, &mut written), &mut lists);
    let reading = race(|| linked::load(black_box(&file), &mut loaded), &mut lists);
    [writing, reading]
}

/// Prints a row of the table.
fn row(name: &str, text: &[u8]) -> [Pair; 2] {
    let pairs = both(name, text);
    let [writing, reading] = pairs.map(|pair| {
        let (ms, speed) = (pair.ours * 1e3, text.len() as f64 / pair.ours / 1e6);
        format!("{ms:11.3} | {speed:5.0} | {:5.2}", pair.ratio())
    });
    let listing = pairs[0].theirs.min(pairs[1].theirs) * 1e3;
    println!("| {name:48} | {listing:13.3} | {writing} | {reading} |");
    pairs
}

pub fn table(chosen: &Chosen) {
    const TITLE: &str = "Saved lists";
    let texts: Vec<_> = GROUPS[..3].iter().flat_map(|(_, texts)| chosen.of(TITLE, texts)).collect();
    if texts.is_empty() {
        return;
    }
    println!("\n### {TITLE}\n");
    println!("| {:48} | full list, ms | writing, ms |  MB/s | ratio | reading, ms |  MB/s | ratio |", "Text");
    println!("|{:-<50}|--------------:|------------:|------:|------:|------------:|------:|------:|", "");
    let mut ratios = [vec![], vec![]];
    for text in texts {
        let pairs = row(text.0, &make(text, 0, SIZE));
        ratios.iter_mut().zip(pairs).for_each(|(ratios, pair)| ratios.push(pair.ratio()));
        // Most queries are shorter, and what is written and read then stays in the processor's own memory.
        for size in if text.0 == "SQL" { [SIZE / 10, SIZE / 100].as_slice() } else { &[] } {
            row(&format!("{} of {size} bytes", text.0), &make(text, 0, *size));
        }
    }
    let [writing, reading] = ratios.map(|ratios| mean_and_worst(&ratios));
    for ((name, writing), (_, reading)) in writing.into_iter().zip(reading) {
        println!("| {name:48} | {:13} | {:11} | {:5} | {writing:5.2} | {:11} | {:5} | {reading:5.2} |", "", "", "", "", "");
    }
    println!("\nThe ratio is to our own full list of the same text, measured in turns with each; MB/s are of text. The goal on SQL is at most 0.25.");
}

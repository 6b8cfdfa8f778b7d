//! The second reading of document 01 against the Rust, wherever the Rust has an answer: on UTF-8.
#![cfg(oracle)]
use host::{oracle, reading, texts, Call, Op, Random};

fn same_list(text: &str) {
    assert_eq!(reading::full(text.as_bytes()), oracle::full(text), "{text:?}");
}

fn same_statement(text: &str) {
    assert_eq!(reading::statement(text.as_bytes(), &reading::full(text.as_bytes())), oracle::first_statement(text), "{text:?}");
}

fn same_lists(text: &str, position: usize) {
    for (op, mode) in [(Op::List, 0), (Op::List, 1), (Op::ListUpTo, 0), (Op::ListUpTo, 1)] {
        let call = Call::list(op, mode, position as u64, text.as_bytes(), 0);
        assert_eq!(reading::asked(&call, reading::full(call.text)), oracle::asked(&call), "{op:?}, mode {mode}, {position}: {text:?}");
    }
}

#[test]
fn every_text_of_up_to_four_characters() {
    let (mut full, mut all) = (0, 0);
    for length in 0..=4 {
        for text in texts::every(length).flatten() {
            same_list(&text);
            full += 1;
            if length < 4 {
                (0..=text.len() + 1).for_each(|position| same_lists(&text, position));
                all += 4 * (text.len() + 2);
            }
        }
    }
    println!("the reading and the Rust: {full} full lists, and {all} of all four kinds at every position");
}

#[test]
fn random_texts() {
    let mut r = Random(0x243F6A8885A308D3);
    let n = texts::how_many(300_000);
    for _ in 0..n {
        let text = texts::random(&mut r);
        let position = r.below(text.len() + 2);
        same_lists(&text, position);
    }
    println!("the reading and the Rust: {n} random texts, all four lists");
}

#[test]
fn every_character() {
    let characters = '\0'..=char::MAX;
    let n = characters.clone().count();
    characters.for_each(|c| same_list(&format!("{c}a{c}1{c}'{c}")));
    println!("the reading and the Rust: {n} characters");
}

#[test]
fn the_first_statement() {
    let mut r = Random(0x2E0B4482A4842004);
    let every = (0..=3).flat_map(|length| texts::every_of(&texts::OF_STATEMENTS, length)).flatten();
    let n = texts::how_many(30_000);
    let random = (0..n).map(|_| texts::script(&mut r));
    let mut count = 0;
    for text in every.chain(random) {
        same_statement(&text);
        count += 1;
    }
    println!("the reading and the Rust: the first statement of {count} texts, {n} of them random scripts");
}

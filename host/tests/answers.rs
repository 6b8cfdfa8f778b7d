//! The stored answers are what the oracle answers today.
#![cfg(oracle)]
use host::TOKEN_BYTES;
use std::process::Command;

/// The number at the front of some bytes, which go on after it.
fn number(rest: &mut &[u8]) -> usize {
    u32::from_le_bytes(rest.split_off(..4).unwrap().try_into().unwrap()) as usize
}

#[test]
fn the_stored_answers() {
    let made = Command::new(env!("CARGO_BIN_EXE_answers")).output().unwrap();
    assert!(made.status.success());
    let stored = std::fs::read(concat!(env!("CARGO_MANIFEST_DIR"), "/../crates/replay/data/answers")).unwrap();
    assert!(made.stdout == stored, "crates/replay/data/answers: make it again, as host/src/bin/answers.rs says");
    let (mut rest, mut texts, mut tokens) = (&stored[..], 0, 0);
    while !rest.is_empty() {
        let length = number(&mut rest);
        rest.split_off(..length).unwrap();
        let count = number(&mut rest);
        rest.split_off(..TOKEN_BYTES * count).unwrap();
        (texts, tokens) = (texts + 1, tokens + count);
    }
    println!("{texts} stored texts with {tokens} tokens, {} bytes", stored.len());
}

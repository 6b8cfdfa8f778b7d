//! Writes the oracle's answers to some thousand texts to standard output, for a replay that needs no Rust:
//!
//!     cargo run --release --manifest-path host/Cargo.toml --bin answers > crates/replay/data/answers
//!
//! They are cases with nothing before, between or after them. A case is
//!
//!     4 bytes      the length n of the text
//!     n bytes      the text, in UTF-8
//!     4 bytes      the number m of tokens in its full list
//!     12 m bytes   the list, packed as document 01 has it: kind, start, end, 4 bytes each
//!
//! and every number has its low byte first. The texts are all those of up to 2 characters of the alphabet, then random ones; none has over
//! 250 bytes. Each run writes the same bytes.
#[cfg(oracle)]
fn main() {
    use host::{oracle, reading, texts, Random};
    use std::io::Write;

    let mut r = Random(0xBE5466CF34E90C6C);
    let random = std::iter::repeat_with(|| texts::random(&mut r)).filter(|text| text.len() <= 250).take(3000);
    let mut all = vec![];
    for text in (0..=2).flat_map(texts::every).flatten().chain(random) {
        let tokens = oracle::full(&text);
        all.extend((text.len() as u32).to_le_bytes());
        all.extend(text.as_bytes());
        all.extend((tokens.len() as u32).to_le_bytes());
        all.extend(reading::packed(&tokens));
    }
    std::io::stdout().write_all(&all).unwrap();
}

#[cfg(not(oracle))]
fn main() {
    eprintln!("answers: ORACLE_SRC has no Rust to ask: see README.md");
    std::process::exit(1);
}

//! The library's C functions, as a host calls them.
use host::{linked, TOKEN_BYTES};

/// Room for a token a byte.
pub fn room(text: &[u8]) -> Vec<u8> {
    vec![0; TOKEN_BYTES * text.len()]
}

/// Every token by a call of its own; how many there are.
pub fn steps(text: &[u8]) -> usize {
    let (mut cursor, mut tokens) = (0, 0);
    while cursor < text.len() {
        cursor = (linked::step(text, cursor) & 0xFFFFFFFFFFFF) as usize;
        tokens += 1;
    }
    tokens
}

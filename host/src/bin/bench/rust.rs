//! What the library is measured against: the Rust that it was ported from, and the rest as one would write it in Rust.
use host::lexer::token::Token;
use host::lexer::tokenizer::{tokenize, tokenize_with_whitespace, Tokenizer};
use host::parser::syntax_kind::SyntaxKind as K;
use std::ops::Range;

pub fn checked(text: &[u8]) -> &str {
    std::str::from_utf8(text).expect("the texts are UTF-8")
}

pub fn full(text: &[u8]) -> Vec<Token> {
    tokenize_with_whitespace(checked(text))
}

pub fn lean(text: &[u8]) -> Vec<Token> {
    tokenize(checked(text))
}

/// The bytes of the text that a token hides.
fn hidden(text: &[u8], token: &Token) -> Range<usize> {
    let (start, end) = (token.start as usize, token.end as usize);
    let quote = if text[start].is_ascii() { 1 } else { 3 };
    match token.kind {
        K::StringToken => start + quote..end - quote,
        K::HereDoc => {
            let tag = 2 + text[start + 1..].iter().position(|b| *b == b'$').unwrap();
            start + tag..end - tag
        }
        K::Comment if text[start] == b'/' => start + 2..end - 2,
        K::Comment | K::ErrorMultilineCommentIsNotClosed => start + 2..end,
        K::ErrorSingleQuoteIsNotClosed | K::ErrorDoubleQuoteIsNotClosed | K::ErrorBackQuoteIsNotClosed => start + quote..end,
        _ => start..start,
    }
}

/// The masked copy, into bytes that are there already.
pub fn mask(text: &[u8], copy: &mut [u8]) {
    copy.copy_from_slice(text);
    for token in full(text) {
        copy[hidden(text, &token)].fill(b'#');
    }
}

/// Every token by a call of its own; how many there are. The text is taken to be UTF-8, as the library's steps do not test it either.
pub fn steps(text: &str) -> usize {
    let mut tokenizer = Tokenizer::new(text);
    let mut tokens = 0;
    while std::hint::black_box(tokenizer.next_token()).kind != K::EndOfStream {
        tokens += 1;
    }
    tokens
}

/// The same for a text that may be damaged: its valid parts, and a token for each broken character between them.
pub fn damaged_steps(text: &[u8]) -> usize {
    let lexed = |valid: &str| if valid.is_empty() { 0 } else { steps(valid) };
    text.utf8_chunks().map(|part| lexed(part.valid()) + !part.invalid().is_empty() as usize).sum()
}

/// The first token.
pub fn step(text: &str) -> Token {
    Tokenizer::new(text).next_token()
}

/// The line and the column of an offset. The text is taken to be UTF-8, as the library does not test it either.
pub fn place(text: &str, offset: usize) -> (usize, usize) {
    let (mut line, mut column) = (0, 0);
    for (at, c) in text[..text.floor_char_boundary(offset)].char_indices() {
        match c {
            '\r' if text[at + 1..].starts_with('\n') => column += 1,
            '\r' | '\n' => (line, column) = (line + 1, 0),
            _ => column += c.len_utf16(),
        }
    }
    (line, column)
}

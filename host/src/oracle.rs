//! The Rust that the library was ported from, unchanged, with document 01's numbers for its kinds.
use crate::lexer::token::Token;
use crate::lexer::tokenizer::{tokenize, tokenize_up_to, tokenize_with_whitespace, Tokenizer};
use crate::parser::syntax_kind::SyntaxKind as K;
use crate::{Call, Op, Statement, Triple};

/// Document 01's numbers start at 1, in this order.
pub const KINDS: [K; 48] = [
    K::Whitespace,
    K::Comment,
    K::Number,
    K::BareWord,
    K::StringToken,
    K::QuotedIdentifier,
    K::HereDoc,
    K::OpeningRoundBracket,
    K::ClosingRoundBracket,
    K::OpeningSquareBracket,
    K::ClosingSquareBracket,
    K::OpeningCurlyBrace,
    K::ClosingCurlyBrace,
    K::Comma,
    K::Semicolon,
    K::Dot,
    K::Star,
    K::DollarSign,
    K::Plus,
    K::Minus,
    K::Arrow,
    K::Slash,
    K::Percent,
    K::QuestionMark,
    K::Colon,
    K::DoubleColon,
    K::Caret,
    K::Equals,
    K::Spaceship,
    K::NotEquals,
    K::Less,
    K::LessOrEquals,
    K::Greater,
    K::GreaterOrEquals,
    K::Concatenation,
    K::At,
    K::DoubleAt,
    K::VerticalDelimiter,
    K::EndOfStream,
    K::ErrorMultilineCommentIsNotClosed,
    K::ErrorSingleQuoteIsNotClosed,
    K::ErrorDoubleQuoteIsNotClosed,
    K::ErrorBackQuoteIsNotClosed,
    K::ErrorWrongNumber,
    K::ErrorSingleExclamationMark,
    K::ErrorSinglePipeMark,
    K::ErrorToken,
    K::ErrorMaxQuerySizeExceeded,
];

fn triples(tokens: Vec<Token>) -> Vec<Triple> {
    let number = |k: K| KINDS.iter().position(|x| *x == k).expect("a kind that the lexer makes") as u32 + 1;
    tokens.into_iter().map(|t| (number(t.kind), t.start, t.end)).collect()
}

pub fn full(text: &str) -> Vec<Triple> {
    triples(tokenize_with_whitespace(text))
}

pub fn lean(text: &str) -> Vec<Triple> {
    triples(tokenize(text))
}

pub fn full_up_to(text: &str, position: usize) -> Vec<Triple> {
    let mut t = Tokenizer::new(text);
    t.set_include_whitespace(true);
    triples(t.tokenize_up_to_position(position))
}

pub fn lean_up_to(text: &str, position: usize) -> Vec<Triple> {
    triples(tokenize_up_to(text, position))
}

/// The list that a call of a listing asks for.
pub fn asked(call: &Call) -> Vec<Triple> {
    let text = std::str::from_utf8(call.text).expect("the Rust takes UTF-8 only");
    match (call.op, call.mode) {
        (Op::List, 0) => full(text),
        (Op::List, 1) => lean(text),
        (Op::ListUpTo, 0) => full_up_to(text, call.number as usize),
        (Op::ListUpTo, 1) => lean_up_to(text, call.number as usize),
        _ => panic!("the Rust has no such list: {:?} with mode {}", call.op, call.mode),
    }
}

/// Every single token, each by a call of its own, with EndOfStream as the last.
pub fn steps(text: &str) -> Vec<Triple> {
    let mut t = Tokenizer::new(text);
    let mut tokens = vec![];
    while tokens.last().is_none_or(|last: &Token| last.kind != K::EndOfStream) {
        tokens.push(t.next_token());
    }
    triples(tokens)
}

/// The first statement, by a call for each token up to its delimiter, and by none after that.
pub fn first_statement(text: &str) -> Statement {
    let mut t = Tokenizer::new(text);
    let mut tokens = 0;
    loop {
        let token = t.next_token();
        match token.kind {
            K::EndOfStream => return Statement { tokens, before: text.len(), end: text.len() },
            K::Semicolon | K::VerticalDelimiter => {
                return Statement { tokens: tokens + 1, before: token.start as usize, end: token.end as usize };
            }
            _ => tokens += 1,
        }
    }
}

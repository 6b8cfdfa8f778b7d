//! What `show` prints on a terminal.
use crate::unseen::{Piece, pieces};
use giehtamun::{Kind, Token};

/// The number of a kind's colour, as terminals have them.
fn colour(kind: Kind) -> u8 {
    match kind {
        Kind::Whitespace => 0,
        Kind::Comment => 90,
        Kind::Number => 36,
        Kind::BareWord => 34,
        Kind::StringToken => 32,
        Kind::HereDoc => 33,
        Kind::QuotedIdentifier => 35,
        kind if kind > Kind::EndOfStream => 31,
        _ => 39,
    }
}

pub fn coloured(text: &str, tokens: Vec<Token>) -> String {
    let mut out = String::new();
    for token in tokens {
        out += &format!("\x1b[{}m", colour(token.kind));
        for piece in pieces(text, token.range()) {
            match piece {
                Piece::Seen(part) => out += part,
                Piece::Unseen(c) => out += &format!("\x1b[7m{}\x1b[27m", c.escape_debug()),
            }
        }
        out += "\x1b[0m";
    }
    out
}

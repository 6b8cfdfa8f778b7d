//! The web page that `show --html` prints.
use crate::unseen::{Piece, pieces};
use giehtamun::{Kind, Token};
use std::ops::Range;

fn escaped(text: &str) -> String {
    let mut out = String::new();
    for c in text.chars() {
        match c {
            '&' => out += "&amp;",
            '<' => out += "&lt;",
            '>' => out += "&gt;",
            '"' => out += "&quot;",
            '\'' => out += "&#39;",
            c => out.push(c),
        }
    }
    out
}

/// A part of the text. An unseen character is a box that has no say in the direction of what is around it.
fn shown(text: &str, part: Range<usize>) -> String {
    let piece = |piece| match piece {
        Piece::Seen(part) => escaped(part),
        Piece::Unseen(c) => format!("<bdi dir=\"ltr\">{}</bdi>", c.escape_debug()),
    };
    pieces(text, part).map(piece).collect()
}

/// Where what a literal or comment holds begins and ends. Quotes, tags and marks are no part of that: a direction is that of the first letter,
/// and a tag has letters.
fn held(kind: Kind, token: &str) -> Option<Range<usize>> {
    let length = token.len();
    let quote = token.chars().next().map_or(0, char::len_utf8);
    Some(match kind {
        Kind::StringToken | Kind::QuotedIdentifier => quote..length - quote,
        Kind::HereDoc => {
            let tag = 2 + token[1..].find('$')?;
            tag..length - tag
        }
        Kind::Comment if token.starts_with("/*") => 2..length - 2,
        Kind::Comment | Kind::ErrorMultilineCommentIsNotClosed => 2..length,
        Kind::ErrorSingleQuoteIsNotClosed | Kind::ErrorDoubleQuoteIsNotClosed | Kind::ErrorBackQuoteIsNotClosed => quote..length,
        _ => return None,
    })
}

fn element(text: &str, token: Token) -> String {
    let Range { start, end } = token.range();
    let inside = match held(token.kind, &text[start..end]) {
        Some(held) => {
            let (from, to) = (start + held.start, start + held.end);
            format!("{}<bdi dir=\"auto\">{}</bdi>{}", shown(text, start..from), shown(text, from..to), shown(text, to..end))
        }
        None => shown(text, start..end),
    };
    format!("<span class=\"{}\">{inside}</span>", token.kind)
}

pub fn page(title: &str, text: &str, tokens: Vec<Token>) -> String {
    let query: String = tokens.into_iter().map(|token| element(text, token)).collect();
    format!(
        "<!DOCTYPE html>\n<html lang=\"en\">\n<head>\n<meta charset=\"utf-8\">\n<title>{}</title>\n<style>\n{}</style>\n</head>\n<body>\n\
         <div class=\"query\" dir=\"ltr\">{query}</div>\n</body>\n</html>\n",
        escaped(title),
        include_str!("page.css")
    )
}

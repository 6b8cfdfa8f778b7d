//! Characters that are not seen but act: on a terminal, or on the direction of text.
use std::ops::Range;

/// Control characters, what turns the direction of text, and what has no width. A line feed and a tab are laid out, and so not among them.
pub fn is_unseen(c: char) -> bool {
    let turns = matches!(c, '\u{61C}' | '\u{200E}' | '\u{200F}' | '\u{2028}'..='\u{202E}' | '\u{2066}'..='\u{2069}');
    c.is_control() && c != '\n' && c != '\t' || turns || matches!(c, '\u{200B}' | '\u{FEFF}')
}

/// A text on one line, with unseen characters, line feeds, tabs, double quotes and backslashes escaped as Rust does.
pub fn on_a_line(text: &str) -> String {
    let mut line = String::new();
    for c in text.chars() {
        if is_unseen(c) || matches!(c, '\n' | '\t' | '"' | '\\') {
            line.extend(c.escape_debug());
        } else {
            line.push(c);
        }
    }
    line
}

/// What a part of a text is shown as.
pub enum Piece<'a> {
    Seen(&'a str),
    Unseen(char),
}

/// The pieces of a part of a text. A carriage return before a line feed is left out: a page would make a line of each.
pub fn pieces(text: &str, part: Range<usize>) -> impl Iterator<Item = Piece<'_>> {
    let mut at = part.start;
    std::iter::from_fn(move || {
        let rest = &text[at..part.end];
        let first = rest.chars().next()?;
        if !is_unseen(first) {
            let length = rest.find(is_unseen).unwrap_or(rest.len());
            at += length;
            return Some(Piece::Seen(&rest[..length]));
        }
        let ends_line = text[at..].starts_with("\r\n");
        at += first.len_utf8();
        Some(if ends_line { Piece::Seen("") } else { Piece::Unseen(first) })
    })
}

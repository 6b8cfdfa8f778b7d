//! What `list` and `open` print.
use crate::unseen::on_a_line;
use giehtamun::{Place, Token, place};

/// The place so many bytes after a place, where the rest of the text begins. From token to token, so that a list takes no more than its
/// text's length.
fn after(start: Place, rest: &[u8], bytes: usize) -> Place {
    // In the rest, not in these bytes alone: a comment may end between CR and LF, and then its CR ends no line.
    let by = place(rest, bytes).expect("an offset in a text that is not too long");
    Place { line: start.line + by.line, column: by.column + if by.line == 0 { start.column } else { 0 } }
}

pub fn lines(text: &str, tokens: Vec<Token>) -> String {
    let mut out = String::new();
    let (mut at, mut here) = (0, Place::default());
    for token in tokens {
        // A saved list may cut a character, and then its place is that of the character.
        let start = text.floor_char_boundary(token.start as usize);
        here = after(here, &text.as_bytes()[at..], start - at);
        at = start;
        let bytes = format!("{}..{}", token.start, token.end);
        let place = format!("{}:{}", here.line + 1, here.column + 1);
        let quoted = on_a_line(&String::from_utf8_lossy(&text.as_bytes()[token.range()]));
        out += &format!("{:<20} {bytes:<11} {place:<7} \"{quoted}\"\n", token.kind);
    }
    out
}

//! Places by the text of the Language Server Protocol 3.17 and by Rust's own strings. It shares nothing with the second reading.

/// "export const EOL: string[] = ['\\n', '\\r\\n', '\\r'];", those first that begin with another.
const EOL: [&str; 3] = ["\r\n", "\n", "\r"];

/// A text's lines, each with its end. The last has none.
pub fn lines(text: &str) -> Vec<&str> {
    let (mut lines, mut rest) = (vec![], text);
    while let Some(at) = rest.find(['\n', '\r']) {
        let eol = EOL.into_iter().find(|eol| rest[at..].starts_with(eol)).unwrap();
        let (line, after) = rest.split_at(at + eol.len());
        lines.push(line);
        rest = after;
    }
    lines.push(rest);
    lines
}

/// The line that holds an offset, and the UTF-16 code units in it that come before, or before the character that the offset is in. The protocol
/// has no position between CR and LF; here, as document 02 has it, it is after the CR.
pub fn place(lines: &[&str], offset: usize) -> (usize, usize) {
    let mut rest = offset;
    for (number, line) in lines.iter().enumerate() {
        if rest < line.len() || number + 1 == lines.len() {
            return (number, line[..line.floor_char_boundary(rest)].encode_utf16().count());
        }
        rest -= line.len();
    }
    unreachable!("a text has a line")
}

/// A text with a letter, as long, for each part that `utf8_chunks` finds broken: such a part, too, is one column and ends no line.
pub fn mended(text: &[u8]) -> String {
    let mut mended = String::new();
    for chunk in text.utf8_chunks() {
        mended += chunk.valid();
        mended += ["", "x", "é", "ა"][chunk.invalid().len()];
    }
    mended
}

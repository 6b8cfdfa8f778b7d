//! The tool as someone with a file uses it: what it prints, where, and with which status.
mod ran;
mod stored;

use giehtamun::{MAX_QUERY_SIZE, Token, list, list_lean, place};
use ran::{prints, refuses, run, tool};
use std::fs::File;
use std::io::{Read, Write};

/// Kind, bytes and place of each line that a list prints.
fn fields(words: &[&str], text: &[u8]) -> Vec<String> {
    prints(words, text).lines().map(|line| line.split_whitespace().take(3).collect::<Vec<_>>().join(" ")).collect()
}

/// Document 01's example, with the names and places that document 01 has for kinds and offsets.
#[test]
fn lists_document_01s_example() {
    let lines = "\
BareWord             0..1        1:1     \"x\"
Dot                  1..2        1:2     \".\"
Number               2..3        1:3     \"1\"
Whitespace           3..4        1:4     \" \"
LessOrEquals         4..6        1:5     \"<=\"
StringToken          6..10       1:7     \"'é'\"
";
    assert_eq!(prints(&["list", "-"], "x.1 <='é'".as_bytes()), lines);
    assert_eq!(prints(&["list", "-"], b""), "");
}

#[test]
fn lists_places_over_lines_and_without_what_is_lean() {
    let text = "a /*c\nd*/ b\n\n  é '\n' e -- f".as_bytes();
    let lean = ["BareWord 0..1 1:1", "BareWord 10..11 2:5", "ErrorToken 15..17 4:3", "StringToken 18..21 4:5", "BareWord 22..23 5:3"];
    assert_eq!(fields(&["list", "--lean", "-"], text), lean);
    assert_eq!(fields(&["list", "-", "--lean"], text), lean);
    let full = fields(&["list", "-"], text);
    assert_eq!(full.len(), 13);
    assert_eq!(full[2], "Comment 2..9 1:3");
    assert_eq!(full[12], "Comment 24..28 5:5");
}

/// A Hebrew letter is a column, and a character above U+FFFF is two.
#[test]
fn lists_columns_in_utf16_units() {
    let lean = |text: &str| fields(&["list", "--lean", "-"], text.as_bytes());
    assert_eq!(lean("'שלום' a"), ["StringToken 0..10 1:1", "BareWord 11..12 1:8"]);
    assert_eq!(lean("'a𐐀b' c"), ["StringToken 0..8 1:1", "BareWord 9..10 1:8"]);
    assert_eq!(lean("/*ש\n😀ש*/,'é';"), ["Comma 13..14 2:6", "StringToken 14..18 2:7", "Semicolon 18..19 2:10"]);
}

/// A line ends at LF, at CR LF taken together, or at CR alone, and a comment at LF only.
#[test]
fn lists_lines_as_editors_end_them() {
    let full = |text: &str| fields(&["list", "-"], text.as_bytes());
    assert_eq!(full("a\r\nb"), ["BareWord 0..1 1:1", "Whitespace 1..3 1:2", "BareWord 3..4 2:1"]);
    assert_eq!(full("a\rb"), ["BareWord 0..1 1:1", "Whitespace 1..2 1:2", "BareWord 2..3 2:1"]);
    assert_eq!(full("a\n\rb"), ["BareWord 0..1 1:1", "Whitespace 1..3 1:2", "BareWord 3..4 3:1"]);
    // The LF begins a token, and is still on the line that it ends with the CR.
    assert_eq!(full("-- c\r\nb"), ["Comment 0..5 1:1", "Whitespace 5..6 1:6", "BareWord 6..7 2:1"]);
    assert_eq!(full("-- c\rd\r\r\n e"), ["Comment 0..8 1:1", "Whitespace 8..10 3:2", "BareWord 10..11 4:2"]);
    assert_eq!(fields(&["list", "--lean", "-"], b"-- c\r\nb\r\n"), ["BareWord 6..7 2:1"]);
}

/// Texts in which any three of some pieces follow one another: line ends, what may stand before them, and characters of each length.
fn line_ends() -> Vec<String> {
    let pieces = ["\r", "\n", "a", "ש", "𐐀", "'\r'", "'\n😀'", "-- é", "/*\r\n*/", " ", ","];
    let pairs = pieces.iter().flat_map(|second| pieces.iter().map(move |third| [*second, *third]));
    let after = |first: &str| pairs.clone().map(|[second, third]| format!("{first}{second}{third}")).collect();
    pieces.iter().map(|first| after(first)).collect()
}

/// A list adds its places up from token to token; each is the place in the whole text. Some of the stored texts are joined to one.
#[test]
fn listed_places_are_those_of_the_whole_text() {
    let stored = stored::texts();
    for text in stored.chunks(100).map(|some| some.join("\r")).chain(line_ends()) {
        let text = text.as_bytes();
        let line = |token: &Token| {
            let at = place(text, token.start as usize).unwrap();
            format!("{} {}..{} {}:{}", token.kind, token.start, token.end, at.line + 1, at.column + 1)
        };
        for (words, tokens) in [(&["list", "-"][..], list(text).unwrap()), (&["list", "--lean", "-"], list_lean(text).unwrap())] {
            let want: Vec<String> = tokens.iter().map(line).collect();
            assert_eq!(fields(words, text), want, "{words:?}, {}", text.escape_ascii());
        }
    }
}

/// Each line of a list is one line, whatever the text holds.
#[test]
fn lists_what_is_not_seen() {
    let text = "'\n\t\r\0\x1b\u{7F}\u{85}\u{200B}\u{200F}\u{2028}\u{202E}\u{2069}\u{FEFF}\"\\\\\u{200D}ב\u{5B0}'";
    let shown = r#"'\n\t\r\0\u{1b}\u{7f}\u{85}\u{200b}\u{200f}\u{2028}\u{202e}\u{2069}\u{feff}\"\\\\"#;
    let line = format!("StringToken          0..{}       1:1     \"{shown}\u{200D}ב\u{5B0}'\"\n", text.len());
    assert_eq!(prints(&["list", "-"], text.as_bytes()), line);
}

#[test]
fn masks_document_01s_case() {
    assert_eq!(prints(&["mask", "-"], b"$xxx$ a $$abc$$"), "$xxx$ a $$###$$");
}

#[test]
fn reads_files() {
    let file = format!("{}/a file's name", env!("CARGO_TARGET_TMPDIR"));
    std::fs::write(&file, "a 'b'\n").unwrap();
    assert_eq!(prints(&["mask", &file], b"not read"), "a '#'\n");
    assert_eq!(prints(&["list", &file], b""), prints(&["list", "-"], b"a 'b'\n"));
    assert!(prints(&["show", "--html", &file], b"").contains("a file&#39;s name</title>"));
}

#[test]
fn the_size_limit() {
    let text = [b'('; MAX_QUERY_SIZE + 1];
    let all = &text[1..];
    let list = prints(&["list", "-"], all);
    assert_eq!(list.lines().count(), MAX_QUERY_SIZE);
    let last = format!("OpeningRoundBracket  {}..{MAX_QUERY_SIZE} 1:{MAX_QUERY_SIZE} \"(\"", MAX_QUERY_SIZE - 1);
    assert_eq!(list.lines().last(), Some(&*last));
    assert_eq!(prints(&["mask", "-"], all).as_bytes(), all);
    assert_eq!(prints(&["show", "--html", "-"], all).matches("<span").count(), MAX_QUERY_SIZE);
    for words in [&["list", "-"][..], &["list", "--lean", "-"], &["mask", "-"], &["show", "-"], &["show", "--html", "-"], &["first", "-"], &["first", "--all", "-"], &["save", "-", "-"]] {
        refuses(words, &text, &format!("standard input: longer than {MAX_QUERY_SIZE} bytes"), 1);
    }
}

/// A delimiter in a string, a comment or a here-document is none, and what stands after the first one is not read.
#[test]
fn first_prints_the_first_statement() {
    let first = |text: &[u8]| prints(&["first", "-"], text);
    assert_eq!(first(b"SELECT 1; SELECT 2"), "SELECT 1\n");
    assert_eq!(first(b"SELECT 1\\G SELECT 2;"), "SELECT 1\n");
    assert_eq!(first(b"a ';' /*;*/ $$;$$ -- ;\n;b"), "a ';' /*;*/ $$;$$ -- ;\n\n");
    assert_eq!(first("'שלום;'; x".as_bytes()), "'שלום;'\n");
    assert_eq!(first(b"a; \xFF"), "a\n");
    assert_eq!(run(&["first", "-"], b"\xE2\x80;").0, b"\xE2\x80\n");
    assert_eq!(prints(&["first", "--null", "-"], b"a\nb;"), "a\nb\0");
    // What ends the file is no delimiter where it belongs to a comment or to a string.
    assert_eq!(first(b"a -- b;"), "a -- b;\n");
    assert_eq!(first(b"'a\\G"), "'a\\G\n");
    assert_eq!([first(b"a;"), first(b"a"), first(b";"), first(b"")], ["a\n", "a\n", "\n", "\n"]);
}

#[test]
fn first_prints_all_statements() {
    let script = b"SELECT 1;\nSELECT ';'\\G;\n-- end;\n";
    assert_eq!(prints(&["first", "--all", "-"], script), "SELECT 1\n\nSELECT ';'\n\n\n-- end;\n\n");
    for words in [["first", "--all", "--null", "-"], ["first", "-", "--null", "--all"]] {
        assert_eq!(prints(&words, script), "SELECT 1\0\nSELECT ';'\0\0\n-- end;\n\0");
    }
    assert_eq!(prints(&["first", "--all", "-"], b""), "");
    // Without a delimiter there is one statement, with the most there are as many as bytes.
    let most = ";".repeat(MAX_QUERY_SIZE);
    assert_eq!(prints(&["first", "--all", "-"], most.as_bytes()), "\n".repeat(MAX_QUERY_SIZE));
}

#[test]
fn refusals() {
    for words in [&["list", "-"][..], &["mask", "-"], &["show", "-"], &["show", "--html", "-"], &["save", "-", "-"]] {
        refuses(words, b"a\n\xD7\xA9 b\xC0\x80", "standard input: not UTF-8 at byte 6 (C0), line 2, column 4 in UTF-16 units", 1);
    }
    refuses(&["list", "-"], b"a\r\xF0\x90\x90\x80\r\n\xF0\x90", "standard input: not UTF-8 at byte 8 (F0 90), line 3, column 1 in UTF-16 units", 1);
    refuses(&["list", "-"], b"\xF0\x90\x90\x80\x80", "standard input: not UTF-8 at byte 4 (80), line 1, column 3 in UTF-16 units", 1);
    refuses(&["list", "no/such"], b"", "no/such: No such file or directory (os error 2)", 1);
    refuses(&["list", "no\nsuch"], b"", "no\\nsuch: No such file or directory (os error 2)", 1);
    refuses(&["mask", env!("CARGO_MANIFEST_DIR")], b"", concat!(env!("CARGO_MANIFEST_DIR"), ": Is a directory (os error 21)"), 1);
    let wrong: [&[&str]; 14] = [
        &[],
        &["list"],
        &["lists", "-"],
        &["list", "-", "-"],
        &["mask", "--lean", "-"],
        &["show", "--lean", "-"],
        &["--html"],
        &["list", "--x", "-"],
        &["first", "--html", "-"],
        &["list", "--all", "-"],
        &["save", "-"],
        &["save", "-", "a", "b"],
        &["save", "--lean", "-", "a"],
        &["open", "-", "-"],
    ];
    for words in wrong {
        refuses(words, b"", "no such command: ./giehtamun --help says which there are", 2);
    }
}

#[test]
fn a_reader_that_goes_away() {
    let mut child = tool(&["list", "-"]).spawn().unwrap();
    child.stdin.take().unwrap().write_all(&[b'('; 500_000]).unwrap();
    let mut first = [0; 19];
    child.stdout.take().unwrap().read_exact(&mut first).unwrap();
    let out = child.wait_with_output().unwrap();
    assert_eq!((&first, out.stderr, out.status.code()), (b"OpeningRoundBracket", vec![], Some(0)));
}

#[test]
fn a_full_disk() {
    let mut child = tool(&["mask", "-"]).stdout(File::create("/dev/full").unwrap()).spawn().unwrap();
    child.stdin.take().unwrap().write_all(b"a").unwrap();
    let out = child.wait_with_output().unwrap();
    assert_eq!(String::from_utf8_lossy(&out.stderr), "giehtamun: standard output: No space left on device (os error 28)\n");
    assert_eq!(out.status.code(), Some(1));
}

//! What `show` prints: read back, it is the query, and nothing in the query acts on a terminal or a page.
mod stored;

use std::io::Write;
use std::process::{Command, Stdio};

fn shown(words: &[&str], text: &str) -> String {
    let mut command = Command::new(env!("CARGO_BIN_EXE_giehtamun"));
    let mut child = command.arg("show").args(words).arg("-").stdin(Stdio::piped()).stdout(Stdio::piped()).spawn().unwrap();
    child.stdin.take().unwrap().write_all(text.as_bytes()).unwrap();
    let out = child.wait_with_output().unwrap();
    assert!(out.status.success());
    String::from_utf8(out.stdout).unwrap()
}

/// The character that `\u{..}`, `\r` or `\0` stands for.
fn unescaped(escape: &str) -> char {
    match escape {
        "\\r" => '\r',
        "\\0" => '\0',
        _ => {
            let code = escape.strip_prefix("\\u{").unwrap().strip_suffix('}').unwrap();
            char::from_u32(u32::from_str_radix(code, 16).unwrap()).unwrap()
        }
    }
}

/// Takes a text up to a mark off the front, and the mark.
fn take<'a>(rest: &mut &'a str, mark: &str) -> &'a str {
    let (before, after) = rest.split_once(mark).unwrap_or_else(|| panic!("no {mark:?} in {rest:?}"));
    *rest = after;
    before
}

/// The query that was shown on a terminal. Of escapes only colours are there, and what is not seen is escaped between 7 and 27.
fn from_terminal(shown: &str) -> String {
    let (mut rest, mut text) = (shown, String::new());
    while rest.contains('\x1b') {
        text += take(&mut rest, "\x1b[");
        let number = take(&mut rest, "m");
        assert!(number.bytes().all(|b| b.is_ascii_digit()), "{number:?}");
        if number == "7" {
            text.push(unescaped(take(&mut rest, "\x1b[27m")));
        }
    }
    text + rest
}

/// The query on a page, and what each box of a literal holds. The only elements are a token's and the two boxes.
fn from_page(page: &str) -> (String, Vec<String>) {
    let mut rest = page;
    take(&mut rest, "<div class=\"query\" dir=\"ltr\">");
    let mut rest = take(&mut rest, "</div>\n</body>\n</html>\n");
    let (mut text, mut boxes, mut open) = (String::new(), vec![], vec![]);
    while rest.contains('<') {
        text += &take(&mut rest, "<")
            .replace("&lt;", "<")
            .replace("&gt;", ">")
            .replace("&quot;", "\"")
            .replace("&#39;", "'")
            .replace("&amp;", "&");
        match take(&mut rest, ">") {
            "bdi dir=\"ltr\"" => text.push(unescaped(take(&mut rest, "</bdi>"))),
            "bdi dir=\"auto\"" => open.push(text.len()),
            "/bdi" => boxes.push(text[open.pop().unwrap()..].to_string()),
            "/span" => assert!(open.is_empty()),
            tag => {
                assert!(tag.strip_prefix("span class=\"").is_some_and(|t| t.trim_end_matches('"').bytes().all(|b| b.is_ascii_alphabetic())))
            }
        }
    }
    assert!(open.is_empty() && rest.is_empty());
    (text, boxes)
}

/// That nothing in an output acts, but for what the tool itself puts there.
fn is_quiet(output: &str) -> bool {
    let acts = |c: char| c.is_control() && !"\n\t\x1b".contains(c) || "\u{61C}\u{200B}\u{200E}\u{200F}\u{FEFF}".contains(c);
    !output.contains(|c| acts(c) || ('\u{2028}'..='\u{202E}').contains(&c) || ('\u{2066}'..='\u{2069}').contains(&c))
}

/// A query of which every literal was read by hand.
const QUERY: &str = include_str!("../../examples/query.sql");
const HELD: [&str; 12] = [
    " הזמנות מחיפה ומקהיר, 2024",
    "שלום, עולם!",
    "مرحبا 123 بالعالم!",
    "plain ASCII",
    "שם הלקוח",
    "עיר",
    "\nשורה ראשונה (abc), ועוד 3 מילים.\nA second line, in English.\n",
    " all of them, גם הישנות ",
    "القاهرة",
    "חיפה",
    "London",
    "<b>&amp;</b>",
];

#[test]
fn every_literal_is_a_box() {
    let page = shown(&["--html"], QUERY);
    assert!(page.starts_with("<!DOCTYPE html>\n<html lang=\"en\">\n<head>\n<meta charset=\"utf-8\">\n"));
    assert_eq!(from_page(&page), (QUERY.to_string(), HELD.map(str::to_string).to_vec()));
    assert!(page.contains("<span class=\"StringToken\">&#39;<bdi dir=\"auto\">חיפה</bdi>&#39;</span>"));
}

#[test]
fn quotes_tags_and_marks_are_outside_the_box() {
    let cases = [
        ("‘ש’", "ש"),
        ("“ש”", "ש"),
        ("$a1$ש$a1$", "ש"),
        ("$$$$", ""),
        ("--", ""),
        ("/**/", ""),
        ("/*ש", "ש"),
        ("'ש", "ש"),
        ("“ש", "ש"),
        ("`ש", "ש"),
    ];
    for (query, held) in cases {
        assert_eq!(from_page(&shown(&["--html"], query)), (query.to_string(), vec![held.to_string()]));
    }
    for query in ["z_ש", "ש", "1.5", "<=>", "$", ""] {
        assert_eq!(from_page(&shown(&["--html"], query)), (query.to_string(), vec![]));
    }
}

/// Each kind of literal has a colour that no other has, and what is wrong has one too.
#[test]
fn colours() {
    let colour = |query| shown(&[], query).split_once('m').unwrap().0.to_string();
    let mut all = ["--c", "1", "a", "'s'", "$$h$$", "\"q\"", "!", ","].map(colour).to_vec();
    assert_eq!(["/*c", "'s", "\"q", "`q", "1e", "|", "\\"].map(colour), [(); 7].map(|()| colour("!")));
    all.sort();
    all.dedup();
    assert_eq!(all.len(), 8);
}

#[test]
fn nothing_acts() {
    let hostile = "'\x1b[2J\x07\r\u{9B}\0' \u{202E}-- \u{2066}</div><script>\r\n\u{FEFF}\t\u{2028}\"\u{200F}\u{61C}\"\u{7F}";
    for text in [hostile, QUERY, "a\r\nb\r"] {
        let (terminal, page) = (shown(&[], text), shown(&["--html"], text));
        assert!(is_quiet(&terminal) && is_quiet(&page), "{text:?}");
        assert!(!page.contains('\x1b') && !page.contains("<script"));
        let lines = text.replace("\r\n", "\n");
        assert_eq!((from_terminal(&terminal), from_page(&page).0), (lines.clone(), lines));
    }
}

/// The texts of the stored answers, some of them joined to one.
#[test]
fn many_texts() {
    for some in stored::texts().chunks(10) {
        let text = some.concat();
        let (terminal, page) = (shown(&[], &text), shown(&["--html"], &text));
        assert!(is_quiet(&terminal) && is_quiet(&page), "{text:?}");
        let lines = text.replace("\r\n", "\n");
        assert_eq!((from_terminal(&terminal), from_page(&page).0), (lines.clone(), lines));
    }
}

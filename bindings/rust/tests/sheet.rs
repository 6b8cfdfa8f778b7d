//! Document 01's bench sheet, and the reasons to refuse, through the safe functions.
use giehtamun::*;

/// Kind, start and end of a token.
type Triple = (u32, u32, u32);

fn triples(tokens: impl IntoIterator<Item = Token>) -> Vec<Triple> {
    tokens.into_iter().map(|token| (token.kind as u32, token.start, token.end)).collect()
}

#[rustfmt::skip]
const FULL: [(&str, &[Triple]); 29] = [
    ("", &[]),
    ("1e", &[(44, 0, 2)]),
    ("1name", &[(4, 0, 5)]),
    ("x.1.1", &[(4, 0, 1), (16, 1, 2), (3, 2, 3), (16, 3, 4), (3, 4, 5)]),
    ("=>", &[(28, 0, 2)]),
    ("=><", &[(29, 0, 3)]),
    ("0x1.8p3", &[(3, 0, 7)]),
    ("1.5a", &[(44, 0, 4)]),
    ("'a''b'", &[(5, 0, 6)]),
    ("$$$", &[(18, 0, 1), (18, 1, 2), (18, 2, 3)]),
    ("$a$b$a$", &[(7, 0, 7)]),
    ("/*/**/", &[(40, 0, 6)]),
    ("1_2", &[(4, 0, 3)]),
    ("12_3", &[(3, 0, 4)]),
    ("0x1_2", &[(3, 0, 5)]),
    ("1else", &[(44, 0, 2), (4, 2, 5)]),
    ("1e+5x", &[(44, 0, 5)]),
    ("1..2", &[(3, 0, 2), (16, 2, 3), (3, 3, 4)]),
    (".1e5", &[(16, 0, 1), (4, 1, 4)]),
    ("0b12", &[(3, 0, 4)]),
    ("0x", &[(4, 0, 2)]),
    ("a$b", &[(4, 0, 1), (18, 1, 2), (4, 2, 3)]),
    ("1a$b", &[(4, 0, 4)]),
    ("é", &[(47, 0, 2)]),
    ("aé", &[(4, 0, 3)]),
    ("a b", &[(4, 0, 1), (1, 1, 2), (4, 2, 3)]),
    ("a /*c*/ b", &[(4, 0, 1), (1, 1, 2), (2, 2, 7), (1, 7, 8), (4, 8, 9)]),
    ("x.1 <='é'", &[(4, 0, 1), (16, 1, 2), (3, 2, 3), (1, 3, 4), (32, 4, 6), (5, 6, 10)]),
    ("$xxx$ a $$abc$$", &[(18, 0, 1), (4, 1, 4), (18, 4, 5), (1, 5, 6), (4, 6, 7), (1, 7, 8), (7, 8, 15)]),
];

#[test]
fn lists_and_steps() {
    for (text, tokens) in FULL {
        let text = text.as_bytes();
        assert_eq!(triples(list(text).unwrap()), tokens, "{}", text.escape_ascii());
        assert_eq!(triples(steps(text).unwrap()), tokens, "{}", text.escape_ascii());
        let end = Token { kind: Kind::EndOfStream, start: text.len() as u32, end: text.len() as u32 };
        assert_eq!(step(text, text.len()), Ok(end));
        assert_eq!(step(text, text.len() + 1), Err(Refusal::Beyond));
    }
}

#[test]
fn other_lists() {
    let text = b"a /*c*/ b";
    assert_eq!(triples(list_lean(text).unwrap()), [(4, 0, 1), (4, 8, 9)]);
    assert_eq!(triples(list_up_to(text, Mode::Lean, 3).unwrap()), [(4, 0, 1), (2, 2, 7)]);
    assert_eq!(triples(list_up_to(text, Mode::Lean, 2).unwrap()), [(4, 0, 1)]);
    assert_eq!(triples(list_up_to(text, Mode::Full, 2).unwrap()), [(4, 0, 1), (1, 1, 2)]);
    assert_eq!(list_up_to(text, Mode::Full, usize::MAX), list(text));
}

#[test]
fn room() {
    let mut buffer = [7; 40];
    assert_eq!(list_into(b"a b", Mode::Full, &mut buffer[..35]).err(), Some(Refusal::NoRoom { needed: 3 }));
    assert_eq!(list_up_to_into(b"a b", Mode::Full, 9, &mut buffer[..35]).err(), Some(Refusal::NoRoom { needed: 3 }));
    assert_eq!(mask_into(b"'b'", &mut buffer[..2]).err(), Some(Refusal::NoRoom { needed: 3 }));
    assert_eq!(buffer, [7; 40]);
    assert_eq!(triples(list_into(b"a b", Mode::Full, &mut buffer).unwrap()), FULL[25].1);
    assert_eq!(buffer[36..], [7; 4]);
    assert_eq!(triples(list_up_to_into(b"a b", Mode::Lean, 9, &mut buffer[..36]).unwrap()), [(4, 0, 1), (4, 2, 3)]);
    assert_eq!(mask_into(b"'b'", &mut buffer).unwrap(), b"'#'");
}

#[test]
fn masks() {
    assert_eq!(mask(b"$xxx$ a $$abc$$").unwrap(), b"$xxx$ a $$###$$");
    assert_eq!(mask(b"").unwrap(), b"");
}

#[test]
fn text_that_is_not_utf8() {
    for (text, valid) in [(b"\x61\xC0\x80", 1), (b"\xED\xA0\x80", 0)] {
        let refusal = Refusal::NotUtf8 { valid };
        assert_eq!(list(text), Err(refusal));
        assert_eq!(list_lean(text), Err(refusal));
        assert_eq!(list_up_to(text, Mode::Full, 0), Err(refusal));
        assert_eq!(mask(text), Err(refusal));
    }
    // Change request #105: "the unit is the longest run of bytes there that begins some well-formed character, or one byte if there is none."
    assert_eq!(triples(steps(b"\x61\xC0\x80").unwrap()), [(4, 0, 1), (47, 1, 2), (47, 2, 3)]);
    assert_eq!(triples(steps(b"\x61\xE2\x80\x62\xF0\x9F\x98").unwrap()), [(4, 0, 1), (47, 1, 3), (4, 3, 4), (47, 4, 7)]);
}

#[test]
fn the_size_limit() {
    let text = [b' '; MAX_QUERY_SIZE + 1];
    let all = &text[1..];
    let token = Token { kind: Kind::Whitespace, start: 0, end: MAX_QUERY_SIZE as u32 };
    assert_eq!(list(all).unwrap(), [token]);
    assert_eq!(mask(all).unwrap(), all);
    assert_eq!(place(all, MAX_QUERY_SIZE), Ok(Place { line: 0, column: MAX_QUERY_SIZE as u32 }));
    let mut buffer = [7; 25];
    assert_eq!(list_into(&text, Mode::Full, &mut buffer[..23]).err(), Some(Refusal::NoRoom { needed: 2 }));
    assert_eq!(buffer, [7; 25]);
    assert_eq!(list_into(&text, Mode::Full, &mut buffer).err(), Some(Refusal::TooLong));
    assert_eq!(buffer, [48, 0, 0, 0, 0, 0, 0, 0, 0, 0, 0, 0, 39, 0, 0, 0, 0, 0, 0, 0, 0, 0, 0, 0, 7]);
    assert_eq!(list(&text), Err(Refusal::TooLong));
    assert_eq!(list_up_to(&text, Mode::Full, 5), Err(Refusal::TooLong));
    assert_eq!(mask(&text), Err(Refusal::TooLong));
    assert_eq!(step(&text, 0), Err(Refusal::TooLong));
    assert!(steps(&text).is_err_and(|refusal| refusal == Refusal::TooLong));
    assert_eq!(place(&text, 0), Err(Refusal::TooLong));
    assert_eq!(token.text(&text), Err(Refusal::TooLong));
    assert_eq!(shown_text(&text, &text, token), Err(Refusal::TooLong));
}

#[test]
fn parts() {
    let text = "'é' x".as_bytes();
    let copy = mask(text).unwrap();
    let token = |kind, start, end| Token { kind, start, end };
    assert_eq!(shown_text(text, &copy, token(Kind::StringToken, 0, 4)).unwrap(), b"'##'");
    assert_eq!(shown_text(text, &copy, token(Kind::Whitespace, 0, 4)).unwrap(), "'é'".as_bytes());
    assert_eq!(token(Kind::StringToken, 0, 4).text(text).unwrap(), "'é'".as_bytes());
    assert_eq!(shown_text(text, &copy[1..], token(Kind::StringToken, 0, 4)), Err(Refusal::OtherLength));
    for (start, end) in [(2, 1), (0, 7), (2, 3), (1, 2), (u32::MAX, u32::MAX)] {
        let part = token(Kind::StringToken, start, end);
        assert_eq!(part.text(text), Err(Refusal::NoPart), "{start}..{end}");
        assert_eq!(shown_text(text, &copy[1..], part), Err(Refusal::NoPart), "{start}..{end}");
    }
}

/// Line and column of each offset of a text. The second to the seventh are the worked cases of change request #103.
#[rustfmt::skip]
const PLACES: [(&[u8], &[(u32, u32)]); 13] = [
    (b"a\n\nbc", &[(0, 0), (0, 1), (1, 0), (2, 0), (2, 1), (2, 2)]),
    (b"a\r\nb", &[(0, 0), (0, 1), (0, 2), (1, 0), (1, 1)]),
    (b"\r\r\n\n", &[(0, 0), (1, 0), (1, 1), (2, 0), (3, 0)]),
    ("é".as_bytes(), &[(0, 0), (0, 0), (0, 1)]),
    ("a𐐀b".as_bytes(), &[(0, 0), (0, 1), (0, 1), (0, 1), (0, 1), (0, 3), (0, 4)]),
    (b"\x80\x80", &[(0, 0), (0, 1), (0, 2)]),
    (b"\r", &[(0, 0), (1, 0)]),
    (b"", &[(0, 0)]),
    ("ש\r𐐀\n".as_bytes(), &[(0, 0), (0, 0), (0, 1), (1, 0), (1, 0), (1, 0), (1, 0), (1, 2), (2, 0)]),
    // The last character of one unit, and the first of two.
    ("\u{FFFF}\u{10000}".as_bytes(), &[(0, 0), (0, 0), (0, 0), (0, 1), (0, 1), (0, 1), (0, 1), (0, 3)]),
    // What else ends a line in Unicode ends none here.
    ("\u{85}\u{2028}\x0B\x0C".as_bytes(), &[(0, 0), (0, 0), (0, 1), (0, 1), (0, 1), (0, 2), (0, 3), (0, 4)]),
    // A surrogate, of which each byte stands alone, and characters cut short, each of one column.
    (b"\xED\xA0\x80\xF0\x90\r\n", &[(0, 0), (0, 1), (0, 2), (0, 3), (0, 3), (0, 4), (0, 5), (1, 0)]),
    (b"\xE2\x80\xF0\x9F\x98\xC2", &[(0, 0), (0, 0), (0, 1), (0, 1), (0, 1), (0, 2), (0, 3)]),
];

#[test]
fn places() {
    for (text, want) in PLACES {
        assert_eq!(want.len(), text.len() + 1, "{}", text.escape_ascii());
        for (offset, &(line, column)) in want.iter().enumerate() {
            assert_eq!(place(text, offset), Ok(Place { line, column }), "{} at {offset}", text.escape_ascii());
        }
        assert_eq!(place(text, text.len() + 1), Err(Refusal::Beyond));
        assert_eq!(place(text, usize::MAX), Err(Refusal::Beyond));
    }
}

/// An empty slice may point anywhere.
#[test]
fn nothing() {
    assert_eq!(list(&[]), Ok(vec![]));
    assert_eq!(list_into(&[], Mode::Full, &mut []).unwrap().len(), 0);
    assert_eq!(shown_text(&[], &[], Token { kind: Kind::Comment, start: 0, end: 0 }), Ok(&[][..]));
}

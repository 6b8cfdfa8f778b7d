//! The Rust's own answers to some thousand texts, which the repository stores, through the safe functions.
use giehtamun::*;

/// The cases of crates/replay/data/answers, of which host/src/bin/answers.rs says the form: texts, and their full lists.
fn cases() -> Vec<(&'static [u8], Vec<Token>)> {
    let mut rest: &[u8] = include_bytes!("../../../crates/replay/data/answers");
    let mut cases = vec![];
    while !rest.is_empty() {
        let mut take = |n: usize| rest.split_off(..n).unwrap();
        let number = |bytes: &[u8]| u32::from_le_bytes(bytes.try_into().unwrap());
        let length = number(take(4));
        let text = take(length as usize);
        let count = number(take(4));
        let token = |_| Token { kind: Kind::from_number(number(take(4))).unwrap(), start: number(take(4)), end: number(take(4)) };
        cases.push((text, (0..count).map(token).collect()));
    }
    cases
}

/// What the delimiters of a list cut a text into.
fn cut<'a>(text: &'a [u8], full: &[Token]) -> Vec<First<'a>> {
    let delimits = |token: &Token| matches!(token.kind, Kind::Semicolon | Kind::VerticalDelimiter);
    let statement = |tokens: &[Token]| {
        let (start, last) = (tokens[0].start as usize, tokens[tokens.len() - 1]);
        let before = if delimits(&last) { last.start } else { last.end };
        First { start, end: last.end as usize, tokens: tokens.len(), part: &text[start..before as usize] }
    };
    full.split_inclusive(delimits).map(statement).collect()
}

#[test]
fn every_stored_answer() {
    let cases = cases();
    assert_eq!(cases.len(), 4_723);
    for (text, full) in cases {
        let shown = text.escape_ascii();
        assert_eq!(list(text).unwrap(), full, "{shown}");
        assert_eq!(steps(text).unwrap().collect::<Vec<_>>(), full, "{shown}");
        let lean: Vec<Token> = full.iter().copied().filter(|t| t.kind != Kind::Whitespace && t.kind != Kind::Comment).collect();
        assert_eq!(list_lean(text).unwrap(), lean, "{shown}");
        let position = text.len() / 2;
        let up_to: Vec<Token> = full.iter().copied().filter(|t| (t.start as usize) < position).collect();
        assert_eq!(list_up_to(text, Mode::Full, position).unwrap(), up_to, "{shown}");

        let pieces = cut(text, &full);
        assert_eq!(statements(text).unwrap().collect::<Vec<_>>(), pieces, "{shown}");
        let nothing = First { start: 0, end: 0, tokens: 0, part: b"" };
        assert_eq!(first_statement(text).unwrap(), *pieces.first().unwrap_or(&nothing), "{shown}");

        // A list that is saved is read back, and so is one up to a position; a lean one that has gaps is none.
        for (tokens, partial) in [(&full, false), (&up_to, true), (&full, true)] {
            let file = save(text, tokens, partial).unwrap();
            assert_eq!(load(&file).unwrap(), Saved { text, tokens: tokens.clone(), partial }, "{shown}");
        }
        let of_lean = if lean == full { save(text, &full, false) } else { Err(Refusal::Malformed) };
        assert_eq!(save(text, &lean, false), of_lean, "{shown}");

        let texts: Vec<&[u8]> = full.iter().map(|token| token.text(text).unwrap()).collect();
        assert_eq!(texts.concat(), text, "{shown}");
        let copy = mask(text).unwrap();
        assert_eq!(list(&copy).unwrap(), full, "{shown}");
        let parts: Vec<&[u8]> = full.iter().map(|token| shown_text(text, &copy, *token).unwrap()).collect();
        assert_eq!(parts.concat(), copy, "{shown}");
    }
}

/// A script in which each statement has the rest searched for a tag that never comes again; without a list it takes some time.
#[test]
fn statements_with_many_dollars() {
    let script: String = (0..120_000).map(|k| format!("$a{k}$;")).collect();
    let script = &script.as_bytes()[..MAX_QUERY_SIZE];
    let pieces = cut(script, &list(script).unwrap());
    assert!(pieces.len() > 100_000);
    assert_eq!(statements(script).unwrap().collect::<Vec<_>>(), pieces);
    // What is not UTF-8 has no list, and goes on as it began.
    let broken = [&script[..20_000], b"\xFF;a"].concat();
    let walked: Vec<First> = statements(&broken).unwrap().collect();
    assert_eq!(walked.iter().map(|first| first.tokens).sum::<usize>(), steps(&broken).unwrap().count());
    assert_eq!(walked.last().map(|last| last.part), Some(&b"a"[..]));
}

//! ClickHouse's SQL tokenizer, proved, for hosts in Rust. These are safe functions over Giehtamun's C functions, with no dependency.
//!
//! A text is any bytes of at most [`MAX_QUERY_SIZE`]. Lists, masked copies and saved files want UTF-8, and say up to where it is where it is not. Offsets
//! count bytes; the columns of a [`Place`] count UTF-16 code units.
//!
//! ```
//! use giehtamun::{Kind, list, mask};
//!
//! let query = "SELECT 'שלום' -- hello".as_bytes();
//! let kinds: Vec<Kind> = list(query)?.iter().map(|token| token.kind).collect();
//! assert_eq!(kinds, [Kind::BareWord, Kind::Whitespace, Kind::StringToken, Kind::Whitespace, Kind::Comment]);
//! assert_eq!(mask(query)?, b"SELECT '########' --######");
//! # Ok::<(), giehtamun::Refusal>(())
//! ```
//!
//! A call takes at most 2 KB of the stack, and 6 KB in a host that is not optimized; of lists, masked copies and statements it takes 824 KB where a
//! text has many dollar signs that begin nothing.
#![deny(missing_docs)]

mod c;
mod kind;
mod refusal;
mod saved;

pub use kind::Kind;
pub use refusal::Refusal;
pub use saved::{Saved, load, save};
use std::iter::FusedIterator;
use std::ops::Range;
use std::slice::ChunksExact;

/// The longest text that is read, in bytes.
///
/// ```
/// use giehtamun::{MAX_QUERY_SIZE, Refusal, list};
/// let spaces = vec![b' '; MAX_QUERY_SIZE + 1];
/// assert_eq!(list(&spaces[1..])?.len(), 1);
/// assert_eq!(list(&spaces), Err(Refusal::TooLong));
/// # Ok::<(), Refusal>(())
/// ```
pub const MAX_QUERY_SIZE: usize = 1_000_000;

/// The bytes of a token in a packed list: kind, start and end, each 32 bits, low byte first.
///
/// ```
/// use giehtamun::{Mode, TOKEN_BYTES, list_into};
/// let mut room = [0; 2 * TOKEN_BYTES];
/// list_into(b"a,", Mode::Full, &mut room)?;
/// assert_eq!(room[TOKEN_BYTES..], [14, 0, 0, 0, 1, 0, 0, 0, 2, 0, 0, 0]);
/// # Ok::<(), giehtamun::Refusal>(())
/// ```
pub const TOKEN_BYTES: usize = 12;

/// Which tokens a list holds.
///
/// ```
/// use giehtamun::{Mode, list_up_to};
/// assert_eq!(list_up_to(b"a /*c*/ b", Mode::Full, 3)?.len(), 3);
/// assert_eq!(list_up_to(b"a /*c*/ b", Mode::Lean, 3)?.len(), 2);
/// # Ok::<(), giehtamun::Refusal>(())
/// ```
#[derive(Clone, Copy, Debug, PartialEq, Eq)]
pub enum Mode {
    /// All of them: they cover the text without a gap.
    Full = 0,
    /// No white space; and in the list of a whole text no comments.
    Lean = 1,
}

/// A token: its kind, and where it starts and ends in the text.
///
/// ```
/// use giehtamun::{Kind, Token, list};
/// assert_eq!(list(b"x<=1")?[1], Token { kind: Kind::LessOrEquals, start: 1, end: 3 });
/// # Ok::<(), giehtamun::Refusal>(())
/// ```
#[derive(Clone, Copy, Debug, PartialEq, Eq, Hash)]
pub struct Token {
    /// What it is.
    pub kind: Kind,
    /// The offset of its first byte.
    pub start: u32,
    /// The offset after its last byte.
    pub end: u32,
}

impl Token {
    /// Where it is in the text.
    ///
    /// ```
    /// let query = b"x<=1";
    /// assert_eq!(&query[giehtamun::list(query)?[1].range()], b"<=");
    /// # Ok::<(), giehtamun::Refusal>(())
    /// ```
    pub fn range(self) -> Range<usize> {
        self.start as usize..self.end as usize
    }

    /// Its text. Where the token is none of this text's, the answer may be [`Refusal::NoPart`].
    ///
    /// ```
    /// use giehtamun::{Kind, Refusal, Token};
    /// assert_eq!(giehtamun::list(b"x<=1")?[1].text(b"x<=1")?, b"<=");
    /// assert_eq!(Token { kind: Kind::BareWord, start: 3, end: 9 }.text(b"x<=1"), Err(Refusal::NoPart));
    /// # Ok::<(), Refusal>(())
    /// ```
    pub fn text(self, text: &[u8]) -> Result<&[u8], Refusal> {
        value(c::token_text(text, self.start as usize, self.end as usize))?;
        Ok(&text[self.range()])
    }
}

/// A place in a text, as [`place`] gives it: a position of the Language Server Protocol 3.17, with columns in UTF-16 code units.
///
/// ```
/// use giehtamun::{Place, place};
/// assert_eq!(place("a\nשbc".as_bytes(), 4)?, Place { line: 1, column: 1 });
/// # Ok::<(), giehtamun::Refusal>(())
/// ```
#[derive(Clone, Copy, Debug, Default, PartialEq, Eq, PartialOrd, Ord, Hash)]
pub struct Place {
    /// The line ends wholly before it, so that the first line is 0. A line ends at LF, at CR LF taken together, or at CR alone.
    pub line: u32,
    /// The UTF-16 code units between the last of these, or the text's start, and the place: two for a character above U+FFFF, otherwise one.
    pub column: u32,
}

/// The number of an answer, as a refusal, or its value.
fn value(answer: u64) -> Result<usize, Refusal> {
    let value = (answer & 0xFFFF_FFFF_FFFF) as usize;
    Refusal::from_answer((answer >> 56) as u32, value).map_or(Ok(value), Err)
}

/// The number of an answer, as a refusal, or its two numbers of 28 bits.
fn halves(answer: u64) -> Result<(u32, u32), Refusal> {
    let bits = |from| (answer >> from) as u32 & 0xFFF_FFFF;
    Refusal::from_answer((answer >> 56) as u32, 0).map_or(Ok((bits(28), bits(0))), Err)
}

/// Room for the list of a text: a token a byte is always enough.
fn room_for(text: &[u8]) -> Vec<u8> {
    vec![0; TOKEN_BYTES * text.len().min(MAX_QUERY_SIZE)]
}

/// All tokens of a text. They cover it without a gap.
///
/// ```
/// use giehtamun::{Kind, Refusal, Token, list};
/// let word = |start, end| Token { kind: Kind::BareWord, start, end };
/// let space = Token { kind: Kind::Whitespace, start: 1, end: 2 };
/// assert_eq!(list("a né".as_bytes())?, [word(0, 1), space, word(2, 5)]);
/// assert_eq!(list(b"a\xFF"), Err(Refusal::NotUtf8 { valid: 1 }));
/// # Ok::<(), Refusal>(())
/// ```
pub fn list(text: &[u8]) -> Result<Vec<Token>, Refusal> {
    Ok(list_into(text, Mode::Full, &mut room_for(text))?.collect())
}

/// The tokens of a text without white space and comments.
///
/// ```
/// assert_eq!(giehtamun::list_lean(b"a /*c*/ b")?.len(), 2);
/// # Ok::<(), giehtamun::Refusal>(())
/// ```
pub fn list_lean(text: &[u8]) -> Result<Vec<Token>, Refusal> {
    Ok(list_into(text, Mode::Lean, &mut room_for(text))?.collect())
}

/// The tokens that start before a position, which may be any number; the last may run past it. [`Mode::Lean`] keeps comments here.
///
/// ```
/// use giehtamun::{Kind, Mode, list_up_to};
/// let tokens = list_up_to(b"a /*c*/ b", Mode::Lean, 3)?;
/// assert_eq!((tokens.len(), tokens[1].kind, tokens[1].end), (2, Kind::Comment, 7));
/// # Ok::<(), giehtamun::Refusal>(())
/// ```
pub fn list_up_to(text: &[u8], mode: Mode, position: usize) -> Result<Vec<Token>, Refusal> {
    Ok(list_up_to_into(text, mode, position, &mut room_for(text))?.collect())
}

/// The list of a whole text, packed into the front of a lent buffer, whose other bytes stay as they are. Nothing is allocated.
///
/// A refusal writes nothing, but for a text that is too long: that stores two tokens, [`Kind::ErrorMaxQuerySizeExceeded`] and
/// [`Kind::EndOfStream`], where there is room for them.
///
/// ```
/// use giehtamun::{Mode, Refusal, TOKEN_BYTES, list_into};
/// let mut room = [0; 3 * TOKEN_BYTES];
/// assert_eq!(list_into(b"a b", Mode::Full, &mut room)?.map(|token| token.start).max(), Some(2));
/// assert_eq!(list_into(b"a b c", Mode::Full, &mut room).err(), Some(Refusal::NoRoom { needed: 5 }));
/// # Ok::<(), Refusal>(())
/// ```
pub fn list_into<'a>(text: &[u8], mode: Mode, buffer: &'a mut [u8]) -> Result<Packed<'a>, Refusal> {
    let tokens = value(c::list(text, mode, buffer))?;
    Ok(Packed::new(buffer, tokens))
}

/// The list up to a position, as [`list_up_to`] has it, packed into the front of a lent buffer. A refusal writes nothing.
///
/// ```
/// use giehtamun::{Mode, TOKEN_BYTES, list_up_to_into};
/// let mut room = [0; TOKEN_BYTES];
/// assert_eq!(list_up_to_into(b"a /*c*/ b", Mode::Lean, 2, &mut room)?.len(), 1);
/// # Ok::<(), giehtamun::Refusal>(())
/// ```
pub fn list_up_to_into<'a>(text: &[u8], mode: Mode, position: usize, buffer: &'a mut [u8]) -> Result<Packed<'a>, Refusal> {
    let tokens = value(c::list_up_to(text, mode, position, buffer))?;
    Ok(Packed::new(buffer, tokens))
}

/// The tokens of a packed list, one after another.
///
/// ```
/// use giehtamun::{Kind, Mode, list_into};
/// let mut room = [0; 100];
/// let mut tokens = list_into(b"(1)", Mode::Full, &mut room)?;
/// assert_eq!(tokens.len(), 3);
/// assert!(tokens.any(|token| token.kind == Kind::Number));
/// # Ok::<(), giehtamun::Refusal>(())
/// ```
#[derive(Clone, Debug)]
pub struct Packed<'a>(ChunksExact<'a, u8>);

impl<'a> Packed<'a> {
    fn new(buffer: &'a [u8], tokens: usize) -> Self {
        Packed(buffer[..tokens * TOKEN_BYTES].chunks_exact(TOKEN_BYTES))
    }
}

impl Iterator for Packed<'_> {
    type Item = Token;

    fn next(&mut self) -> Option<Token> {
        let token = self.0.next()?;
        let number = |at| u32::from_le_bytes(token[at..at + 4].try_into().unwrap());
        let kind = Kind::from_number(number(0)).expect("a list holds known kinds");
        Some(Token { kind, start: number(4), end: number(8) })
    }

    fn size_hint(&self) -> (usize, Option<usize>) {
        self.0.size_hint()
    }
}

impl ExactSizeIterator for Packed<'_> {}
impl FusedIterator for Packed<'_> {}

/// The one token that starts at a cursor; at the text's end it is [`Kind::EndOfStream`]. The next cursor is the token's end.
///
/// The text is not tested for UTF-8. Where no well-formed character begins, the longest run of bytes there that begins some well-formed character,
/// or one byte if there is none, is read as one character of no class, as [`slice::utf8_chunks`] and [`String::from_utf8_lossy`] cut it too: a cut
/// character is one [`Kind::ErrorToken`] outside of literals and comments. So a cursor inside a character is answered too.
///
/// ```
/// use giehtamun::{Kind, Refusal, step};
/// let token = step(b"x<=1", 1)?;
/// assert_eq!((token.kind, token.end), (Kind::LessOrEquals, 3));
/// assert_eq!(step(b"x<=1", 4)?.kind, Kind::EndOfStream);
/// assert_eq!(step(b"x<=1", 5), Err(Refusal::Beyond));
/// // A quote that is cut, which an editor shows as one replacement mark.
/// let cut = step(b"x \xE2\x80 y", 2)?;
/// assert_eq!((cut.kind, cut.range()), (Kind::ErrorToken, 2..4));
/// assert_eq!(String::from_utf8_lossy(b"x \xE2\x80 y"), "x \u{FFFD} y");
/// # Ok::<(), Refusal>(())
/// ```
pub fn step(text: &[u8], cursor: usize) -> Result<Token, Refusal> {
    let answer = c::step(text, cursor);
    let end = value(answer & !(0xFF << 48))?;
    let kind = Kind::from_number((answer >> 48) as u32 & 0xFF).expect("a step gives a known kind");
    Ok(Token { kind, start: cursor as u32, end: end as u32 })
}

/// The tokens of a text one by one, each by a [`step`], without [`Kind::EndOfStream`]. Nothing is allocated, and nothing is read ahead.
///
/// A step holds no state and may search the rest of the text at each dollar sign: for a text of many, a list is faster.
///
/// ```
/// use giehtamun::{Kind, steps};
/// let first = steps(b"-- c\nSELECT 1")?.find(|token| token.kind == Kind::BareWord);
/// assert_eq!(first.map(|token| token.start), Some(5));
/// # Ok::<(), giehtamun::Refusal>(())
/// ```
pub fn steps(text: &[u8]) -> Result<Steps<'_>, Refusal> {
    // Too long is the only reason to refuse a place at 0, and a step that is not beyond the text.
    place(text, 0)?;
    Ok(Steps { text, cursor: 0 })
}

/// An iterator over the tokens of a text, as [`steps`] gives it.
///
/// ```
/// let mut steps = giehtamun::steps(b"a.b")?;
/// steps.next();
/// assert_eq!(steps.next().map(|token| token.range()), Some(1..2));
/// # Ok::<(), giehtamun::Refusal>(())
/// ```
#[derive(Clone, Debug)]
pub struct Steps<'a> {
    text: &'a [u8],
    cursor: usize,
}

impl Iterator for Steps<'_> {
    type Item = Token;

    fn next(&mut self) -> Option<Token> {
        let token = step(self.text, self.cursor).expect("a cursor in a text that is not too long");
        self.cursor = token.end as usize;
        (token.kind != Kind::EndOfStream).then_some(token)
    }
}

impl FusedIterator for Steps<'_> {}

/// The masked copy of a text: what strings, comments and here-documents hold has become `#`. It is as long as the text, is UTF-8, and has the
/// same tokens at the same offsets.
///
/// ```
/// assert_eq!(giehtamun::mask("x = 'שלום'".as_bytes())?, b"x = '########'");
/// # Ok::<(), giehtamun::Refusal>(())
/// ```
pub fn mask(text: &[u8]) -> Result<Vec<u8>, Refusal> {
    let mut copy = vec![0; text.len().min(MAX_QUERY_SIZE)];
    value(c::mask(text, &mut copy))?;
    Ok(copy)
}

/// The masked copy in the front of a lent buffer, whose other bytes stay as they are. A refusal writes nothing.
///
/// ```
/// use giehtamun::{Refusal, mask_into};
/// let mut room = [0; 7];
/// assert_eq!(mask_into(b"'secret", &mut room)?, b"'######");
/// assert_eq!(mask_into(b"'secrets", &mut room), Err(Refusal::NoRoom { needed: 8 }));
/// # Ok::<(), Refusal>(())
/// ```
pub fn mask_into<'a>(text: &[u8], buffer: &'a mut [u8]) -> Result<&'a mut [u8], Refusal> {
    let length = value(c::mask(text, buffer))?;
    Ok(&mut buffer[..length])
}

/// What may be shown of a token: its part of the masked copy where its kind [hides](Kind::hides), and of the text otherwise. The copy must be as
/// long as the text, and should be what [`mask`] gives: its bytes are not looked at.
///
/// ```
/// use giehtamun::{list, mask, shown_text};
/// let query = b"a='b'";
/// let copy = mask(query)?;
/// let shown: Vec<_> = list(query)?.into_iter().map(|token| shown_text(query, &copy, token)).collect::<Result<_, _>>()?;
/// assert_eq!(shown, [&b"a"[..], b"=", b"'#'"]);
/// # Ok::<(), giehtamun::Refusal>(())
/// ```
pub fn shown_text<'a>(text: &'a [u8], copy: &'a [u8], token: Token) -> Result<&'a [u8], Refusal> {
    value(c::shown_text(text, copy, token.kind as u32, token.start as usize, token.end as usize))?;
    Ok(&if token.kind.hides() { copy } else { text }[token.range()])
}

/// The place of a byte offset, which may be the text's length. A host can send it as a position of the Language Server Protocol 3.17: line and
/// column count from 0, the column in UTF-16 code units.
///
/// A line ends at LF, at CR LF taken together, or at CR alone. A character above U+FFFF counts as two units, any other as one.
///
/// ```
/// use giehtamun::{Place, Refusal, place};
/// assert_eq!(place(b"a\r\nb", 4)?, Place { line: 1, column: 1 });
/// assert_eq!(place("שb".as_bytes(), 2)?, Place { line: 0, column: 1 });
/// assert_eq!(place("a𐐀b".as_bytes(), 5)?, Place { line: 0, column: 3 });
/// assert_eq!(place(b"a\r\nb", 5), Err(Refusal::Beyond));
/// # Ok::<(), Refusal>(())
/// ```
///
/// An offset inside a character has the place of that character. One between CR and LF belongs to the line they end, after the CR; the protocol
/// takes such a position as the line's end. The text is not tested for UTF-8: what [`step`] reads as one character where no well-formed one begins is
/// one character of one unit here too.
///
/// ```
/// use giehtamun::{Place, place};
/// assert_eq!(place("a𐐀b".as_bytes(), 3)?, Place { line: 0, column: 1 });
/// assert_eq!(place(b"a\r\nb", 2)?, Place { line: 0, column: 2 });
/// assert_eq!(place(b"\x80\x80", 2)?, Place { line: 0, column: 2 });
/// assert_eq!(place(b"\xE2\x80b", 2)?, Place { line: 0, column: 1 });
/// # Ok::<(), giehtamun::Refusal>(())
/// ```
pub fn place(text: &[u8], offset: usize) -> Result<Place, Refusal> {
    let (line, column) = halves(c::place(text, offset))?;
    Ok(Place { line, column })
}

/// A statement: the first of a text, or the first of what is left of it. It ends with a [`Kind::Semicolon`] or [`Kind::VerticalDelimiter`], or with
/// the text.
///
/// ```
/// use giehtamun::{First, first_statement};
/// let script = b"SELECT 1; SELECT 2";
/// assert_eq!(first_statement(script)?, First { start: 0, end: 9, tokens: 4, part: b"SELECT 1" });
/// # Ok::<(), giehtamun::Refusal>(())
/// ```
#[derive(Clone, Copy, Debug, PartialEq, Eq, Hash)]
pub struct First<'a> {
    /// Where it starts in the text.
    pub start: usize,
    /// The offset after its delimiter, where the next statement starts; the text's length where there is none.
    pub end: usize,
    /// Its tokens, with its delimiter: of the first statement of a text, the delimiter's place in the text's list, counted from one, or the list's length.
    pub tokens: usize,
    /// Its text: what stands before its delimiter.
    pub part: &'a [u8],
}

/// The first statement of a text. What follows it is not lexed, so that it costs what the statement does and not what the text does; only a dollar
/// sign in it may have the rest of the text searched. The statement is read twice, for its end and for its part.
///
/// A delimiter inside a string, a comment or a here-document is none. Nothing is tested for UTF-8: the tokens are those of [`steps`].
///
/// ```
/// use giehtamun::{Refusal, first_statement};
/// assert_eq!(first_statement(b"SELECT ';' -- a;\n\\G SELECT 2")?.part, b"SELECT ';' -- a;\n");
/// // A comment may end with a semicolon: that is no delimiter.
/// assert_eq!(first_statement(b"SELECT 1 -- a;")?.part, b"SELECT 1 -- a;");
/// assert_eq!(first_statement(b"SELECT 1; \xFF")?.end, 9);
/// assert_eq!(first_statement(&[b';'; 1_000_001]), Err(Refusal::TooLong));
/// # Ok::<(), Refusal>(())
/// ```
pub fn first_statement(text: &[u8]) -> Result<First<'_>, Refusal> {
    let (tokens, end) = halves(c::first_statement(text))?;
    let bytes = value(c::statement_text(text))?;
    Ok(First { start: 0, end: end as usize, tokens: tokens as usize, part: &text[..bytes] })
}

/// The statements of a text one after another, each by a [`first_statement`] of what is left, until nothing is. They are those into which the
/// delimiters of the text's list cut it, and nothing is lost: each starts where the one before it ends, and the last ends with the text.
///
/// So what stands between two delimiters is a statement even if it is empty or blank, and so is a line end after the last one. Each costs what a
/// [`first_statement`] does. Where dollar signs may have had what is left searched again and again, it is listed once, if it is UTF-8; if it is not, a
/// script with many dollar signs that begin nothing may take the square of its length.
///
/// ```
/// use giehtamun::statements;
/// let script = b"SELECT 1;\nSELECT ';'\\G\n";
/// let parts: Vec<&[u8]> = statements(script)?.map(|statement| statement.part).collect();
/// assert_eq!(parts, [&b"SELECT 1"[..], b"\nSELECT ';'", b"\n"]);
/// # Ok::<(), giehtamun::Refusal>(())
/// ```
pub fn statements(text: &[u8]) -> Result<Statements<'_>, Refusal> {
    // Too long is the only reason to refuse a place at 0, and a statement.
    place(text, 0)?;
    Ok(Statements { text, start: 0, searched: 0, listed: None })
}

/// An iterator over the statements of a text, as [`statements`] gives it.
///
/// ```
/// let mut statements = giehtamun::statements(b"a; b")?;
/// statements.next();
/// assert_eq!(statements.next().map(|second| (second.start, second.end)), Some((2, 4)));
/// # Ok::<(), giehtamun::Refusal>(())
/// ```
#[derive(Clone, Debug)]
pub struct Statements<'a> {
    text: &'a [u8],
    start: usize,
    /// The bytes that were searched if each statement with a dollar sign had what was left searched once.
    searched: usize,
    /// The tokens that are left, and the offset that theirs are counted from.
    listed: Option<(usize, std::vec::IntoIter<Token>)>,
}

impl Statements<'_> {
    /// When so many bytes were searched, a list of what is left costs little more.
    const MANY: usize = 16 * MAX_QUERY_SIZE;

    /// Lists what is left where a statement may have had it searched once too often.
    fn note(&mut self, had_dollar: bool) {
        let before = self.searched;
        self.searched += if had_dollar { self.text.len() - self.start } else { 0 };
        if before < Self::MANY && self.searched >= Self::MANY {
            self.listed = list(&self.text[self.start..]).ok().map(|tokens| (self.start, tokens.into_iter()));
        }
    }
}

impl<'a> Iterator for Statements<'a> {
    type Item = First<'a>;

    fn next(&mut self) -> Option<First<'a>> {
        let (start, rest) = (self.start, &self.text[self.start..]);
        if rest.is_empty() {
            return None;
        }
        let first = match &mut self.listed {
            Some((from, tokens)) => first_of(rest, start - *from, tokens),
            None => first_statement(rest).expect("a text that is not too long"),
        };
        self.start += first.end;
        self.note(first.part.contains(&b'$'));
        Some(First { start, end: self.start, ..first })
    }
}

/// The first statement of a text, by the tokens that its list has from an offset on. It takes its own.
fn first_of<'a>(text: &'a [u8], offset: usize, list: &mut impl Iterator<Item = Token>) -> First<'a> {
    let mut first = First { start: 0, end: text.len(), tokens: 0, part: text };
    for token in list {
        first.tokens += 1;
        if matches!(token.kind, Kind::Semicolon | Kind::VerticalDelimiter) {
            (first.end, first.part) = (token.end as usize - offset, &text[..token.start as usize - offset]);
            break;
        }
    }
    first
}

impl FusedIterator for Statements<'_> {}

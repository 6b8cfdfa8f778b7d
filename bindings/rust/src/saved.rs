//! Saved token lists: a text and its tokens in one file, which opens without lexing.
use crate::{MAX_QUERY_SIZE, Packed, Refusal, TOKEN_BYTES, Token, c, value};

/// The bytes of a file beside its text and its records.
const TRAILER_BYTES: usize = 12;

/// The bytes of a token in a file.
const RECORD_BYTES: usize = 4;

/// What a saved file holds, as [`load`] gives it.
///
/// ```
/// use giehtamun::{Saved, list, load, save};
/// let query = "SELECT 'שלום'".as_bytes();
/// let saved = Saved { text: query, tokens: list(query)?, partial: false };
/// assert_eq!(load(&save(saved.text, &saved.tokens, saved.partial)?)?, saved);
/// # Ok::<(), giehtamun::Refusal>(())
/// ```
#[derive(Clone, Debug, PartialEq, Eq, Hash)]
pub struct Saved<'a> {
    /// The text, which is UTF-8: the file's front.
    pub text: &'a [u8],
    /// Its tokens, without a gap from its start on.
    pub tokens: Vec<Token>,
    /// Whether these are only the tokens that start before a position. If not, they end with the text.
    pub partial: bool,
}

/// The file of a text and its tokens: all of them, or where `partial` those that start before a position. It has 4 bytes a token and 12 more than
/// the text, with which it begins, and the same text, tokens and `partial` always give the same file.
///
/// Nothing is lexed. What [`crate::list`] gives is never [`Refusal::Malformed`] here, and neither is what [`crate::list_up_to`] gives in
/// [`crate::Mode::Full`], where `partial`.
///
/// ```
/// use giehtamun::{Mode, Refusal, list, list_lean, list_up_to, save};
/// let query = b"a 1";
/// let file = save(query, &list(query)?, false)?;
/// assert_eq!(file, b"a 1\x04\x01\0\0\x01\x02\0\0\x03\x03\0\0\x03\0\0\0\x03\0\0\0\0\x01\0\0");
/// assert_eq!(save(query, &list_up_to(query, Mode::Full, 1)?, true)?.len(), 3 + 4 + 12);
/// // A lean list has gaps.
/// assert_eq!(save(query, &list_lean(query)?, false), Err(Refusal::Malformed));
/// # Ok::<(), Refusal>(())
/// ```
pub fn save(text: &[u8], tokens: &[Token], partial: bool) -> Result<Vec<u8>, Refusal> {
    let list: Vec<u8> = tokens.iter().flat_map(|token| [token.kind as u32, token.start, token.end]).flat_map(u32::to_le_bytes).collect();
    let mut file = vec![0; text.len().min(MAX_QUERY_SIZE) + tokens.len() * RECORD_BYTES + TRAILER_BYTES];
    value(c::save(text, &list, partial as u32, &mut file))?;
    Ok(file)
}

/// What a saved file holds: its text, which is a part of it, its tokens, and whether they are only some.
///
/// Nothing is lexed, and whether these are the text's own tokens is not tested: trust a file as you trust its text. It may call a literal a word, so
/// use [`crate::mask`] for what must not be shown; and a token may end inside a character, where [`Token::text`] answers [`Refusal::NoPart`].
///
/// The answer may be [`Refusal::NoVersion`],
/// [`Refusal::TooLong`], [`Refusal::Malformed`] or [`Refusal::NotUtf8`], tested in this order, but that a file under 12 bytes is malformed.
///
/// ```
/// use giehtamun::{Kind, Refusal, load};
/// let file = b"a,\x04\x01\0\0\x0e\x02\0\0\x02\0\0\0\x02\0\0\0\0\x01\0\0";
/// let saved = load(file)?;
/// assert_eq!((saved.text, saved.tokens[1].kind, saved.partial), (&b"a,"[..], Kind::Comma, false));
/// assert_eq!(load(&file[1..]), Err(Refusal::Malformed));
/// # Ok::<(), Refusal>(())
/// ```
pub fn load(file: &[u8]) -> Result<Saved<'_>, Refusal> {
    let size = value(c::saved_text(file))?;
    let mut list = vec![0; (file.len() - size) / RECORD_BYTES * TOKEN_BYTES];
    let answer = c::load(file, &mut list);
    let tokens = value(answer)?;
    Ok(Saved { text: &file[..size], tokens: Packed::new(&list, tokens).collect(), partial: (answer >> 48) as u8 != 0 })
}

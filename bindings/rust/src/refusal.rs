//! Why a call is refused.
use std::fmt;

/// Why a call is refused. Nothing else is a reason.
///
/// ```
/// use giehtamun::{Refusal, list};
/// assert_eq!(list(b"a\xC0\x80"), Err(Refusal::NotUtf8 { valid: 1 }));
/// ```
#[derive(Clone, Copy, Debug, PartialEq, Eq, Hash)]
pub enum Refusal {
    /// The text has over [`crate::MAX_QUERY_SIZE`] bytes.
    TooLong,
    /// The text is not UTF-8.
    NotUtf8 {
        /// The length of the longest valid front that ends at a character's end.
        valid: usize,
    },
    /// The lent buffer is too small.
    NoRoom {
        /// The tokens of the list, or the bytes of the copy.
        needed: usize,
    },
    /// A cursor or an offset is beyond the text's length.
    Beyond,
    /// A token's start is above its end, its end is beyond the text, or one of them is inside a character.
    NoPart,
    /// The copy is not as long as the text.
    OtherLength,
    /// A saved file is none, or what is to be saved is no list of the text.
    Malformed,
    /// A saved file has a version that is not known.
    NoVersion,
}

impl Refusal {
    /// What an answer's number and value say. There is none for 6, a listing mode that there is not, since [`crate::Mode`] has none such.
    pub(crate) fn from_answer(number: u32, value: usize) -> Option<Refusal> {
        match number {
            0 => None,
            1 => Some(Refusal::TooLong),
            2 => Some(Refusal::NotUtf8 { valid: value }),
            3 => Some(Refusal::NoRoom { needed: value }),
            4 => Some(Refusal::Beyond),
            5 => Some(Refusal::NoPart),
            7 => Some(Refusal::OtherLength),
            8 => Some(Refusal::Malformed),
            9 => Some(Refusal::NoVersion),
            _ => unreachable!("no C function answers {number} to these calls"),
        }
    }

    /// Its number among the answers of the C functions.
    ///
    /// ```
    /// assert_eq!(giehtamun::Refusal::Beyond.number(), 4);
    /// ```
    pub fn number(self) -> u32 {
        match self {
            Refusal::TooLong => 1,
            Refusal::NotUtf8 { .. } => 2,
            Refusal::NoRoom { .. } => 3,
            Refusal::Beyond => 4,
            Refusal::NoPart => 5,
            Refusal::OtherLength => 7,
            Refusal::Malformed => 8,
            Refusal::NoVersion => 9,
        }
    }
}

impl fmt::Display for Refusal {
    fn fmt(&self, f: &mut fmt::Formatter) -> fmt::Result {
        match self {
            Refusal::TooLong => write!(f, "longer than {} bytes", crate::MAX_QUERY_SIZE),
            Refusal::NotUtf8 { valid } => write!(f, "not UTF-8 after {valid} bytes"),
            Refusal::NoRoom { needed } => write!(f, "room for {needed} is needed"),
            Refusal::Beyond => write!(f, "beyond the text's end"),
            Refusal::NoPart => write!(f, "no part of the text"),
            Refusal::OtherLength => write!(f, "a copy of another length than the text"),
            Refusal::Malformed => write!(f, "no saved list, or no list that can be saved"),
            Refusal::NoVersion => write!(f, "no saved list, or one of a version that is not known"),
        }
    }
}

impl std::error::Error for Refusal {}

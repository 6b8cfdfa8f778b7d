//! The kinds of tokens.
use std::fmt;

macro_rules! kinds {
    ($($(#[$doc:meta])* $name:ident = $number:literal,)*) => {
        /// What a token is. The numbers are those of the C functions and of packed lists.
        ///
        /// ```
        /// use giehtamun::Kind;
        /// assert_eq!(Kind::StringToken as u32, 5);
        /// ```
        #[derive(Clone, Copy, Debug, PartialEq, Eq, PartialOrd, Ord, Hash)]
        #[repr(u8)]
        pub enum Kind {
            $($(#[$doc])* $name = $number,)*
        }

        impl Kind {
            /// Every kind, in the order of the numbers.
            ///
            /// ```
            /// use giehtamun::Kind;
            /// assert!(Kind::ALL.iter().zip(1..).all(|(kind, number)| *kind as u32 == number));
            /// ```
            pub const ALL: [Kind; 48] = [$(Kind::$name),*];

            /// The kind's name.
            ///
            /// ```
            /// use giehtamun::Kind;
            /// assert_eq!(Kind::LessOrEquals.name(), "LessOrEquals");
            /// ```
            pub const fn name(self) -> &'static str {
                match self {
                    $(Kind::$name => stringify!($name),)*
                }
            }
        }
    };
}

kinds! {
    /// White space, as Unicode has it.
    Whitespace = 1,
    /// `-- ..` up to the line's end, or `/* .. */`.
    Comment = 2,
    /// `1`, `0x1F`, `2.5e-3`
    Number = 3,
    /// A word: a keyword, a name, a function.
    BareWord = 4,
    /// `'..'` or `‘..’`
    StringToken = 5,
    /// `".."`, `` `..` `` or `“..”`
    QuotedIdentifier = 6,
    /// `$tag$ .. $tag$`
    HereDoc = 7,
    /// `(`
    OpeningRoundBracket = 8,
    /// `)`
    ClosingRoundBracket = 9,
    /// `[`
    OpeningSquareBracket = 10,
    /// `]`
    ClosingSquareBracket = 11,
    /// `{`
    OpeningCurlyBrace = 12,
    /// `}`
    ClosingCurlyBrace = 13,
    /// `,`
    Comma = 14,
    /// `;`
    Semicolon = 15,
    /// `.`
    Dot = 16,
    /// `*`
    Star = 17,
    /// `$` that begins no here-document.
    DollarSign = 18,
    /// `+`
    Plus = 19,
    /// `-`, or U+2212.
    Minus = 20,
    /// `->`
    Arrow = 21,
    /// `/`
    Slash = 22,
    /// `%`
    Percent = 23,
    /// `?`
    QuestionMark = 24,
    /// `:`
    Colon = 25,
    /// `::`
    DoubleColon = 26,
    /// `^`
    Caret = 27,
    /// `=`, `==` or `=>`
    Equals = 28,
    /// `<=>` or `=><`
    Spaceship = 29,
    /// `!=` or `<>`
    NotEquals = 30,
    /// `<`
    Less = 31,
    /// `<=`
    LessOrEquals = 32,
    /// `>`
    Greater = 33,
    /// `>=`
    GreaterOrEquals = 34,
    /// `||`
    Concatenation = 35,
    /// `@`
    At = 36,
    /// `@@`
    DoubleAt = 37,
    /// `\G` or `\g`
    VerticalDelimiter = 38,
    /// The text's end, as a step gives it.
    EndOfStream = 39,
    /// `/*` that is not closed.
    ErrorMultilineCommentIsNotClosed = 40,
    /// `'` or `‘` that is not closed.
    ErrorSingleQuoteIsNotClosed = 41,
    /// `"` or `“` that is not closed.
    ErrorDoubleQuoteIsNotClosed = 42,
    /// A back quote that is not closed.
    ErrorBackQuoteIsNotClosed = 43,
    /// A number that goes wrong: `1e`, `1.5a`.
    ErrorWrongNumber = 44,
    /// `!` without `=`.
    ErrorSingleExclamationMark = 45,
    /// `|` without a second one.
    ErrorSinglePipeMark = 46,
    /// A character at which no token starts.
    ErrorToken = 47,
    /// The text is too long. No list holds it: [`crate::Refusal::TooLong`] says so.
    ErrorMaxQuerySizeExceeded = 48,
}

impl Kind {
    /// The kind with a number, if there is one.
    ///
    /// ```
    /// use giehtamun::Kind;
    /// assert_eq!(Kind::from_number(7), Some(Kind::HereDoc));
    /// assert_eq!(Kind::from_number(0), None);
    /// ```
    pub fn from_number(number: u32) -> Option<Kind> {
        Kind::ALL.get((number as usize).checked_sub(1)?).copied()
    }

    /// Whether a token of this kind may have bytes that the masked copy hides: comments, strings, here-documents, and what is not closed.
    ///
    /// ```
    /// use giehtamun::Kind;
    /// assert!(Kind::StringToken.hides());
    /// assert!(!Kind::QuotedIdentifier.hides());
    /// ```
    pub fn hides(self) -> bool {
        use Kind::*;
        matches!(
            self,
            Comment
                | StringToken
                | HereDoc
                | ErrorMultilineCommentIsNotClosed
                | ErrorSingleQuoteIsNotClosed
                | ErrorDoubleQuoteIsNotClosed
                | ErrorBackQuoteIsNotClosed
        )
    }
}

impl fmt::Display for Kind {
    fn fmt(&self, f: &mut fmt::Formatter) -> fmt::Result {
        f.pad(self.name())
    }
}

//! The oracle, a second reading of document 01, places by the protocol that editors follow, a second program for saved token lists, and two ways to
//! the proved library: the archive for this machine, which is linked (build.rs), and the bridge, which has one for this machine or another.
pub mod bridge;
#[cfg(linked)]
pub mod linked;
#[cfg(oracle)]
pub mod oracle;
pub mod protocol;
pub mod reading;
pub mod saved;
pub mod texts;
#[cfg(oracle)]
include!(concat!(env!("OUT_DIR"), "/oracle.rs"));

/// "text over 1,000,000 bytes" is refused.
pub const MAX_QUERY_SIZE: usize = 1_000_000;

/// The lengths of the longest texts that are taken, and of the shortest that is not.
pub const AROUND_THE_LIMIT: [usize; 3] = [MAX_QUERY_SIZE - 1, MAX_QUERY_SIZE, MAX_QUERY_SIZE + 1];

/// "A packed list holds 12 bytes a token".
pub const TOKEN_BYTES: usize = 12;

/// A token as document 01 has it: kind, start, end.
pub type Triple = (u32, u32, u32);

/// A text's first statement as document 02 has it (#102): the tokens read, the bytes before its delimiter, and where that ends.
#[derive(Clone, Copy, Debug, PartialEq)]
pub struct Statement {
    pub tokens: usize,
    pub before: usize,
    pub end: usize,
}

/// A call: which function, its numbers, its text, and a piece of memory. The function is lent the first `lent` bytes of the memory; that
/// the others stay as they were shows that it writes to nothing else. Shown text is lent them as the copy, to read, and its kind is the mode.
/// The writer of a saved list reads a packed list too, and its flag is the mode; of the readers the text is the file.
#[derive(Clone, Debug)]
pub struct Call<'a> {
    pub op: Op,
    pub mode: u32,
    pub number: u64,
    pub end: u64,
    pub text: &'a [u8],
    pub list: &'a [u8],
    pub memory: Vec<u8>,
    pub lent: usize,
}

#[derive(Clone, Copy, Debug, PartialEq)]
pub enum Op {
    ValidLength = 1,
    CodeAt = 2,
    LengthAt = 3,
    IsWhiteSpace = 4,
    IsAlphabetic = 5,
    IsAlphanumeric = 6,
    List = 7,
    ListUpTo = 8,
    Step = 9,
    Mask = 10,
    TokenText = 11,
    ShownText = 12,
    Place = 13,
    FirstStatement = 14,
    StatementText = 15,
    Save = 16,
    Load = 17,
    SavedText = 18,
}

impl<'a> Call<'a> {
    /// A call of a function that is lent no memory; the number is its code, offset or cursor.
    pub fn read(op: Op, number: u64, text: &'a [u8]) -> Self {
        Call { op, mode: 0, number, end: 0, text, list: &[], memory: vec![], lent: 0 }
    }

    /// A call of a listing, with bytes to write to that all differ from their neighbours; the number is its position.
    pub fn list(op: Op, mode: u32, number: u64, text: &'a [u8], lent: usize) -> Self {
        Call { op, mode, number, end: 0, text, list: &[], memory: (0..lent + 13).map(|i| i as u8 ^ 0xA5).collect(), lent }
    }

    /// A call for the masked copy, with the same bytes to write to.
    pub fn mask(text: &'a [u8], lent: usize) -> Self {
        Call::list(Op::Mask, 0, 0, text, lent)
    }

    /// A call for a token's text.
    pub fn token_text(text: &'a [u8], start: u64, end: u64) -> Self {
        Call { end, ..Call::read(Op::TokenText, start, text) }
    }

    /// A call for a token's shown text, with a copy of some length; its bytes are those of a listing's memory.
    pub fn shown_text(text: &'a [u8], lent: usize, kind: u32, start: u64, end: u64) -> Self {
        Call { end, ..Call::list(Op::ShownText, kind, start, text, lent) }
    }

    /// A call of the writer of a saved list, with the same bytes to write to.
    pub fn save(text: &'a [u8], list: &'a [u8], flag: u32, lent: usize) -> Self {
        Call { list, ..Call::list(Op::Save, flag, 0, text, lent) }
    }

    /// A call of its reader, with the same bytes to write to.
    pub fn load(file: &'a [u8], lent: usize) -> Self {
        Call::list(Op::Load, 0, 0, file, lent)
    }
}

/// What a call gives: the function's answer, and what the memory holds afterwards.
#[derive(Debug, PartialEq)]
pub struct Answer {
    pub answer: u64,
    pub memory: Vec<u8>,
}

/// The answers to some calls, by the linked library.
#[cfg(linked)]
pub fn ask(calls: &[Call]) -> Vec<Answer> {
    calls.iter().map(linked::call).collect()
}

#[cfg(not(linked))]
pub fn ask(_: &[Call]) -> Vec<Answer> {
    panic!("no archives for this machine: GIEHTAMUN_ARCHIVES names the folder of those that tools/native makes");
}

/// Asks, and holds each answer to what it should be; the number of calls.
pub fn compare(calls: &[Call], wanted: impl IntoIterator<Item = Answer>) -> usize {
    compared(calls, wanted).len()
}

/// Asks, and holds each answer to what it should be; the answers.
pub fn compared(calls: &[Call], wanted: impl IntoIterator<Item = Answer>) -> Vec<Answer> {
    let mut wanted = wanted.into_iter();
    let answers = ask(calls);
    for (call, got) in calls.iter().zip(&answers) {
        let want = wanted.next().expect("an answer to each call");
        if *got != want {
            let Call { op, mode, number, end, text, list, lent, .. } = call;
            let wrong = got.memory.iter().zip(&want.memory).position(|(a, b)| a != b);
            let [text_start, list_start] = [text, list].map(|bytes| bytes[..bytes.len().min(300)].escape_ascii());
            panic!(
                "{op:?}, mode {mode}, number {number}, end {end}, {lent} bytes lent, {} bytes of text: {text_start}\n\
                 {} bytes of list: {list_start}\n\
                 answer {:016x}, should be {:016x}; first wrong byte: {wrong:?}",
                text.len(),
                list.len(),
                got.answer,
                want.answer
            );
        }
    }
    answers
}

/// A generator of pseudo-random numbers with a fixed seed, so that a run can be repeated.
pub struct Random(pub u64);

impl Random {
    pub fn next(&mut self) -> u64 {
        self.0 ^= self.0 << 13;
        self.0 ^= self.0 >> 7;
        self.0 ^= self.0 << 17;
        self.0
    }

    pub fn below(&mut self, n: usize) -> usize {
        (self.next() % n as u64) as usize
    }

    pub fn one_of<T: Copy>(&mut self, from: &[T]) -> T {
        from[self.below(from.len())]
    }
}

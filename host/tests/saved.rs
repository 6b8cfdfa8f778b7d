//! Saved token lists, through the C functions: against files made by hand, against the second program, and what must hold without it: what was
//! written is read as it was, and what was read is written as it was.
use host::saved::{self, RECORD_BYTES, TRAILER_BYTES};
use host::{ask, compare, compared, reading, texts, Answer, Call, Op, Random, Triple, AROUND_THE_LIMIT, TOKEN_BYTES};
use std::fmt;

/// How many calls answered each number.
#[derive(Default)]
struct Tally([usize; 10]);

impl Tally {
    fn add(&mut self, answer: u64) {
        self.0[(answer >> 56) as usize] += 1;
    }

    /// Holds some calls to the second program.
    fn ask(&mut self, calls: &[Call]) -> Vec<Answer> {
        let answers = compared(calls, calls.iter().map(saved::answer));
        answers.iter().for_each(|answer| self.add(answer.answer));
        answers
    }

    /// Holds a call to what it must answer, and to what it must leave in front of the bytes that it keeps.
    fn expect(&mut self, call: Call, answer: u64, front: &[u8]) {
        let memory = [front, &call.memory[front.len()..]].concat();
        compare(&[call], [Answer { answer, memory }]);
        self.add(answer);
    }

    /// The readers of a file, with a byte too little for its tokens, just enough, and room for more than it can have. If it is accepted, the writer
    /// makes it again of what was read.
    fn file(&mut self, file: &[u8]) {
        let list = TOKEN_BYTES * saved::read(file).map_or(0, |saved| saved.tokens.len());
        let loads = [list.saturating_sub(1), list, 3 * file.len()].map(|lent| Call::load(file, lent));
        let answers = self.ask(&loads);
        let text = self.ask(&[Call::read(Op::SavedText, 0, file)])[0].answer;
        let Answer { answer, memory } = &answers[1];
        if answer >> 56 == 0 {
            let again = Call::save(&file[..text as usize], &memory[..list], (answer >> 48) as u32, file.len());
            self.expect(again, reading::answer(0, 0, file.len()), file);
        }
    }

    /// The writer, with a byte too little for a file, just enough, and more. If it writes one, the readers give back what it was made of.
    fn list(&mut self, text: &[u8], list: &[u8], flag: u32) {
        let tokens = list.len() / TOKEN_BYTES;
        let needed = text.len() + RECORD_BYTES * tokens + TRAILER_BYTES;
        let answers = self.ask(&[needed - 1, needed, needed + 25].map(|lent| Call::save(text, list, flag, lent)));
        if answers[1].answer >> 56 == 0 {
            let file = &answers[1].memory[..needed];
            self.expect(Call::load(file, list.len()), reading::answer(0, flag, tokens), list);
            self.expect(Call::read(Op::SavedText, 0, file), reading::answer(0, 0, text.len()), &[]);
            assert!(file.starts_with(text));
        }
    }

    /// The tally, if each of some numbers was answered.
    fn having(self, numbers: &[usize]) -> Self {
        assert!(numbers.iter().all(|number| self.0[*number] > 0), "{self}: not all of {numbers:?}");
        self
    }
}

impl fmt::Display for Tally {
    fn fmt(&self, f: &mut fmt::Formatter) -> fmt::Result {
        write!(f, "{} calls", self.0.iter().sum::<usize>())?;
        let mut some = self.0.iter().enumerate().filter(|(_, count)| **count > 0);
        some.try_for_each(|(number, count)| write!(f, ", {count} answered {number}"))
    }
}

/// Bytes from their hexadecimal digits; spaces show what belongs together.
fn hex(digits: &str) -> Vec<u8> {
    let digits: Vec<u32> = digits.chars().filter(|c| *c != ' ').map(|c| c.to_digit(16).unwrap()).collect();
    digits.chunks(2).map(|pair| (pair[0] << 4 | pair[1]) as u8).collect()
}

/// Files made by hand from document 02: a text, its tokens, a flag, and the file, byte by byte.
const BY_HAND: [(&str, &[Triple], u32, &str); 14] = [
    ("", &[], 0, "00000000 00000000 00 01 0000"),
    ("", &[], 1, "00000000 00000000 01 01 0000"),
    ("a", &[(4, 0, 1)], 0, "61  04 010000  01000000 01000000 00 01 0000"),
    ("a", &[(4, 0, 1)], 1, "61  04 010000  01000000 01000000 01 01 0000"),
    ("a", &[], 1, "61  01000000 00000000 01 01 0000"),
    ("a b", &[(4, 0, 1), (1, 1, 2), (4, 2, 3)], 0, "612062  04 010000  01 020000  04 030000  03000000 03000000 00 01 0000"),
    ("a b", &[(4, 0, 1), (1, 1, 2)], 1, "612062  04 010000  01 020000  03000000 02000000 01 01 0000"),
    // Document 01's example.
    (
        "x.1 <='é'",
        &[(4, 0, 1), (16, 1, 2), (3, 2, 3), (1, 3, 4), (32, 4, 6), (5, 6, 10)],
        0,
        "782E31203C3D27C3A927  04 010000  10 020000  03 030000  01 040000  20 060000  05 0A0000  0A000000 06000000 00 01 0000",
    ),
    // Up to 3, with white space; the last token runs past it.
    ("a /*c*/ b", &[(4, 0, 1), (1, 1, 2), (2, 2, 7)], 1, "61202F2A632A2F2062  04 010000  01 020000  02 070000  09000000 03000000 01 01 0000"),
    // "neither lexes": kinds that these texts have not, an end inside of a character, and white space that is no token of its own.
    ("a b", &[(47, 0, 3)], 0, "612062  2F 030000  03000000 01000000 00 01 0000"),
    ("é", &[(38, 0, 1), (40, 1, 2)], 0, "C3A9  26 010000  28 020000  02000000 02000000 00 01 0000"),
    ("12", &[(1, 0, 1)], 1, "3132  01 010000  02000000 01000000 01 01 0000"),
    // Texts that are a file and a trailer themselves.
    ("\0\0\0\0\0\0\0\0\0\x01\0\0", &[], 1, "000000000000000000010000  0C000000 00000000 01 01 0000"),
    ("a\x04\x01\0\0\x01\0\0\0\x01\0\0\0\0\x01\0\0", &[(7, 0, 17)], 0, "6104010000010000000100000000010000  07 110000  11000000 01000000 00 01 0000"),
];

/// Records and trailer of texts that are one letter again and again, with one token and in full: the bytes of their lengths all differ.
const LONG_BY_HAND: [(usize, &str); 5] = [
    (255, "05 FF0000  FF000000 01000000 00 01 0000"),
    (256, "05 000100  00010000 01000000 00 01 0000"),
    (66_051, "05 030201  03020100 01000000 00 01 0000"),
    (999_999, "05 3F420F  3F420F00 01000000 00 01 0000"),
    (1_000_000, "05 40420F  40420F00 01000000 00 01 0000"),
];

/// By the library and by the second program.
#[test]
fn files_made_by_hand() {
    let short = BY_HAND.map(|(text, tokens, flag, file)| (text.to_string(), tokens.to_vec(), flag, hex(file)));
    let long = LONG_BY_HAND.map(|(length, rest)| {
        let text = "x".repeat(length);
        let file = [text.as_bytes(), &hex(rest)].concat();
        (text, vec![(5, 0, length as u32)], 0, file)
    });
    let mut tally = Tally::default();
    for (text, tokens, flag, file) in short.into_iter().chain(long) {
        let (text, list) = (text.as_bytes(), reading::packed(&tokens));
        assert_eq!(saved::written(text, &list, flag).as_ref(), Ok(&file));
        assert_eq!(saved::read(&file).map(|saved| (saved.text, saved.tokens, saved.flag)), Ok((text, tokens.clone(), flag)));
        tally.expect(Call::save(text, &list, flag, file.len()), reading::answer(0, 0, file.len()), &file);
        tally.expect(Call::load(&file, list.len()), reading::answer(0, flag, tokens.len()), &list);
        tally.expect(Call::read(Op::SavedText, 0, &file), reading::answer(0, 0, text.len()), &[]);
        tally.file(&file);
        tally.list(text, &list, flag);
    }
    println!("files made by hand: {}", tally.having(&[0, 3]));
}

/// Files that are refused, with the number and the value.
#[rustfmt::skip]
const REFUSED_FILES: [(&str, u64, usize); 45] = [
    // Under 12 bytes, of any version.
    ("", 8, 0), ("01", 8, 0), ("00000000 00000000 00 01 00", 8, 0), ("00000000 00000000 01 0000", 8, 0), ("00000000 00000000 00 02 00", 8, 0),
    // Another version, whatever else is wrong: among it a byte after the trailer, by which all in it has moved.
    ("00000000 00000000 00 00 0000", 9, 0), ("00000000 00000000 00 02 0000", 9, 0), ("00000000 00000000 00 FF 0000", 9, 0),
    ("00000000 00000000 02 02 0001", 9, 0), ("41420F00 00000000 00 02 0000", 9, 0), ("01000000 00000000 00 00 0000", 9, 0),
    ("FF  01000000 00000000 01 02 0000", 9, 0), ("00000000 00000000 00 01 0000 00", 9, 0),
    // An offset above 1,000,000, whatever else but the version is wrong; and 1,000,000, which is not above it.
    ("41420F00 00000000 00 01 0000", 1, 0), ("FFFFFFFF 00000000 02 01 0101", 1, 0), ("00000001 FFFFFFFF 00 01 0000", 1, 0),
    ("40420F00 00000000 00 01 0000", 8, 0),
    // Text or records that are not there, and bytes that are neither.
    ("01000000 00000000 01 01 0000", 8, 0), ("00000000 01000000 01 01 0000", 8, 0), ("61  01000000 01000000 01 01 0000", 8, 0),
    ("61  00000000 00000000 00 01 0000", 8, 0), ("61  04 010000 00  01000000 01000000 00 01 0000", 8, 0),
    ("6161  04 010000  01000000 01000000 00 01 0000", 8, 0), ("04 010000  01000000 01000000 00 01 0000", 8, 0),
    // 2^30 records, of 2^32 bytes.
    ("00000000 00000040 00 01 0000", 8, 0), ("61  04 010000  01000000 01000040 00 01 0000", 8, 0),
    // Flag and zero bytes.
    ("00000000 00000000 02 01 0000", 8, 0), ("00000000 00000000 FF 01 0000", 8, 0), ("00000000 00000000 00 01 0100", 8, 0),
    ("00000000 00000000 00 01 0001", 8, 0),
    // A full list that stops short.
    ("61  01000000 00000000 00 01 0000", 8, 0), ("6120  04 010000  02000000 01000000 00 01 0000", 8, 0),
    // Ends that do not rise, from the first token on, or are beyond the text.
    ("61  04 000000  01000000 01000000 01 01 0000", 8, 0), ("6120  04 010000  01 010000  02000000 02000000 01 01 0000", 8, 0),
    ("6120  04 020000  01 010000  02000000 02000000 01 01 0000", 8, 0), ("61  04 020000  01000000 01000000 01 01 0000", 8, 0),
    ("61  04 010100  01000000 01000000 01 01 0000", 8, 0), ("61  04 010001  01000000 01000000 01 01 0000", 8, 0),
    // Kinds 0, 39, 48 and 255.
    ("61  00 010000  01000000 01000000 00 01 0000", 8, 0), ("61  27 010000  01000000 01000000 00 01 0000", 8, 0),
    ("61  30 010000  01000000 01000000 00 01 0000", 8, 0), ("61  FF 010000  01000000 01000000 00 01 0000", 8, 0),
    // Not UTF-8: nothing else, and then a token too many.
    ("61C3A9ED  04000000 00000000 01 01 0000", 2, 3), ("C3  04 010000  01000000 01000000 00 01 0000", 2, 0),
    ("C3  04 010000  04 020000  01000000 02000000 00 01 0000", 8, 0),
];

/// Texts, lists and flags that are refused.
#[rustfmt::skip]
const REFUSED_LISTS: [(&[u8], &str, u32, u64, usize); 30] = [
    // A flag above 1, in all of its 32 bits.
    (b"", "", 2, 8, 0), (b"", "", 256, 8, 0), (b"", "", 1 << 31 | 1, 8, 0), (b"", "", u32::MAX, 8, 0), (b"\xFF", "", 2, 8, 0),
    // An incomplete last token.
    (b"", "00", 0, 8, 0), (b"a", "04000000 00000000 010000", 0, 8, 0), (b"a", "04000000 00000000 01000000 00", 0, 8, 0),
    (b"a", "04000000 00000000 01000000 04000000", 1, 8, 0), (b"\xFF", "00", 1, 8, 0),
    // Kinds 0, 39 and 48, and others that would be kinds with their high bits lost.
    (b"a", "00000000 00000000 01000000", 0, 8, 0), (b"a", "27000000 00000000 01000000", 0, 8, 0), (b"a", "30000000 00000000 01000000", 0, 8, 0),
    (b"a", "04010000 00000000 01000000", 0, 8, 0), (b"a", "04000100 00000000 01000000", 0, 8, 0), (b"a", "01000080 00000000 01000000", 0, 8, 0),
    // A first start that is not 0, a gap, and an overlap.
    (b"ab", "04000000 01000000 02000000", 0, 8, 0), (b"abc", "04000000 00000000 01000000  04000000 02000000 03000000", 0, 8, 0),
    (b"abc", "04000000 00000000 02000000  04000000 01000000 03000000", 0, 8, 0), (b"a", "04000000 00000001 01000000", 0, 8, 0),
    // An empty token, first or last; one that ends before it starts; ends beyond the text, and one that is in it with its high bits lost.
    (b"a", "04000000 00000000 00000000", 1, 8, 0), (b"a", "04000000 00000000 01000000  04000000 01000000 01000000", 0, 8, 0),
    (b"ab", "04000000 00000000 02000000  04000000 02000000 01000000", 1, 8, 0), (b"a", "04000000 00000000 02000000", 1, 8, 0),
    (b"a", "04000000 00000000 01000001", 0, 8, 0),
    // A full list that stops short.
    (b"a", "", 0, 8, 0), (b"ab", "04000000 00000000 01000000", 0, 8, 0),
    // Not UTF-8.
    (b"\xC3", "04000000 00000000 01000000", 0, 2, 0), (b"a\xC3\xA9\xE2\x80", "04000000 00000000 01000000", 1, 2, 3), (b"ab\x80", "", 1, 2, 2),
];

/// By the library and by the second program. "A refusal writes nothing."
#[test]
fn refusals_by_hand() {
    let mut tally = Tally::default();
    for (file, number, value) in REFUSED_FILES.map(|(file, number, value)| (hex(file), number, value)) {
        assert_eq!(saved::read(&file), Err((number, value)), "{file:02x?}");
        for call in [Call::load(&file, 0), Call::load(&file, 5 * TOKEN_BYTES), Call::read(Op::SavedText, 0, &file)] {
            tally.expect(call, reading::answer(number, 0, value), &[]);
        }
    }
    for (text, list, flag, number, value) in REFUSED_LISTS {
        let list = hex(list);
        assert_eq!(saved::written(text, &list, flag), Err((number, value)), "{}", text.escape_ascii());
        for lent in [0, 100] {
            tally.expect(Call::save(text, &list, flag, lent), reading::answer(number, 0, value), &[]);
        }
    }
    println!("refusals by hand: {}", tally.having(&[1, 2, 8, 9]));
}

/// In the files made by hand and in their lists.
#[test]
fn every_value_of_every_byte() {
    let mut tally = Tally::default();
    for (text, tokens, flag, file) in BY_HAND {
        let (file, list) = (hex(file), reading::packed(tokens));
        for value in 0..=255 {
            let put = |bytes: &[u8], at: usize| [&bytes[..at], &[value], &bytes[at + 1..]].concat();
            (0..file.len()).for_each(|at| tally.file(&put(&file, at)));
            (0..list.len()).for_each(|at| tally.list(text.as_bytes(), &put(&list, at), flag));
        }
    }
    println!("every value of every byte of the files made by hand: {}", tally.having(&[0, 1, 2, 3, 8, 9]));
}

/// "kinds are 1 to 47 without 39", in a list also where the high bits are not 0.
#[test]
fn every_kind() {
    let mut tally = Tally::default();
    for kind in (0..=300).chain((8..32).flat_map(|bit| [1 << bit, 1 << bit | 4])) {
        let sound = (1..=47).contains(&kind) && kind != 39;
        let (list, file) = (reading::packed(&[(kind, 0, 1)]), [b'a', kind as u8, 1, 0, 0, 1, 0, 0, 0, 1, 0, 0, 0, 0, 1, 0, 0]);
        let right = |done: u64| if sound { done } else { reading::answer(8, 0, 0) };
        tally.expect(Call::save(b"a", &list, 0, file.len()), right(reading::answer(0, 0, file.len())), if sound { &file } else { &[] });
        if kind <= 255 {
            tally.expect(Call::load(&file, list.len()), right(reading::answer(0, 0, 1)), if sound { &list } else { &[] });
            tally.expect(Call::read(Op::SavedText, 0, &file), right(reading::answer(0, 0, 1)), &[]);
        }
    }
    println!("every kind: {}", tally.having(&[0, 8]));
}

/// Of these the longest accepted file has two bytes of text, since with a record it would have 17 bytes. With the second alphabet a text of one
/// byte may be none of UTF-8.
#[cfg(linked)]
#[test]
fn every_file_of_up_to_14_bytes() {
    use host::linked;

    for (alphabet, accepted) in [([0, 1, 2], 2 + 3 + 9), ([0, 1, 0x80], 2 + 2)] {
        let mut tally = Tally::default();
        for length in 0..=14 {
            let mut digits = [0; 14];
            loop {
                let file = &digits.map(|digit: usize| alphabet[digit])[..length];
                let (loaded, text) = match saved::read(file) {
                    Ok(saved) => (reading::answer(0, saved.flag, saved.tokens.len()), reading::answer(0, 0, saved.text.len())),
                    Err((number, value)) => (reading::answer(number, 0, value), reading::answer(number, 0, value)),
                };
                let mut list = [0xA5; TOKEN_BYTES];
                assert_eq!((linked::load(file, &mut list), linked::saved_text(file)), (loaded, text), "{file:02x?}");
                assert_eq!(list, [0xA5; TOKEN_BYTES], "{file:02x?}");
                tally.add(loaded);
                tally.add(text);
                // The next number of so many digits, or none.
                let Some(at) = digits[..length].iter().position(|digit| *digit < 2) else { break };
                digits[..at].fill(0);
                digits[at] += 1;
            }
        }
        assert_eq!(tally.0[0], 2 * accepted);
        println!("every file of up to 14 bytes over {alphabet:02x?}: {}", tally.having(&[0, 1, 8, 9]));
    }
}

/// Each text with each part of a trailer, and between them no record or one, right or wrong in any of these ways.
#[test]
fn every_file_around_one_record() {
    let texts: [&[u8]; 7] = [b"", b"a", b"\xC3", b"ab", b"\xC3\xA9", b"a\xC3", b"abc"];
    let mut records = vec![vec![]];
    for kind in [0, 1, 38, 39, 47, 48] {
        records.extend([[0, 0, 0], [1, 0, 0], [2, 0, 0], [3, 0, 0], [1, 1, 0], [2, 0, 1]].map(|[a, b, c]| vec![kind, a, b, c]));
    }
    let mut trailers = vec![];
    for (offset, count) in (0..4).flat_map(|offset| [0, 1, 2, 1 << 30, 1 << 30 | 1].map(|count: u32| (offset, count))) {
        for (flag, version) in (0..3).flat_map(|flag| [0, 1, 2].map(|version| (flag, version))) {
            trailers.push([&u32::to_le_bytes(offset)[..], &count.to_le_bytes(), &[flag, version, 0, 0]].concat());
        }
    }
    trailers.extend(["01000000 01000000 00 01 0100", "01000000 01000000 00 01 0001", "01001000 01000000 00 01 0000"].map(hex));
    let mut tally = Tally::default();
    for (text, record) in texts.into_iter().flat_map(|text| records.iter().map(move |record| (text, record))) {
        trailers.iter().for_each(|trailer| tally.file(&[text, record, trailer].concat()));
    }
    let [a, b, c] = [texts.len(), records.len(), trailers.len()];
    println!("{} files of {a} texts, {} records or none, and {c} trailers: {}", a * b * c, b - 1, tally.having(&[0, 1, 2, 3, 8, 9]));
}

/// Records of two and of three tokens that may rise, stay or fall, in the text or beyond it.
#[test]
fn every_row_of_ends() {
    let mut tally = Tally::default();
    for (length, ends) in (0..=4).flat_map(|length| (0..216).map(move |i| (length, [i % 6, i / 6 % 6, i / 36]))) {
        for (count, flag) in [2, 3].into_iter().flat_map(|count| [0, 1].map(|flag| (count, flag))) {
            let records: Vec<u8> = ends[..count].iter().flat_map(|end| [4, *end, 0, 0]).collect();
            let trailer = [length as u8, 0, 0, 0, count as u8, 0, 0, 0, flag, 1, 0, 0];
            tally.file(&[&b"abcd"[..length], &records, &trailer].concat());
        }
    }
    println!("every row of two and of three ends from 0 to 5 in texts of up to 4 bytes: {}", tally.having(&[0, 3, 8]));
}

/// Lists of no token, of one and of two, with these kinds, starts and ends, as they are and with some bytes of one more.
#[test]
fn every_short_list() {
    let mut tokens = vec![];
    for (kind, start) in [0, 1, 39, 47, 48, 257].into_iter().flat_map(|kind| (0..3).map(move |start| (kind, start))) {
        tokens.extend([0, 1, 2, 3, 1 << 24 | 1].map(|end| (kind, start, end)));
    }
    let mut lists: Vec<Vec<Triple>> = vec![vec![]];
    lists.extend(tokens.iter().map(|token| vec![*token]));
    let firsts = tokens.iter().filter(|token| token.0 == 47);
    lists.extend(firsts.flat_map(|first| tokens.iter().map(|second| vec![*first, *second])));
    let mut tally = Tally::default();
    for list in lists.iter().map(|tokens| reading::packed(tokens)) {
        for (text, flag) in [&b""[..], b"a", b"\xC3", b"ab", b"a\xC3", b"abc"].into_iter().flat_map(|text| (0..3).map(move |flag| (text, flag))) {
            tally.list(text, &list, flag);
        }
        for more in [1, 4, 8, 11] {
            tally.list(b"ab", &[&list[..], &[1; 11][..more]].concat(), 1);
        }
    }
    println!("{} lists of up to two tokens in texts of up to 3 bytes: {}", lists.len(), tally.having(&[0, 2, 3, 8]));
}

/// The list that the library has of a text: all of it, or up to a position. The text is UTF-8.
fn listed(text: &[u8], position: Option<u64>) -> Vec<u8> {
    let (op, position) = position.map_or((Op::List, 0), |position| (Op::ListUpTo, position));
    let Answer { answer, mut memory } = ask(&[Call::list(op, 0, position, text, TOKEN_BYTES * text.len())]).remove(0);
    assert_eq!(answer >> 56, 0);
    memory.truncate(TOKEN_BYTES * answer as usize);
    memory
}

/// A text of one of several kinds.
fn text(r: &mut Random) -> String {
    match r.below(20) {
        0 => texts::dollars(r, 3000),
        1..=4 => texts::stretches(r),
        5..=8 => texts::lines(r),
        _ => texts::random(r),
    }
}

/// A host never sees 8 for what the library listed: in full with flag 0, up to any position with flag 1.
#[test]
fn what_the_library_lists() {
    let mut r = Random(0x6C9E0B8D2F51A743);
    let n = texts::how_many(10_000);
    let (mut tally, mut partial) = (Tally::default(), 0);
    for _ in 0..n {
        let text = text(&mut r).into_bytes();
        let full = listed(&text, None);
        assert!(saved::written(&text, &full, 0).is_ok(), "{}", text.escape_ascii());
        tally.list(&text, &full, 0);
        for position in [r.below(text.len() + 2) as u64, r.one_of(&[0, 1, text.len() as u64, u64::MAX])] {
            let list = listed(&text, Some(position));
            assert!(saved::written(&text, &list, 1).is_ok(), "{} up to {position}", text.escape_ascii());
            partial += (list.len() < full.len()) as usize;
            tally.list(&text, &list, 1);
            tally.list(&text, &list, 0);
        }
    }
    assert!(partial > n, "{partial} shorter lists of {n} texts");
    println!("the lists of {n} random texts, and {} up to a position, {partial} of them shorter: {}", 2 * n, tally.having(&[0, 3, 8]));
}

/// What no lexer made is saved too; and it is refused where the text is not UTF-8.
#[test]
fn invented_lists() {
    let mut r = Random(0xD1B54A32D192ED03);
    let n = texts::how_many(20_000);
    let mut tally = Tally::default();
    for _ in 0..n {
        let whole = text(&mut r);
        let text = if r.below(4) == 0 { texts::damaged(&mut r, &whole) } else { whole.into_bytes() };
        let flag = r.below(2) as u32;
        tally.list(&text, &reading::packed(&texts::invented(&mut r, text.len(), flag == 0)), flag);
    }
    assert!(tally.0[0] > 3 * n / 2 && tally.0[2] > n / 4, "{tally}");
    println!("invented lists of {n} random texts: {}", tally.having(&[0, 2, 3]));
}

/// A text with an invented list, packed, and its flag; both short, so that everything in them can be spoilt.
fn short(r: &mut Random) -> (Vec<u8>, Vec<u8>, u32) {
    let bytes = r.below(12);
    let text: String = (0..bytes).map(|_| r.one_of(&['a', '1', ' ', '\'', '\0', '\x01', 'é', '‘', '😀'])).collect();
    let flag = r.below(2) as u32;
    let tokens = texts::invented(r, text.len(), flag == 0);
    (text.into_bytes(), reading::packed(&tokens), flag)
}

/// Some bytes with another number of four bytes at a place.
fn changed(bytes: &[u8], at: usize, number: u32) -> Vec<u8> {
    [&bytes[..at], &number.to_le_bytes(), &bytes[at + 4..]].concat()
}

/// Everything that can be spoilt in one place of some bytes: each bit, each byte to some values, each four bytes to some numbers, a cut from either
/// end and out of the middle, and bytes put in.
fn each_spoilt(bytes: &[u8]) -> Vec<Vec<u8>> {
    let mut all = vec![];
    for at in 0..=bytes.len() {
        let (before, after) = bytes.split_at(at);
        all.extend([before.to_vec(), after.to_vec()]);
        all.extend([&[0][..], &[1], &[0xFF], &[0; 4], &[4, 1, 0, 0], &[0; 12]].map(|more| [before, more, after].concat()));
        let Some((byte, rest)) = after.split_first() else { break };
        all.extend([1, 4, 12].map(|bytes| [before, &after[bytes.min(after.len())..]].concat()));
        let bits = (0..8).map(|bit| byte ^ 1 << bit);
        all.extend(bits.chain([0, 1, 2, 38, 39, 40, 47, 48, 0x80, 0xFF]).map(|byte| [before, &[byte], rest].concat()));
        if let Some(right) = after.first_chunk() {
            all.extend(texts::beside(u32::from_le_bytes(*right)).map(|number| changed(bytes, at, number)));
        }
    }
    all
}

/// Of accepted files and lists that are short.
#[test]
fn everything_that_can_be_spoilt() {
    let mut r = Random(0x9E6C63D0876A9A35);
    let n = texts::how_many(100);
    let (mut tally, mut spoilt) = (Tally::default(), 0);
    for _ in 0..n {
        let (text, list, flag) = short(&mut r);
        let file = saved::written(&text, &list, flag).expect("a sound list");
        let (files, lists) = (each_spoilt(&file), each_spoilt(&list));
        spoilt += files.len() + lists.len();
        files.iter().for_each(|file| tally.file(file));
        lists.iter().for_each(|list| tally.list(&text, list, flag));
        // The text, by which the list may be too long or stop short, and the flag.
        each_spoilt(&text).iter().for_each(|text| tally.list(text, &list, flag));
        texts::beside(flag).iter().for_each(|flag| tally.list(&text, &list, *flag));
    }
    println!("{n} accepted files and lists, spoilt in {spoilt} ways: {}", tally.having(&[0, 1, 2, 3, 8, 9]));
}

/// Of longer ones, which have all bytes in their numbers.
#[test]
fn longer_files_spoilt_at_random() {
    let mut r = Random(0x2545F4914F6CDD1D);
    let n = texts::how_many(2_000);
    let mut tally = Tally::default();
    for i in 0..n {
        let mut text = text(&mut r).into_bytes();
        if i % 50 == 0 {
            text = text.repeat(70_000 / (text.len() + 1));
        }
        let flag = r.below(2) as u32;
        let list = reading::packed(&texts::invented(&mut r, text.len(), flag == 0));
        let file = saved::written(&text, &list, flag).expect("a sound list");
        tally.file(&file);
        for _ in 0..10 {
            tally.file(&texts::spoilt(&mut r, &file));
            tally.list(&text, &texts::spoilt(&mut r, &list), flag);
        }
        let twice = texts::spoilt(&mut r, &file);
        tally.file(&texts::spoilt(&mut r, &twice));
    }
    println!("{n} longer files and lists, spoilt 21 times: {}", tally.having(&[0, 1, 2, 3, 8, 9]));
}

/// A file of any text, tokens and flag, whatever they are.
fn unchecked(text: &[u8], tokens: &[Triple], flag: u8) -> Vec<u8> {
    let mut file = text.to_vec();
    tokens.iter().for_each(|(kind, _, end)| file.extend((kind | end << 8).to_le_bytes()));
    [text.len(), tokens.len()].iter().for_each(|number| file.extend((*number as u32).to_le_bytes()));
    file.extend([flag, 1, 0, 0]);
    file
}

/// Every set of some reasons to refuse.
fn sets(reasons: &[u64]) -> impl Iterator<Item = Vec<u64>> + '_ {
    (0..1 << reasons.len()).map(|set| reasons.iter().enumerate().filter(|(i, _)| set >> i & 1 == 1).map(|(_, reason)| *reason).collect())
}

/// Where a text that is not to be UTF-8 is broken.
const BROKEN_AT: usize = 300;

/// A text that is too long and one that is broken where these are reasons, and its tokens.
fn for_reasons(reasons: &[u64]) -> (Vec<u8>, [Triple; 2]) {
    let length = if reasons.contains(&1) { AROUND_THE_LIMIT[2] } else { 70_000 };
    let mut text = vec![b'a'; length];
    if reasons.contains(&2) {
        text[BROKEN_AT] = 0xE9;
    }
    (text, [(4, 0, 200), (5, 200, length as u32)])
}

/// The first in an order of some reasons, as a refusal, where so much room is needed; or nothing.
fn first(order: &[u64], reasons: &[u64], needed: usize) -> Option<u64> {
    let reason = *order.iter().find(|reason| reasons.contains(reason))?;
    let value = [(2, BROKEN_AT), (3, needed)].iter().find(|(named, _)| *named == reason).map_or(0, |(_, value)| *value);
    Some(reading::answer(reason, 0, value))
}

/// What makes a file malformed, by where it ends: its last record and its trailer are the last 16 bytes.
const MALFORMED: [fn(&mut Vec<u8>, usize); 9] = [
    |file, end| file[end - 1] = 0x80,
    |file, end| file[end - 2] = 1,
    |file, end| file[end - 4] = 2,
    |file, end| file[end - 8] += 1,
    |file, end| file.insert(end - 12, 0),
    |file, end| file[end - 13] += 1,
    |file, end| file[end - 15..end - 12].fill(0),
    |file, end| file[end - 16] = 39,
    |file, end| file[end - 16] = 0,
];

/// "in the order 9, 1 (by the trailer's offset), 8, 2, 3"
#[test]
fn the_first_reason_of_a_reader() {
    const ORDER: [u64; 5] = [9, 1, 8, 2, 3];
    let mut tally = Tally::default();
    for reasons in sets(&ORDER) {
        let (text, tokens) = for_reasons(&reasons);
        let mut whole = unchecked(&text, &tokens, 0);
        let end = whole.len();
        if reasons.contains(&9) {
            whole[end - 3] = 2;
        }
        let mut files = vec![whole; if reasons.contains(&8) { MALFORMED.len() } else { 1 }];
        if reasons.contains(&8) {
            files.iter_mut().zip(MALFORMED).for_each(|(file, spoil)| spoil(file, end));
        }
        for file in files {
            let list = reading::packed(&tokens);
            let load = Call::load(&file, list.len() - reasons.contains(&3) as usize);
            match first(&ORDER, &reasons, tokens.len()) {
                Some(refusal) => tally.expect(load, refusal, &[]),
                None => tally.expect(load, reading::answer(0, 0, tokens.len()), &list),
            }
            let of_text = first(&ORDER[..4], &reasons, 0).unwrap_or(reading::answer(0, 0, text.len()));
            tally.expect(Call::read(Op::SavedText, 0, &file), of_text, &[]);
            tally.file(&file);
        }
    }
    println!("every set of a reader's reasons to refuse: {}", tally.having(&[0, 1, 2, 3, 8, 9]));
}

/// The same without a version.
#[test]
fn the_first_reason_of_a_writer() {
    const ORDER: [u64; 4] = [1, 8, 2, 3];
    let mut tally = Tally::default();
    for reasons in sets(&ORDER) {
        let (text, tokens) = for_reasons(&reasons);
        let (list, end) = (reading::packed(&tokens), text.len() as u32);
        let mut lists = vec![(list.clone(), 0)];
        if reasons.contains(&8) {
            let fields = [(0, 0), (0, 39), (0, 48), (0, 260), (12, 0), (16, 199), (16, 201), (20, 200), (20, end + 1), (20, end - 1)];
            lists = fields.map(|(at, number)| (changed(&list, at, number), 0)).to_vec();
            lists.extend([(list.clone(), 2), (list.clone(), 256), (list[..23].to_vec(), 1), ([&list[..], &[4]].concat(), 0), (vec![], 0)]);
        }
        for (list, flag) in lists {
            let needed = text.len() + RECORD_BYTES * (list.len() / TOKEN_BYTES) + TRAILER_BYTES;
            let save = Call::save(&text, &list, flag, needed - reasons.contains(&3) as usize);
            match first(&ORDER, &reasons, needed) {
                Some(refusal) => tally.expect(save, refusal, &[]),
                None => tally.expect(save, reading::answer(0, 0, needed), &unchecked(&text, &tokens, 0)),
            }
            tally.list(&text, &list, flag);
        }
    }
    println!("every set of a writer's reasons to refuse: {}", tally.having(&[0, 1, 2, 3, 8]));
}

/// From none to more than enough, byte by byte. What is lent is filled from its front or not at all.
#[test]
fn every_room() {
    let mut r = Random(0x7F4A7C15F39CC060);
    let n = texts::how_many(100);
    let mut tally = Tally::default();
    for _ in 0..n {
        let (text, list, flag) = short(&mut r);
        let needed = text.len() + RECORD_BYTES * list.len() / TOKEN_BYTES + TRAILER_BYTES;
        let saves: Vec<Call> = (0..needed + 30).map(|lent| Call::save(&text, &list, flag, lent)).collect();
        let answers = tally.ask(&saves);
        assert!(answers.iter().enumerate().all(|(lent, answer)| answer.answer >> 56 == if lent < needed { 3 } else { 0 }));
        let file = &answers[needed].memory[..needed];
        let loads: Vec<Call> = (0..list.len() + 30).map(|lent| Call::load(file, lent)).collect();
        let answers = tally.ask(&loads);
        assert!(answers.iter().enumerate().all(|(lent, answer)| answer.answer >> 56 == if lent < list.len() { 3 } else { 0 }));
    }
    println!("{n} short lists and their files with every room: {}", tally.having(&[0, 3]));
}

/// Trailers with large numbers before and after which there is little: no sum or product of them may begin anew at 2^32.
#[test]
fn large_numbers() {
    let mut numbers: Vec<u32> = (0..=32).map(|bits| (1_u64 << bits) as u32).chain([3 << 30, 1_000_000]).collect();
    numbers = numbers.iter().flat_map(|number| [number.wrapping_sub(4), number.wrapping_sub(1), *number, number.wrapping_add(1)]).collect();
    numbers.sort();
    numbers.dedup();
    let mut tally = Tally::default();
    for (front, flag) in [0, 1, 4, 5, 8, 12, 20].into_iter().flat_map(|front| [0, 1].map(|flag| (front, flag))) {
        let bytes = &b"abcd\x04\x01\x00\x00\x04\x02\x00\x00\x04\x03\x00\x00\x04\x04\x00\x00"[20 - front..];
        let mut pairs: Vec<(u32, u32)> = numbers.iter().flat_map(|offset| numbers.iter().map(|count| (*offset, *count))).collect();
        // All that would fit but for the bits that 32 have no room for.
        for offset in 0..=40_u32 {
            let quarter = (front as u32).wrapping_sub(offset) >> 2;
            pairs.extend([0, 1 << 30, 1 << 31, 3 << 30].map(|high| (offset, quarter | high)));
        }
        for (offset, count) in pairs {
            tally.file(&[bytes, &offset.to_le_bytes(), &count.to_le_bytes(), &[flag, 1, 0, 0]].concat());
        }
    }
    println!("large offsets and counts: {}", tally.having(&[0, 1, 8]));
}

/// Around the size limit: one token, a token a byte, none, and tokens up to half of the text or from there on; full and partial.
#[test]
fn sizes() {
    let mut tally = Tally::default();
    for length in AROUND_THE_LIMIT {
        let text = vec![b'a'; length];
        let (end, half) = (length as u32, length as u32 / 2);
        let every_byte: Vec<Triple> = (0..end).map(|at| (1 + at % 38, at, at + 1)).collect();
        for tokens in [&[(5, 0, end)][..], &every_byte, &[], &[(47, 0, half)], &[(47, 0, half), (1, half, end)]] {
            for flag in [0, 1] {
                tally.list(&text, &reading::packed(tokens), flag as u32);
                tally.file(&unchecked(&text, tokens, flag));
            }
        }
    }
    println!("texts of {AROUND_THE_LIMIT:?} bytes: {}", tally.having(&[0, 1, 3, 8]));
}

/// What is read and written stands between two pages that cannot be read or written: first at the end of the one before, then at the start of the one
/// after. Who goes beyond is killed.
#[cfg(linked)]
mod fenced {
    use super::*;
    use host::linked;
    use std::ffi::c_int;

    extern "C" {
        fn mmap(at: *mut u8, bytes: usize, may: c_int, flags: c_int, file: c_int, offset: i64) -> *mut u8;
        fn mprotect(at: *mut u8, bytes: usize, may: c_int) -> c_int;
    }

    const NOTHING: c_int = 0;
    const READ_AND_WRITE: c_int = 3;
    const OF_NO_FILE: c_int = 0x22;

    /// A number of bytes that every page's size divides.
    const PAGES: usize = 1 << 16;

    /// PAGES bytes between two fences.
    struct Field(*mut u8);

    impl Field {
        fn new() -> Field {
            let memory = unsafe { mmap(std::ptr::null_mut(), 3 * PAGES, READ_AND_WRITE, OF_NO_FILE, -1, 0) };
            assert_ne!(memory as isize, -1);
            for fence in [memory, memory.wrapping_add(2 * PAGES)] {
                assert_eq!(unsafe { mprotect(fence, PAGES, NOTHING) }, 0);
            }
            Field(memory.wrapping_add(PAGES))
        }

        /// Some bytes, copied to where the field ends or begins.
        fn holding(&mut self, bytes: &[u8], at_its_end: bool) -> &mut [u8] {
            let start = if at_its_end { self.0.wrapping_add(PAGES - bytes.len()) } else { self.0 };
            assert!(bytes.len() <= PAGES);
            unsafe {
                start.copy_from_nonoverlapping(bytes.as_ptr(), bytes.len());
                std::slice::from_raw_parts_mut(start, bytes.len())
            }
        }
    }

    #[test]
    fn nothing_beyond_what_is_lent() {
        let mut r = Random(0xBB67AE8584CAA73B);
        let n = texts::how_many(20_000);
        let mut fields = [(); 3].map(|_| Field::new());
        let mut tally = Tally::default();
        for i in 0..n {
            let (text, mut list, flag) = short(&mut r);
            let mut file = saved::written(&text, &list, flag).expect("a sound list");
            let (mut room_of_file, mut room_of_list) = (file.len(), list.len());
            if i % 4 > 0 {
                (list, file) = (texts::spoilt(&mut r, &list), texts::spoilt(&mut r, &file));
                (room_of_file, room_of_list) = (r.below(room_of_file + 2), r.below(room_of_list + 2));
            }
            let calls = [Call::save(&text, &list, flag, room_of_file), Call::load(&file, room_of_list), Call::read(Op::SavedText, 0, &file)];
            for (call, at_its_end) in calls.iter().flat_map(|call| [true, false].map(|at_its_end| (call, at_its_end))) {
                let mut fields = fields.iter_mut().zip([call.text, call.list, &call.memory[..call.lent]]);
                let [text, list, lent] = [(); 3].map(|_| fields.next().map(|(field, bytes)| field.holding(bytes, at_its_end)).unwrap());
                let answer = match call.op {
                    Op::Save => linked::save(text, list, call.mode, lent),
                    Op::Load => linked::load(text, lent),
                    _ => linked::saved_text(text),
                };
                let want = saved::answer(call);
                assert!(answer == want.answer && lent == &want.memory[..call.lent], "{call:?}: {answer:016x}");
                tally.add(answer);
            }
        }
        println!("{n} lists and files between pages that cannot be read: {}", tally.having(&[0, 1, 2, 3, 8, 9]));
    }
}

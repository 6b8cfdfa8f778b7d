//! The texts that are measured, each of a given number of bytes and made from a seed.
use crate::sql;
use host::Random;

/// A text's name, and what makes it: as a String, or as bytes that may be damaged.
pub type Text<T = String> = (&'static str, fn(&mut Random, usize) -> T);

pub const TEXTS: [Text; 13] = [
    ("SQL", |r, size| fitted(String::new(), size, || sql::statement(r))),
    ("one long ASCII string", |r, size| closed("'", size, "'", || format!("{} ", ascii(r, 12)))),
    ("one long Hebrew string", |r, size| closed("'", size, "'", || format!("{} ", letters(r, 'א'..='ת', 9)))),
    ("white space", |r, size| fitted(String::new(), size, || format!("\n{}", r.one_of(&[" ", "  ", "\t"]).repeat(r.below(12))))),
    ("words", |r, size| fitted(String::new(), size, || format!("{} ", word(r, 10)))),
    ("one long word", |r, size| closed("a", size, "", || word(r, 10))),
    ("one word of Arabic letters after an ASCII one", |r, size| closed("a", size, "", || letters(r, 'ب'..='غ', 9))),
    ("short words of Arabic letters after an ASCII one", |r, size| short_words(size, || letters(r, 'ب'..='غ', 5))),
    ("operators", operators),
    ("numbers", |r, size| fitted(String::new(), size, || format!("{}{}", number(r), r.one_of(&[" ", ",", ", ", ")"])))),
    ("line comments", |r, size| fitted(String::new(), size, || format!("--{}\n", phrase(r, 16)))),
    ("nested comments", |r, size| fitted(String::new(), size, || format!("{}\n", comment(r, 6)))),
    ("here-documents", |r, size| fitted(String::new(), size, || here_document(r))),
];

/// Texts of one thing, or of a few, again and again. Words have a space between them.
pub const REPEATED: [Text; 18] = [
    ("`'a' 'a' 'a'`", |_, size| again(size, "'a' ")),
    ("`'a''a''a'`, one string", |_, size| again(size, "'a'")),
    ("`--` and a line feed", |_, size| again(size, "--\n")),
    ("only `$`", |_, size| again(size, "$")),
    ("`$ $ $`", |_, size| again(size, "$ ")),
    ("random tags of 3 bytes", |r, size| tags(r, size, 3)),
    ("Arabic words, outside literals", |r, size| fitted(String::new(), size, || format!("{} ", letters(r, 'ب'..='غ', 9)))),
    ("Hebrew words, outside literals", |r, size| fitted(String::new(), size, || format!("{} ", letters(r, 'א'..='ת', 9)))),
    ("Cyrillic words, outside literals", |r, size| fitted(String::new(), size, || format!("{} ", letters(r, 'а'..='я', 9)))),
    ("Georgian words, outside literals", |r, size| fitted(String::new(), size, || format!("{} ", letters(r, 'ა'..='ჰ', 9)))),
    ("CJK words, outside literals", |r, size| fitted(String::new(), size, || format!("{} ", letters(r, '一'..='龥', 4)))),
    ("words like `a1b2c3`", |r, size| fitted(String::new(), size, || format!("{} ", mixed_word(r, 5)))),
    ("numbers of every form, in turn", numbers_in_turn),
    ("numbers of every form, at random", |r, size| fitted(String::new(), size, || format!("{} ", number_of(r.below(FORMS), r)))),
    ("short line comments", |r, size| fitted(String::new(), size, || format!("--{}\n", ascii(r, 4)))),
    ("short block comments", |r, size| fitted(String::new(), size, || format!("/*{}*/", ascii(r, 4)))),
    ("short comments of both kinds", |r, size| fitted(String::new(), size, || short_comment(r))),
    ("short here-documents", |r, size| fitted(String::new(), size, || short_here_document(r))),
];

/// Words that begin with an ASCII letter and go on with characters for which the table of classes is made.
pub const LOOKED_UP: [Text; 14] = [
    ("short words of Devanagari letters", |r, size| short_words(size, || letters(r, 'ऄ'..='ह', 5))),
    ("short words of Georgian letters", |r, size| short_words(size, || letters(r, 'ა'..='ჰ', 5))),
    ("short words of CJK letters", |r, size| short_words(size, || letters(r, '一'..='龥', 5))),
    ("short words of Hangul letters", |r, size| short_words(size, || letters(r, '가'..='힣', 5))),
    ("short words of Thai letters", |r, size| short_words(size, || letters(r, 'ก'..='ะ', 5))),
    ("short words of Tamil letters", |r, size| short_words(size, || some_of(r, &TAMIL, 5))),
    ("short words of Greek letters", |r, size| short_words(size, || letters(r, 'α'..='ω', 5))),
    ("short words of letters of every script", every_script),
    ("short words of digits of other scripts", |r, size| short_words(size, || some_of(r, &DIGITS, 5))),
    ("one word of Devanagari letters", |r, size| closed("a", size, "", || letters(r, 'ऄ'..='ह', 9))),
    ("one word of Georgian letters", |r, size| closed("a", size, "", || letters(r, 'ა'..='ჰ', 9))),
    ("one word of CJK letters", |r, size| closed("a", size, "", || letters(r, '一'..='龥', 9))),
    ("one word of Tamil letters", |r, size| closed("a", size, "", || some_of(r, &TAMIL, 9))),
    ("one word of digits of other scripts", |r, size| closed("a", size, "", || some_of(r, &DIGITS, 9))),
];

/// Texts that matter to places alone.
pub const LINES: [Text; 3] = [
    ("Hebrew in one line", |r, size| fitted(String::new(), size, || letters(r, 'א'..='ת', 9) + r.one_of(&[" ", " ", " ", ", ", ". "]))),
    ("CR LF lines", |r, size| fitted(String::new(), size, || sql::statement(r).replace('\n', "\r\n"))),
    ("emoji", |r, size| fitted(String::new(), size, || letters(r, '\u{1F600}'..='\u{1F64F}', 9) + " ")),
];

/// A group of texts, with its name.
pub type Group<T = String> = (&'static str, &'static [Text<T>]);

pub const GROUPS: [Group; 4] =
    [("texts", &TEXTS), ("one thing again and again", &REPEATED), ("words by the table of classes", &LOOKED_UP), ("lines and columns", &LINES)];

/// Goes on with pieces to a number of bytes. The last piece is cut at a character's edge, and spaces fill up what is left.
pub fn fitted(mut text: String, size: usize, mut piece: impl FnMut() -> String) -> String {
    while text.len() < size {
        text += &piece();
    }
    text.truncate(text.floor_char_boundary(size));
    let missing = size - text.len();
    text + &" ".repeat(missing)
}

/// One piece, to a number of bytes.
fn again(size: usize, piece: &str) -> String {
    fitted(piece.repeat(size / piece.len()), size, || piece.into())
}

/// One token: its opening, as many pieces as fit, `x` for what is left, and its closing.
fn closed(open: &str, size: usize, close: &str, mut piece: impl FnMut() -> String) -> String {
    let mut text = open.to_string();
    loop {
        let more = piece();
        if text.len() + more.len() + close.len() > size {
            return text.clone() + &"x".repeat(size - close.len() - text.len()) + close;
        }
        text += &more;
    }
}

/// One to `most` characters of a range.
pub fn letters(r: &mut Random, range: std::ops::RangeInclusive<char>, most: usize) -> String {
    let (first, last) = (*range.start() as u32, *range.end() as u32);
    (0..1 + r.below(most)).map(|_| char::from_u32(first + r.below((last - first + 1) as usize) as u32).unwrap()).collect()
}

/// One to `most` of some characters.
fn some_of(r: &mut Random, characters: &[char], most: usize) -> String {
    (0..1 + r.below(most)).map(|_| r.one_of(characters)).collect()
}

/// Words of an ASCII letter and what follows it.
fn short_words(size: usize, mut rest: impl FnMut() -> String) -> String {
    fitted(String::new(), size, || format!("a{} ", rest()))
}

/// The consonants, which stand in several ranges with gaps between.
#[rustfmt::skip]
const TAMIL: [char; 23] = [
    'க', 'ங', 'ச', 'ஜ', 'ஞ', 'ட', 'ண', 'த', 'ந', 'ன', 'ப', 'ம', 'ய', 'ர', 'ற', 'ல', 'ள', 'ழ', 'வ', 'ஶ', 'ஷ', 'ஸ', 'ஹ',
];

/// Devanagari, Arabic, Thai and fullwidth ones.
#[rustfmt::skip]
const DIGITS: [char; 40] = [
    '०', '१', '२', '३', '४', '५', '६', '७', '८', '९', '٠', '١', '٢', '٣', '٤', '٥', '٦', '٧', '٨', '٩',
    '๐', '๑', '๒', '๓', '๔', '๕', '๖', '๗', '๘', '๙', '０', '１', '２', '３', '４', '５', '６', '７', '８', '９',
];

/// Letters from U+0250 on. Each run of them is as likely as another: by their codes, three of four would be CJK or Hangul.
fn every_script(r: &mut Random, size: usize) -> String {
    let letters: Vec<char> = ('\u{250}'..=char::MAX).filter(|c| c.is_alphabetic()).collect();
    let runs: Vec<&[char]> = letters.chunk_by(|a, b| *a as u32 + 1 == *b as u32).collect();
    let letter = |r: &mut Random| {
        let run = r.one_of(&runs);
        r.one_of(run)
    };
    short_words(size, || (0..1 + r.below(5)).map(|_| letter(r)).collect())
}

/// Small letters.
fn ascii(r: &mut Random, most: usize) -> String {
    letters(r, 'a'..='z', most)
}

/// A word of ASCII, of small letters mostly.
fn word(r: &mut Random, most: usize) -> String {
    let mut text = ascii(r, most);
    match r.below(8) {
        0 => text = text.to_uppercase(),
        1 => text += &format!("_{}", r.below(100)),
        2 => text += &letters(r, 'A'..='Z', 3),
        _ => {}
    }
    text
}

/// Words with spaces before them.
fn phrase(r: &mut Random, most: usize) -> String {
    (0..r.below(most)).map(|_| format!(" {}", word(r, 8))).collect()
}

/// No comment begins by chance.
fn operators(r: &mut Random, size: usize) -> String {
    #[rustfmt::skip]
    const OPERATORS: [&str; 30] = [
        "(", ")", "[", "]", "{", "}", ",", ";", ".", "*", "+", "-", "->", "/", "%", "?", ":", "::", "^", "=", "==", "!=", "<", "<=", "<=>",
        "<>", ">", ">=", "||", "@@",
    ];
    let mut last = "";
    fitted(String::new(), size, || {
        let mut next = r.one_of(&OPERATORS);
        while (last == "-" && next.starts_with('-')) || (last == "/" && next == "*") {
            next = r.one_of(&OPERATORS);
        }
        last = next;
        next.to_string()
    })
}

fn number(r: &mut Random) -> String {
    match r.below(8) {
        0..=2 => r.below(100).to_string(),
        3 => r.next().to_string(),
        4 => format!("{}.{}", r.below(10_000), r.below(1000)),
        5 => format!("{}.{}e+{}", r.below(10), r.below(100), r.below(300)),
        6 => format!("0x{:x}", r.below(1 << 32)),
        _ => format!("{}_{:03}", 10 + r.below(900), r.below(1000)),
    }
}

fn comment(r: &mut Random, depth: usize) -> String {
    let mut text = format!("/*{}", phrase(r, 5));
    for _ in 0..r.below(3).min(depth) {
        text += &format!(" {}{}", comment(r, depth - 1), phrase(r, 4));
    }
    text + " */"
}

/// A body may hold a `$` and other tags.
fn here_document(r: &mut Random) -> String {
    let tag = if r.below(2) == 0 { String::new() } else { word(r, 6) };
    let other = if r.below(4) == 0 { r.one_of(&[" $1", " $", " $other$", " $5.00"]) } else { "" };
    format!("${tag}${}{other}{} ${tag}$,\n", phrase(r, 12), phrase(r, 12))
}

/// The bytes of a tag, letters first: a tag that starts with a digit would be read as a number, which takes each later `$` with it.
pub const TAG_BYTES: &str = "abcdefghijklmnopqrstuvwxyzABCDEFGHIJKLMNOPQRSTUVWXYZ0123456789_";

/// One of a tag's first some bytes.
pub fn tag_byte(r: &mut Random, among: usize) -> &'static str {
    let at = r.below(among);
    &TAG_BYTES[at..at + 1]
}

/// Tags of random bytes, but for the first, which is a letter.
pub fn tags(r: &mut Random, size: usize, length: usize) -> String {
    fitted(String::new(), size, || (1..length).fold(format!("${}", tag_byte(r, 52)), |tag, _| tag + tag_byte(r, 63)))
}

/// Letters with a digit after each.
fn mixed_word(r: &mut Random, most: usize) -> String {
    (0..1 + r.below(most)).map(|_| format!("{}{}", ascii(r, 1), r.below(10))).collect()
}

/// How many forms of numbers there are.
const FORMS: usize = 6;

/// A number of one form: plain, decimal, with an exponent, hexadecimal, with `_`, binary.
fn number_of(form: usize, r: &mut Random) -> String {
    match form {
        0 => r.below(100_000).to_string(),
        1 => format!("{}.{}", r.below(1000), r.below(1000)),
        2 => format!("{}e-{}", 1 + r.below(99), r.below(30)),
        3 => format!("0x{:x}", r.below(1 << 24)),
        4 => format!("{}_{:03}", 1 + r.below(999), r.below(1000)),
        _ => format!("0b{:b}", r.below(1 << 8)),
    }
}

/// A number of each form, always in the same order.
fn numbers_in_turn(r: &mut Random, size: usize) -> String {
    let mut forms = (0..FORMS).cycle();
    fitted(String::new(), size, || format!("{} ", number_of(forms.next().unwrap(), r)))
}

fn short_comment(r: &mut Random) -> String {
    let body = ascii(r, 4);
    if r.below(2) == 0 {
        format!("--{body}\n")
    } else {
        format!("/*{body}*/")
    }
}

fn short_here_document(r: &mut Random) -> String {
    let tag: String = (0..r.below(3)).map(|_| tag_byte(r, 52)).collect();
    format!("${tag}${}${tag}$ ", ascii(r, 4))
}

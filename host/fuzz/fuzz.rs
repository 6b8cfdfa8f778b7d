//! One input of ./fuzz: what the C functions answer about a text, held to the Rust and, where the Rust has no answer, to the second reading; and
//! about saved lists, held to the second program.
use host::saved::{self, RECORD_BYTES, TRAILER_BYTES};
use host::{compare, compared, oracle, protocol, reading, texts, Answer, Call, Op, Random, Triple, TOKEN_BYTES};
use std::sync::OnceLock;

extern "C" {
    fn mmap(at: *mut u8, len: usize, protection: i32, flags: i32, file: i32, offset: i64) -> *mut u8;
    fn mprotect(at: *mut u8, len: usize, protection: i32) -> i32;
}

/// How long a text of up to 65,536 bytes, its file or its packed list may be: whole pages on any machine.
const ROOM: usize = 1 << 20;

/// The address of a page without access, before which ROOM bytes can be written.
fn fence() -> usize {
    const READ_WRITE: i32 = 3;
    const PRIVATE_ANONYMOUS: i32 = 0x22;
    let start = unsafe { mmap(std::ptr::null_mut(), 2 * ROOM, READ_WRITE, PRIVATE_ANONYMOUS, -1, 0) };
    assert!(start as isize != -1);
    let end = start.wrapping_add(ROOM);
    assert_eq!(unsafe { mprotect(end, ROOM, 0) }, 0);
    end as usize
}

/// Before one stands the input, before the other a file or a list that is made of it.
static OF_INPUT: OnceLock<usize> = OnceLock::new();
static OF_WHAT_IS_MADE: OnceLock<usize> = OnceLock::new();

/// Some bytes, moved to where a read past their end is a fault. They stay there until the next.
fn fenced<'a>(fenced_by: &OnceLock<usize>, bytes: &'a [u8]) -> &'a [u8] {
    assert!(bytes.len() <= ROOM);
    let start = (*fenced_by.get_or_init(fence) - bytes.len()) as *mut u8;
    unsafe {
        std::ptr::copy_nonoverlapping(bytes.as_ptr(), start, bytes.len());
        std::slice::from_raw_parts(start, bytes.len())
    }
}

/// A seed for the choices about a text, so that an input says all about its run.
fn seed(text: &[u8]) -> u64 {
    text.iter().fold(0xCBF29CE484222325, |hash: u64, byte| (hash ^ *byte as u64).wrapping_mul(0x100000001B3)) | 1
}

/// Both lists of the whole text, with no room, a byte too little, just enough, and a token for each byte.
fn whole_lists(text: &[u8], full: &[Triple]) {
    let lean = std::str::from_utf8(text).map_or(vec![], oracle::lean);
    for (mode, tokens) in [(0, full), (1, &lean)] {
        let enough = 12 * tokens.len();
        let calls = [0, enough.saturating_sub(1), enough, 12 * text.len()].map(|lent| Call::list(Op::List, mode, 0, text, lent));
        compare(&calls, calls.iter().map(|call| reading::listing(call, || tokens.to_vec())));
    }
    let no_mode = Call::list(Op::List, 2, 0, text, 12 * text.len());
    let want = reading::listing(&no_mode, || unreachable!());
    compare(&[no_mode], [want]);
}

/// Lists up to some edges, beside them, and up to the greatest position, with some room.
fn lists_up_to(text: &[u8], full: &[Triple], r: &mut Random) {
    let mut calls = vec![];
    for mode in [0, 1] {
        let edge = if full.is_empty() { 0 } else { r.one_of(full).1 as u64 };
        let any = r.below(text.len() + 2) as u64;
        for position in [edge, edge + 1, r.one_of(&[any, u64::MAX])] {
            let lent = r.below(12 * full.len() + 13);
            calls.push(Call::list(Op::ListUpTo, mode, position, text, r.one_of(&[lent, 12 * text.len()])));
        }
    }
    compare(&calls, calls.iter().map(|call| reading::listing(call, || oracle::asked(call))));
}

/// Steps from some edges against the Rust, and from some offsets against the second reading.
fn steps(text: &[u8], r: &mut Random) {
    let edges = std::str::from_utf8(text).map_or(vec![], oracle::steps);
    for _ in 0..edges.len().min(40) {
        let (kind, start, end) = r.one_of(&edges);
        let answer = Answer { answer: reading::answer(0, kind, end as usize), memory: vec![] };
        compare(&[Call::read(Op::Step, start as u64, text)], [answer]);
    }
    for _ in 0..10 {
        let cursor = r.below(text.len() + 2) as u64;
        let answer = Answer { answer: reading::step(text, cursor), memory: vec![] };
        compare(&[Call::read(Op::Step, cursor, text)], [answer]);
    }
}

/// The masked copy with too little room, just enough and more; by the Rust, the copy has the text's tokens.
fn masks(text: &[u8], full: &[Triple]) {
    let calls = [text.len().saturating_sub(1), text.len(), text.len() + 5].map(|lent| Call::mask(text, lent));
    let answers = compared(&calls, calls.iter().map(|call| reading::mask(call, || full.to_vec())));
    if answers[1].answer >> 56 == 0 {
        let copy = std::str::from_utf8(&answers[1].memory[..text.len()]).expect("a copy that is UTF-8");
        assert_eq!(oracle::full(copy), full);
    }
}

/// Parts everywhere, against the second reading.
fn parts(text: &[u8], r: &mut Random) {
    for _ in 0..6 {
        let [start, end] = [(); 2].map(|_| r.below(text.len() + 2) as u64);
        let (kind, lent) = (r.below(50) as u32, r.one_of(&[text.len(), text.len(), text.len() + 1]));
        for call in [Call::token_text(text, start, end), Call::shown_text(text, lent, kind, start, end)] {
            let (answer, memory) = (reading::part(&call), call.memory.clone());
            compare(&[call], [Answer { answer, memory }]);
        }
    }
}

/// Places everywhere, against the second reading, and that against the protocol.
fn places(text: &[u8], r: &mut Random) {
    let (mended, places) = (protocol::mended(text), reading::places(text));
    let lines = protocol::lines(&mended);
    for _ in 0..6 {
        let offset = r.below(text.len() + 2);
        if offset <= text.len() {
            assert_eq!(places[offset], protocol::place(&lines, offset));
        }
        let answer = Answer { answer: reading::place_of(text, offset as u64, &places), memory: vec![] };
        compare(&[Call::read(Op::Place, offset as u64, text)], [answer]);
    }
}

/// The first statement and its text, and those of what is left then, up to 20 times: against the Rust, or the second reading where it is not UTF-8.
fn statements(text: &[u8]) {
    let mut rest = text;
    for turn in 0..20 {
        if turn > 0 && rest.is_empty() {
            break;
        }
        let first = std::str::from_utf8(rest).map_or_else(|_| reading::statement(rest, &reading::full(rest)), oracle::first_statement);
        let answers = [reading::first_statement(rest, first), reading::statement_text(rest, first)];
        let calls = [Op::FirstStatement, Op::StatementText].map(|op| Call::read(op, 0, rest));
        compare(&calls, answers.map(|answer| Answer { answer, memory: vec![] }));
        rest = &rest[first.end..];
    }
}

/// The readers of a file, with a byte too little for its tokens, just enough, and more than it can have.
fn read_saved(file: &[u8]) {
    let file = fenced(&OF_WHAT_IS_MADE, file);
    let list = TOKEN_BYTES * saved::read(file).map_or(0, |saved| saved.tokens.len());
    let mut calls = [list.saturating_sub(1), list, 3 * file.len()].map(|lent| Call::load(file, lent)).to_vec();
    calls.push(Call::read(Op::SavedText, 0, file));
    compare(&calls, calls.iter().map(saved::answer));
}

/// Some bytes after edits of two bytes each: how far from their end, and what is there then.
fn edited(bytes: &[u8], edits: &[u8]) -> Vec<u8> {
    let mut bytes = bytes.to_vec();
    for edit in edits.chunks_exact(2) {
        if let Some(at) = bytes.len().checked_sub(1 + edit[0] as usize) {
            bytes[at] = edit[1];
        }
    }
    bytes
}

/// The input as a file. Then its first bytes as edits and the rest as a text: the writer of its list, whole or partial, and the readers of its file,
/// as these are, edited, and spoilt by what the input's seed chooses.
fn saved_lists(input: &[u8], r: &mut Random) {
    read_saved(input);
    let (edits, text) = input.split_at(input.len().min(6));
    let flag = r.one_of(&[0, 0, 1, 1, 2, 256]);
    let mut tokens = std::str::from_utf8(text).map_or_else(|_| texts::invented(r, text.len(), true), oracle::full);
    if flag == 1 {
        tokens.truncate(r.below(tokens.len() + 1));
    }
    let right = reading::packed(&tokens);
    for list in [&right, &edited(&right, edits), &texts::spoilt(r, &right)] {
        let list = fenced(&OF_WHAT_IS_MADE, list);
        let needed = text.len() + RECORD_BYTES * (list.len() / TOKEN_BYTES) + TRAILER_BYTES;
        let calls = [needed - 1, needed, needed + 5].map(|lent| Call::save(text, list, flag, lent));
        compare(&calls, calls.iter().map(saved::answer));
    }
    if let Ok(file) = saved::written(text, &right, flag) {
        [&file, &edited(&file, edits), &texts::spoilt(r, &file)].iter().for_each(|file| read_saved(file));
    }
}

/// All of these, or of a long text one, since the Rust takes the square of its length where it has many dollar signs.
fn try_text(text: &[u8]) {
    let mut r = Random(seed(text));
    let full = std::str::from_utf8(text).map_or(vec![], oracle::full);
    let only = (text.len() > 1000).then_some(r.below(6));
    let tried = |part| only.is_none_or(|only| only == part);
    if tried(0) {
        whole_lists(text, &full);
    }
    if tried(1) {
        lists_up_to(text, &full, &mut r);
    }
    if tried(2) {
        steps(text, &mut r);
        parts(text, &mut r);
        places(text, &mut r);
    }
    if tried(3) {
        masks(text, &full);
    }
    if tried(4) {
        statements(text);
    }
    if tried(5) {
        saved_lists(text, &mut r);
    }
}

/// What libFuzzer calls. A difference panics, which ends the run.
///
/// # Safety
/// `data` is the start of `len` bytes.
#[no_mangle]
pub unsafe extern "C" fn LLVMFuzzerTestOneInput(data: *const u8, len: usize) -> i32 {
    try_text(fenced(&OF_INPUT, unsafe { std::slice::from_raw_parts(data, len) }));
    0
}

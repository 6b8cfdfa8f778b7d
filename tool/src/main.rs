//! ./giehtamun: lists, masks or shows the SQL in a file, prints its statements, or saves its list. help.txt says how.
mod list;
mod page;
mod saved;
mod show;
mod unseen;

use giehtamun::{First, MAX_QUERY_SIZE, Place, Refusal, Token, first_statement, place, statements, step};
use std::ffi::{OsStr, OsString};
use std::fs::File;
use std::io::{self, ErrorKind, Read, Write, stdin, stdout};
use std::process::ExitCode;

/// A command that help.txt has.
enum Command<'a> {
    List { lean: bool },
    Mask,
    Show { html: bool },
    First { all: bool, end: u8 },
    Save { out: &'a OsStr },
    Open,
}

/// The command and the file that the words of a call name.
fn command(words: &[OsString]) -> Option<(Command<'_>, &OsStr)> {
    let (options, names): (Vec<&OsString>, Vec<&OsString>) =
        words.iter().partition(|word| word.to_str().is_some_and(|w| w.starts_with("--")));
    let [name, file, more @ ..] = &names[..] else { return None };
    let options: Vec<&str> = options.into_iter().filter_map(|word| word.to_str()).collect();
    let command = match (name.to_str()?, &options[..], more) {
        ("list", [], []) => Command::List { lean: false },
        ("list", ["--lean"], []) => Command::List { lean: true },
        ("mask", [], []) => Command::Mask,
        ("show", [], []) => Command::Show { html: false },
        ("show", ["--html"], []) => Command::Show { html: true },
        ("first", [], []) => Command::First { all: false, end: b'\n' },
        ("first", ["--null"], []) => Command::First { all: false, end: 0 },
        ("first", ["--all"], []) => Command::First { all: true, end: b'\n' },
        ("first", ["--all", "--null"] | ["--null", "--all"], []) => Command::First { all: true, end: 0 },
        ("save", [], [out]) => Command::Save { out },
        ("open", [], []) => Command::Open,
        _ => return None,
    };
    Some((command, file))
}

/// The bytes of a file; of one that is longer than it may be, one byte more than that.
fn read(file: &OsStr, most: usize) -> io::Result<Vec<u8>> {
    let from: Box<dyn Read> = if file == "-" { Box::new(stdin()) } else { Box::new(File::open(file)?) };
    let mut bytes = vec![];
    from.take(most as u64 + 1).read_to_end(&mut bytes)?;
    Ok(bytes)
}

/// A text that has a list, and what makes lines or a page of the two.
fn with_list(text: &[u8], tokens: Vec<Token>, made: impl FnOnce(&str, Vec<Token>) -> String) -> Vec<u8> {
    made(str::from_utf8(text).expect("a text that has a list"), tokens).into_bytes()
}

/// Statements byte for byte, each without its delimiter and with a byte after it.
fn ended<'a>(statements: impl Iterator<Item = First<'a>>, end: u8) -> Vec<u8> {
    statements.flat_map(|statement| [statement.part, &[end]].concat()).collect()
}

/// What a command makes of a text, or of a saved file.
fn made(command: &Command, name: &str, text: &[u8]) -> Result<Vec<u8>, Refusal> {
    Ok(match *command {
        Command::List { lean: false } => with_list(text, giehtamun::list(text)?, list::lines),
        Command::List { lean: true } => with_list(text, giehtamun::list_lean(text)?, list::lines),
        Command::Mask => giehtamun::mask(text)?,
        Command::Show { html: false } => with_list(text, giehtamun::list(text)?, show::coloured),
        Command::Show { html: true } => with_list(text, giehtamun::list(text)?, |text, tokens| page::page(name, text, tokens)),
        Command::First { all: false, end } => ended([first_statement(text)?].into_iter(), end),
        Command::First { all: true, end } => ended(statements(text)?, end),
        Command::Save { .. } => giehtamun::save(text, &giehtamun::list(text)?, false)?,
        Command::Open => opened(name, text)?,
    })
}

/// The lines of a saved list. One line on standard error says where it is partial, since nothing else does.
fn opened(name: &str, file: &[u8]) -> Result<Vec<u8>, Refusal> {
    // Of a longer one the trailer was not read.
    let file = if file.len() > saved::LONGEST { &[] } else { file };
    let saved = giehtamun::load(file)?;
    if saved.partial {
        let end = saved.tokens.last().map_or(0, |token| token.end);
        let _ = writeln!(io::stderr(), "giehtamun: {name}: a partial list, which ends at byte {end} of {}", saved.text.len());
    }
    Ok(with_list(saved.text, saved.tokens, list::lines))
}

/// Bytes as they are written in documents, as `E2 80`.
fn hex(bytes: &[u8]) -> String {
    bytes.iter().map(|byte| format!("{byte:02X}")).collect::<Vec<_>>().join(" ")
}

/// Why a text is refused, with a place as `list` counts it; of what is not UTF-8 the bytes that an editor shows as one replacement mark.
fn reason(refusal: Refusal, text: &[u8]) -> String {
    match refusal {
        Refusal::NotUtf8 { valid } => {
            let Place { line, column } = place(text, valid).expect("a place in a text that is not too long");
            // Where no character begins, the token is the broken one, whatever stands before it.
            let broken = step(text, valid).expect("a cursor in a text that is not too long");
            format!("not UTF-8 at byte {valid} ({}), line {}, column {} in UTF-16 units", hex(&text[broken.range()]), line + 1, column + 1)
        }
        other => other.to_string(),
    }
}

/// A file's name in a message.
fn named(file: &OsStr, stream: &str) -> String {
    if file == "-" { stream.to_string() } else { unseen::on_a_line(&file.to_string_lossy()) }
}

/// Runs a command; the status and the reason where it fails.
fn run(words: &[OsString]) -> Result<(), (u8, String)> {
    let (command, file) = command(words).ok_or((2, "no such command: ./giehtamun --help says which there are".to_string()))?;
    let name = named(file, "standard input");
    let failed = |why: String| (1, format!("{name}: {why}"));
    let most = if matches!(command, Command::Open) { saved::LONGEST } else { MAX_QUERY_SIZE };
    let bytes = read(file, most).map_err(|error| failed(error.to_string()))?;
    let out = made(&command, &name, &bytes).map_err(|refusal| match (&command, refusal) {
        // By the trailer, whatever else there is.
        (Command::Open, Refusal::TooLong) => failed(format!("no saved list, or one of a text {refusal}")),
        (Command::Open, _) => failed(reason(refusal, saved::front(&bytes))),
        _ => failed(reason(refusal, &bytes)),
    })?;
    match command {
        Command::Save { out: to } if to != "-" => saved::write(file, to, &out).map_err(|error| (1, format!("{}: {error}", named(to, "")))),
        _ => print(&out).map_err(|error| (1, format!("standard output: {error}"))),
    }
}

/// A reader that has seen enough is no error.
fn print(out: &[u8]) -> io::Result<()> {
    stdout().write_all(out).and_then(|()| stdout().flush()).or_else(|error| if error.kind() == ErrorKind::BrokenPipe { Ok(()) } else { Err(error) })
}

fn main() -> ExitCode {
    let words: Vec<OsString> = std::env::args_os().skip(1).collect();
    match run(&words) {
        Ok(()) => ExitCode::SUCCESS,
        Err((status, why)) => {
            // Where even standard error is gone, the status still says that it failed.
            let _ = writeln!(io::stderr(), "giehtamun: {why}");
            ExitCode::from(status)
        }
    }
}

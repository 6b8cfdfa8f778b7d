//! A run of the tool: what it printed, what it said on standard error, and its status.
use std::io::Write;
use std::process::{Command, Stdio};

pub type Ran = (Vec<u8>, String, Option<i32>);

pub fn tool(words: &[&str]) -> Command {
    let mut command = Command::new(env!("CARGO_BIN_EXE_giehtamun"));
    command.args(words).stdin(Stdio::piped()).stdout(Stdio::piped()).stderr(Stdio::piped());
    command
}

/// A run with some bytes on standard input.
pub fn run(words: &[&str], input: &[u8]) -> Ran {
    let mut child = tool(words).spawn().unwrap();
    let (mut to, input) = (child.stdin.take().unwrap(), input.to_vec());
    // A tool that takes no more than it reads leaves the rest.
    let writer = std::thread::spawn(move || drop(to.write_all(&input)));
    let out = child.wait_with_output().unwrap();
    writer.join().unwrap();
    (out.stdout, String::from_utf8(out.stderr).unwrap(), out.status.code())
}

/// What a run prints that must go well, and say nothing.
pub fn prints_bytes(words: &[&str], input: &[u8]) -> Vec<u8> {
    let (out, said, status) = run(words, input);
    assert_eq!((said.as_str(), status), ("", Some(0)), "{words:?}, {}", input.escape_ascii());
    out
}

pub fn prints(words: &[&str], input: &[u8]) -> String {
    String::from_utf8(prints_bytes(words, input)).unwrap()
}

pub fn refuses(words: &[&str], input: &[u8], says: &str, status: i32) {
    assert_eq!(run(words, input), (vec![], format!("giehtamun: {says}\n"), Some(status)), "{words:?}");
}

//! `save` and `open` as someone with files uses them.
mod ran;
mod stored;

use giehtamun::MAX_QUERY_SIZE;
use ran::{prints, prints_bytes, run};
use std::env;
use std::fs::{self, Permissions};
use std::io::Write;
use std::ops::Deref;
use std::os::unix::fs::{PermissionsExt, symlink};
use std::path::{Path, PathBuf};
use std::process::{self, Command, Stdio};

fn refuses(words: &[&str], input: &[u8], says: &str) {
    ran::refuses(words, input, says, 1);
}

/// An empty folder of a test's own, which goes with the test. It is outside of the checkout, in which `rt ci` takes no links.
struct Folder(PathBuf);

impl Deref for Folder {
    type Target = Path;

    fn deref(&self) -> &Path {
        &self.0
    }
}

impl Drop for Folder {
    fn drop(&mut self) {
        drop(fs::remove_dir_all(&self.0));
    }
}

fn folder(name: &str) -> Folder {
    let folder = env::temp_dir().join(format!("giehtamun-{name}-{}", process::id()));
    drop(fs::remove_dir_all(&folder));
    fs::create_dir(&folder).unwrap();
    Folder(folder)
}

fn names(folder: &Path) -> Vec<String> {
    let mut names: Vec<String> = fs::read_dir(folder).unwrap().map(|entry| entry.unwrap().file_name().into_string().unwrap()).collect();
    names.sort();
    names
}

/// A file made by hand: the text, a record for each of its three tokens, and the trailer with a flag.
fn by_hand(flag: u8) -> Vec<u8> {
    let records = [4, 1, 0, 0, 1, 2, 0, 0, 3, 3, 0, 0];
    [&b"a 1"[..], &records, &[3, 0, 0, 0], &[3, 0, 0, 0], &[flag, 1, 0, 0]].concat()
}

#[test]
fn saves_byte_for_byte() {
    assert_eq!(prints_bytes(&["save", "-", "-"], b"a 1"), by_hand(0));
    assert_eq!(prints_bytes(&["save", "-", "-"], b""), [0, 0, 0, 0, 0, 0, 0, 0, 0, 1, 0, 0]);
}

/// docs/SAVED.md has the bytes of docs/example.saved, each with what it says; both were made by hand.
#[test]
fn the_file_in_the_docs() {
    let page = include_str!("../../docs/SAVED.md");
    let block = page.split_once("```text\n").unwrap().1.split_once("```").unwrap().0;
    let bytes = |line: &str| line.split_once("  ").unwrap().0.split(' ').map(|hex| u8::from_str_radix(hex, 16).unwrap()).collect::<Vec<_>>();
    let file: Vec<u8> = block.lines().flat_map(bytes).collect();
    assert_eq!(file, include_bytes!("../../docs/example.saved"));
    assert_eq!(prints_bytes(&["save", "-", "-"], "x.1 <='é'".as_bytes()), file);
    assert_eq!(prints(&["open", concat!(env!("CARGO_MANIFEST_DIR"), "/../docs/example.saved")], b""), prints(&["list", "-"], "x.1 <='é'".as_bytes()));
}

/// What is opened prints as the text itself does.
#[test]
fn opens_as_it_lists() {
    let folder = folder("opens");
    let out = folder.join("query.saved");
    let out = out.to_str().unwrap();
    for text in stored::texts().chunks(400).map(|some| some.join("\r\n")) {
        assert_eq!(prints(&["save", "-", out], text.as_bytes()), "");
        assert_eq!(prints(&["open", out], b""), prints(&["list", "-"], text.as_bytes()));
        assert!(fs::read(out).unwrap().starts_with(text.as_bytes()));
    }
    assert_eq!(names(&folder), ["query.saved"]);
    assert_eq!(prints(&["open", "-"], &by_hand(0)), prints(&["list", "-"], b"a 1"));
}

#[test]
fn the_size_limit() {
    let text = [b'('; MAX_QUERY_SIZE];
    let file = prints_bytes(&["save", "-", "-"], &text);
    assert_eq!(file.len(), 5 * MAX_QUERY_SIZE + 12);
    assert_eq!(prints(&["open", "-"], &file), prints(&["list", "-"], &text));
    refuses(&["open", "-"], &[&file[..], &[0]].concat(), "standard input: no saved list, or no list that can be saved");
}

/// The lines are those that there are, and one more says that they are not all.
#[test]
fn opens_what_is_partial() {
    let list = prints(&["list", "-"], b"a 1");
    let all = (list.clone().into_bytes(), "giehtamun: standard input: a partial list, which ends at byte 3 of 3\n".to_string(), Some(0));
    assert_eq!(run(&["open", "-"], &by_hand(1)), all);
    let one = [&b"a 1\x04\x01\0\0"[..], &[3, 0, 0, 0, 1, 0, 0, 0, 1, 1, 0, 0]].concat();
    let first = list.split_inclusive('\n').next().unwrap().as_bytes().to_vec();
    assert_eq!(run(&["open", "-"], &one), (first, "giehtamun: standard input: a partial list, which ends at byte 1 of 3\n".to_string(), Some(0)));
}

/// A file that another program wrote may cut a character in two: it is opened as it stands.
#[test]
fn opens_a_list_that_cuts_a_character() {
    let file = [&"é;".as_bytes()[..], &[47, 1, 0, 0, 47, 2, 0, 0, 15, 3, 0, 0], &[3, 0, 0, 0, 3, 0, 0, 0, 0, 1, 0, 0]].concat();
    let lines = "\
ErrorToken           0..1        1:1     \"\u{FFFD}\"
ErrorToken           1..2        1:1     \"\u{FFFD}\"
Semicolon            2..3        1:2     \";\"
";
    assert_eq!(prints(&["open", "-"], &file), lines);
}

#[test]
fn refuses_what_is_no_saved_list() {
    let spoilt = |at: usize, byte: u8| {
        let mut file = by_hand(0);
        file[at] = byte;
        file
    };
    let end = by_hand(0).len();
    let malformed = "standard input: no saved list, or no list that can be saved";
    for file in [vec![], b"SELECT 1".to_vec(), by_hand(2), by_hand(0)[1..].to_vec(), spoilt(3, 39), spoilt(12, 4), spoilt(end - 1, 1)] {
        refuses(&["open", "-"], &file, malformed);
    }
    let no_version = "standard input: no saved list, or one of a version that is not known";
    refuses(&["open", "-"], &spoilt(end - 3, 2), no_version);
    // A query, for which the file beside it was meant.
    refuses(&["open", "-"], b"SELECT 'a' FROM b", no_version);
    refuses(&["open", "-"], &spoilt(end - 9, 1), "standard input: no saved list, or one of a text longer than 1000000 bytes");
    refuses(&["open", "-"], &spoilt(1, 0xC3), "standard input: not UTF-8 at byte 1 (C3), line 1, column 2 in UTF-16 units");
    // The broken character ends with the text, whatever byte the trailer begins with.
    let cut = [&[b'a'; 127][..], &[0xE2], &[128, 0, 0, 0, 0, 0, 0, 0, 1, 1, 0, 0]].concat();
    refuses(&["open", "-"], &cut, "standard input: not UTF-8 at byte 127 (E2), line 1, column 128 in UTF-16 units");
    refuses(&["open", "no/such"], b"", "no/such: No such file or directory (os error 2)");
}

/// OUT is replaced whole, keeps its permissions, and is followed where it is a link.
#[test]
fn replaces_what_is_there() {
    let folder = folder("replaces");
    let (out, link) = (folder.join("out"), folder.join("link"));
    fs::write(&out, [b'x'; 1000]).unwrap();
    fs::set_permissions(&out, Permissions::from_mode(0o600)).unwrap();
    symlink("out", &link).unwrap();
    prints(&["save", "-", link.to_str().unwrap()], b"a 1");
    assert_eq!(fs::read(&out).unwrap(), by_hand(0));
    assert_eq!(fs::metadata(&out).unwrap().permissions().mode() & 0o777, 0o600);
    assert!(fs::symlink_metadata(&link).unwrap().is_symlink());
    assert_eq!(names(&folder), ["link", "out"]);
}

/// Where it cannot be done, what is there stays, and nothing is left beside it.
#[test]
fn writes_whole_or_not_at_all() {
    let folder = folder("whole");
    let at = |name: &str| folder.join(name).to_str().unwrap().to_string();
    let (query, out) = (at("query.sql"), at("out"));
    fs::write(&query, "a 1").unwrap();
    fs::write(&out, "as it was").unwrap();
    refuses(&["save", "-", &out], b"a\xFF", "standard input: not UTF-8 at byte 1 (FF), line 1, column 2 in UTF-16 units");
    refuses(&["save", "-", &out], &[b' '; MAX_QUERY_SIZE + 1], "standard input: longer than 1000000 bytes");
    refuses(&["save", &at("none"), &out], b"", &format!("{}: No such file or directory (os error 2)", at("none")));
    refuses(&["save", &query, &at("no/out")], b"", &format!("{}: No such file or directory (os error 2)", at("no/out")));
    refuses(&["save", &query, &at("")], b"", &format!("{}: it is there and no file", at("")));
    refuses(&["save", &query, "/dev/null"], b"", "/dev/null: it is there and no file");
    refuses(&["save", &query, &query], b"", &format!("{query}: it is the query's own file"));
    // As standard input too.
    let mut shell = std::process::Command::new("sh");
    let ran = shell.args(["-c", "\"$0\" save - \"$1\" <\"$1\"", env!("CARGO_BIN_EXE_giehtamun"), &query]).output().unwrap();
    assert_eq!((String::from_utf8(ran.stderr).unwrap(), ran.status.code()), (format!("giehtamun: {query}: it is the query's own file\n"), Some(1)));
    symlink("nowhere", at("link")).unwrap();
    refuses(&["save", &query, &at("link")], b"", &format!("{}: No such file or directory (os error 2)", at("link")));
    fs::hard_link(&query, at("same")).unwrap();
    refuses(&["save", &query, &at("same")], b"", &format!("{}: it is the query's own file", at("same")));
    assert_eq!((fs::read(&out).unwrap(), fs::read(&query).unwrap()), (b"as it was".to_vec(), b"a 1".to_vec()));
    assert_eq!(names(&folder), ["link", "out", "query.sql", "same"]);
}

/// A file that may grow to so many bytes only: what is written beside it goes again.
#[test]
fn a_full_disk() {
    let folder = folder("full");
    let out = folder.join("out");
    fs::write(&out, "as it was").unwrap();
    // The shell's limit counts 512 bytes, or 1024, and the signal that comes with it is not the tool's to take.
    let script = "trap '' XFSZ; ulimit -f 1; exec \"$0\" save - \"$1\"";
    let mut child = Command::new("sh").args(["-c", script, env!("CARGO_BIN_EXE_giehtamun")]).arg(&out).stdin(Stdio::piped()).stderr(Stdio::piped()).spawn().unwrap();
    child.stdin.take().unwrap().write_all(&[b' '; 5000]).unwrap();
    let ran = child.wait_with_output().unwrap();
    let says = format!("giehtamun: {}: File too large (os error 27)\n", out.display());
    assert_eq!((String::from_utf8(ran.stderr).unwrap(), ran.status.code()), (says, Some(1)));
    assert_eq!((fs::read(&out).unwrap(), names(&folder)), (b"as it was".to_vec(), vec!["out".to_string()]));
}

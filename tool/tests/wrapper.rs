//! ./giehtamun, which builds the tool and runs it.
use std::process::{Command, Output};

const WRAPPER: &str = concat!(env!("CARGO_MANIFEST_DIR"), "/../giehtamun");

fn printed(out: &Output) -> (&str, &str, Option<i32>) {
    (str::from_utf8(&out.stdout).unwrap(), str::from_utf8(&out.stderr).unwrap(), out.status.code())
}

/// With no compiler at hand, so that help and a wrong command wait for no build.
#[test]
fn help_and_wrong_commands() {
    let run = |words: &[&str]| Command::new(WRAPPER).args(words).env("PATH", "/usr/bin:/bin").env_remove("HOME").output().unwrap();
    assert_eq!(printed(&run(&["--help"])), (include_str!("../help.txt"), "", Some(0)));
    for words in [&[][..], &["lists", "-"]] {
        let says = "giehtamun: no such command: ./giehtamun --help says which there are\n";
        assert_eq!(printed(&run(words)), ("", says, Some(2)));
    }
}

#[test]
fn from_another_folder() {
    let folder = concat!(env!("CARGO_MANIFEST_DIR"), "/../examples");
    let out = Command::new(WRAPPER).args(["list", "--lean", "query.sql"]).current_dir(folder).output().unwrap();
    let (list, said, status) = printed(&out);
    assert_eq!((said, status), ("", Some(0)));
    assert_eq!(list.lines().next(), Some("BareWord             46..52      2:1     \"SELECT\""));
}

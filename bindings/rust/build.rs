//! Links the library's archive: the one that GIEHTAMUN_ARCHIVE names, or the one that tools/archive proves and builds.
use std::env::var_os;
use std::path::{Path, PathBuf};
use std::process::{Command, Stdio};

fn built() -> PathBuf {
    let root = Path::new(&var_os("CARGO_MANIFEST_DIR").unwrap()).join("../..");
    // Of a crate's folder all but out/, into which the proof writes.
    let parts = |folder: PathBuf| ["src", "specs", "proofs"].map(|part| folder.join(part));
    let crates = root.join("crates").read_dir().expect("the crates of the repository, or GIEHTAMUN_ARCHIVE");
    let sources = crates.flat_map(|entry| parts(entry.unwrap().path())).filter(|part| part.exists());
    for source in sources.chain(["crates.txt", "tools/archive"].map(|file| root.join(file))) {
        println!("cargo::rerun-if-changed={}", source.display());
    }
    let mut command = Command::new(root.join("tools/archive"));
    let out = command.stderr(Stdio::inherit()).output().expect("tools/archive of the repository, or GIEHTAMUN_ARCHIVE");
    assert!(out.status.success(), "tools/archive builds no archive; GIEHTAMUN_ARCHIVE may name one");
    PathBuf::from(String::from_utf8(out.stdout).unwrap().trim_end())
}

fn main() {
    println!("cargo::rerun-if-env-changed=GIEHTAMUN_ARCHIVE");
    let archive = var_os("GIEHTAMUN_ARCHIVE").map_or_else(built, PathBuf::from);
    assert!(archive.is_absolute() && archive.is_file(), "GIEHTAMUN_ARCHIVE: {} is no absolute path of a file", archive.display());
    println!("cargo::rerun-if-changed={}", archive.display());
    println!("cargo::rustc-link-search=native={}", archive.parent().unwrap().display());
    println!("cargo::rustc-link-lib=static:+verbatim={}", archive.file_name().unwrap().display());
}

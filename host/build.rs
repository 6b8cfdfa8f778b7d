//! Finds the oracle's files below ORACLE_SRC, and links the archives of the library: those in the folder GIEHTAMUN_ARCHIVES, which are
//! for this machine, or, where the machine is x86-64, those of tools/archive. On another machine without that folder it links none.
use std::env::var;
use std::path::Path;

fn main() {
    println!("cargo::rustc-check-cfg=cfg(oracle)");
    println!("cargo::rustc-check-cfg=cfg(linked)");
    println!("cargo::rerun-if-env-changed=ORACLE_SRC");
    println!("cargo::rerun-if-env-changed=GIEHTAMUN_ARCHIVES");
    let root = format!("{}/..", var("CARGO_MANIFEST_DIR").unwrap());
    let source = var("ORACLE_SRC").unwrap_or(format!("{root}/../shared/docs/src"));
    let path = |name: &str| Path::new(&source).join("src").join(name);
    let files = ["lexer/token.rs", "lexer/tokenizer.rs", "parser/syntax_kind.rs"];
    let mut text = String::new();
    if files.iter().all(|f| path(f).exists()) {
        let [token, tokenizer, kind] = files.map(|f| path(f).canonicalize().unwrap());
        text = format!(
            "pub mod lexer {{ #[path = {token:?}] pub mod token; #[path = {tokenizer:?}] pub mod tokenizer; }}\n\
             pub mod parser {{ #[path = {kind:?}] pub mod syntax_kind; }}\n"
        );
        println!("cargo::rustc-cfg=oracle");
    }
    std::fs::write(format!("{}/oracle.rs", var("OUT_DIR").unwrap()), text).unwrap();
    let made = (var("CARGO_CFG_TARGET_ARCH").unwrap() == "x86_64").then(|| format!("{root}/target/staticlib"));
    if let Some(archives) = var("GIEHTAMUN_ARCHIVES").ok().or(made) {
        println!("cargo::rerun-if-changed={archives}");
        println!("cargo::rustc-link-search=native={archives}");
        println!("cargo::rustc-link-lib=static=probe");
        println!("cargo::rustc-link-lib=static=giehtamun");
        println!("cargo::rustc-cfg=linked");
    }
}

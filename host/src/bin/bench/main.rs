//! Times against the Rust's, in one run, as tables in Markdown. docs/BENCH.md says what is measured and how. Words choose rows (chosen.rs).
#[cfg(all(linked, oracle))]
mod chosen;
#[cfg(all(linked, oracle))]
mod damaged;
#[cfg(all(linked, oracle))]
mod hostile;
#[cfg(all(linked, oracle))]
mod ours;
#[cfg(all(linked, oracle))]
mod rust;
#[cfg(all(linked, oracle))]
mod saved;
#[cfg(all(linked, oracle))]
mod short;
#[cfg(all(linked, oracle))]
mod sql;
#[cfg(all(linked, oracle))]
mod statements;
#[cfg(all(linked, oracle))]
mod tables;
#[cfg(all(linked, oracle))]
mod texts;
#[cfg(all(linked, oracle))]
mod timing;

#[cfg(all(linked, oracle))]
fn main() {
    let chosen = &chosen::Chosen::by_words();
    let (all, three, first) = (&texts::GROUPS[..], &texts::GROUPS[..3], &texts::GROUPS[..1]);
    tables::table(chosen, "Full list", three, tables::full);
    tables::table(chosen, "Lean list", three, tables::lean);
    tables::table(chosen, "Masked copy", three, tables::mask);
    tables::table(chosen, "Steps from edge to edge", three, tables::steps);
    tables::table(chosen, "Steps over damaged text", &damaged::GROUPS, tables::damaged_steps);
    tables::table(chosen, "Place of the last byte", all, tables::place);
    tables::table(chosen, "Test for UTF-8 alone", first, tables::valid);
    short::table(chosen);
    statements::early(chosen);
    statements::none(chosen);
    statements::walks(chosen);
    saved::table(chosen);
    tables::growth(chosen);
    hostile::table(chosen);
}

#[cfg(not(linked))]
fn main() {
    eprintln!("bench: the archive is x86-64 code, and this machine would emulate it: a time measured so says nothing. ./bench compiles it");
    std::process::exit(1);
}

#[cfg(all(linked, not(oracle)))]
fn main() {
    eprintln!("bench: the Rust to measure against is not there: set ORACLE_SRC (README.md)");
    std::process::exit(1);
}

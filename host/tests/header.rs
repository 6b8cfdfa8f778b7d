//! The header's kinds are document 01's. That C and C++ compile it, and that a host in C can use it, tools/c-runs shows.
#[cfg(oracle)]
#[test]
fn the_kinds_are_the_oracles() {
    let header = include_str!("../../include/giehtamun.h");
    let kinds = header.split_once("GIEHTAMUN_NO_TOKEN = 0,").unwrap().1.split_once('}').unwrap().0;
    let snake = |name: String| name.chars().map(|c| if c.is_uppercase() { format!("_{c}") } else { c.to_uppercase().to_string() }).collect();
    let names: Vec<String> = host::oracle::KINDS.iter().map(|kind| snake(format!("{kind:?}"))).collect();
    let want: Vec<String> = names.iter().zip(1..).map(|(name, number)| format!("GIEHTAMUN{name} = {number}")).collect();
    assert_eq!(kinds.split(',').map(str::trim).collect::<Vec<_>>(), want);
}

//! The kinds are the header's, and every public item has an example.
use giehtamun::Kind;

#[test]
fn the_kinds_are_the_headers() {
    let header = include_str!("../../../include/giehtamun.h");
    let kinds = header.split_once("GIEHTAMUN_NO_TOKEN = 0,").unwrap().1.split_once('}').unwrap().0;
    let snake = |c: char| if c.is_uppercase() { format!("_{c}") } else { c.to_uppercase().to_string() };
    let name = |kind: &Kind| kind.name().chars().map(snake).collect::<String>();
    let want: Vec<String> = Kind::ALL.iter().map(|kind| format!("GIEHTAMUN{} = {}", name(kind), *kind as u32)).collect();
    assert_eq!(kinds.split(',').map(str::trim).collect::<Vec<_>>(), want);
}

/// "The hiding kinds: 2, 5, 7, 40 to 43."
#[test]
fn the_hiding_kinds() {
    let hiding: Vec<u32> = (0..300).filter(|number| Kind::from_number(*number).is_some_and(Kind::hides)).collect();
    assert_eq!(hiding, [2, 5, 7, 40, 41, 42, 43]);
}

#[test]
fn every_public_item_has_an_example() {
    let mut items = 0;
    for source in [include_str!("../src/lib.rs"), include_str!("../src/kind.rs"), include_str!("../src/refusal.rs"), include_str!("../src/saved.rs")] {
        let mut has_example = false;
        for line in source.lines().map(str::trim_start) {
            if line.starts_with("///") {
                has_example |= line.starts_with("/// ```");
            } else if ["pub fn", "pub const", "pub struct", "pub enum"].iter().any(|item| line.starts_with(item)) {
                assert!(has_example, "no example above {line}");
                (items, has_example) = (items + 1, false);
            } else if !line.starts_with("#[") {
                has_example = false;
            }
        }
    }
    assert!(items > 20, "{items}");
}

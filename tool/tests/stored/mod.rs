//! The texts of the stored answers, of which host/src/bin/answers.rs says the form.
use giehtamun::TOKEN_BYTES;

pub fn texts() -> Vec<&'static str> {
    let mut rest: &[u8] = include_bytes!("../../../crates/replay/data/answers");
    let mut texts = vec![];
    while !rest.is_empty() {
        let mut take = |n: usize| rest.split_off(..n).unwrap();
        let length = u32::from_le_bytes(take(4).try_into().unwrap());
        texts.push(std::str::from_utf8(take(length as usize)).unwrap());
        let count = u32::from_le_bytes(take(4).try_into().unwrap());
        take(TOKEN_BYTES * count as usize);
    }
    texts
}

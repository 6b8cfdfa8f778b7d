//! Writes texts to begin a fuzz run with, one a file, into a folder: seeds FOLDER BYTES. None is longer than that many bytes.
use host::{reading, saved, texts, Random};

/// Short tags, all different: in 4,096 bytes of them the library looks ahead, and 16,384 are too many for the tree with which it does.
fn tags(bytes: usize) -> String {
    let letter = |i: usize| b"ABCDEFGHIJKLMNOPQRSTUVWXYZabcdefghijklmnopqrstuvwxyz"[i % 52] as char;
    (0..bytes / 4).flat_map(|i| ['$', letter(i / 2704), letter(i / 52), letter(i)]).collect()
}

/// A text with its full list, as a saved file.
fn file(text: &str) -> Vec<u8> {
    let list = reading::packed(&reading::full(text.as_bytes()));
    saved::written(text.as_bytes(), &list, 0).expect("a list of the text")
}

fn main() {
    let usage = "usage: seeds FOLDER BYTES";
    let mut words = std::env::args().skip(1);
    let folder = words.next().expect(usage);
    let most: usize = words.next().and_then(|n| n.parse().ok()).expect(usage);
    let mut r = Random(0x9216D5D98979FB1B);
    for i in 0..600 {
        let mut text = match i % 60 {
            0 => texts::dollars(&mut r, most),
            30 => tags(most / 2 + r.below(most / 2)) + &texts::random(&mut r),
            // Most queries are too short for the blocks that the library lists by.
            n if n % 3 == 1 => texts::stretches(&mut r),
            // Nor have they many lines, or characters of three and four bytes.
            n if n % 6 == 5 => texts::lines(&mut r),
            _ => texts::random(&mut r),
        };
        text.truncate(text.floor_char_boundary(most));
        let mut text = match i % 8 {
            1 => texts::damaged(&mut r, &text),
            // A file has up to 5 bytes for each of its text, and 12 more.
            3 => file(&text[..text.floor_char_boundary(most / 6)]),
            5 => texts::cut(&mut r, text.as_bytes()),
            _ => text.into_bytes(),
        };
        text.truncate(most);
        std::fs::write(format!("{folder}/{i}"), text).expect("a folder to write into");
    }
}

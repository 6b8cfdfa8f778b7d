// What Rust's library says of every code point: its Unicode version, then a line for each class, its name and the bounds
// of its half-open ranges, first in, first out, and so on.
fn bounds(class: fn(char) -> bool) -> String {
    let mut inside = false;
    let mut line = String::new();
    for code in 0..=0x110000 {
        let now = char::from_u32(code).is_some_and(class);
        if now != inside {
            line += &format!(" {code}");
        }
        inside = now;
    }
    line
}

fn main() {
    let (major, minor, update) = char::UNICODE_VERSION;
    println!("version {major}.{minor}.{update}");
    println!("white_space{}", bounds(char::is_whitespace));
    println!("alphabetic{}", bounds(char::is_alphabetic));
    println!("numeric{}", bounds(char::is_numeric));
}

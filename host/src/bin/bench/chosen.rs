//! Which rows a run measures.

/// Words that a row must all have in its table's title or in its own name, in large or small letters. Without a word it is every row.
pub struct Chosen(Vec<String>);

impl Chosen {
    /// By the words that the program was started with.
    pub fn by_words() -> Chosen {
        Chosen(std::env::args().skip(1).map(|word| word.to_lowercase()).collect())
    }

    pub fn has(&self, title: &str, name: &str) -> bool {
        let both = format!("{title}, {name}").to_lowercase();
        self.0.iter().all(|word| both.contains(word))
    }

    /// Those of a table's rows, which are names with something each.
    pub fn of<T: Copy>(&self, title: &str, rows: &[(&'static str, T)]) -> Vec<(&'static str, T)> {
        rows.iter().copied().filter(|(name, _)| self.has(title, name)).collect()
    }
}

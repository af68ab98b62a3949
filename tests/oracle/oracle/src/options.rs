//! The words of a command line: `--name value`, and names that stand alone.

use std::collections::BTreeMap;
use std::str::FromStr;

pub struct Options(BTreeMap<String, String>);

impl Options {
    /// Reads the words; `alone` are the names that take no value, `valued` those that do.
    pub fn new(words: impl Iterator<Item = String>, valued: &[&str], alone: &[&str]) -> Result<Self, String> {
        let mut options = BTreeMap::new();
        let mut words = words;
        while let Some(word) = words.next() {
            let name = word.strip_prefix("--").unwrap_or_default();
            let value = match name {
                _ if alone.contains(&name) => String::new(),
                _ if valued.contains(&name) => words.next().ok_or(format!("{word} wants a value"))?,
                _ => return Err(format!("{word} is no option here")),
            };
            options.insert(name.to_owned(), value);
        }
        Ok(Self(options))
    }

    pub fn given(&self, name: &str) -> bool {
        self.0.contains_key(name)
    }

    pub fn value<T: FromStr>(&self, name: &str, otherwise: T) -> Result<T, String> {
        self.0
            .get(name)
            .map_or(Ok(otherwise), |value| value.parse().map_err(|_| format!("--{name} {value} can't be read")))
    }
}

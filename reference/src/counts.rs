//! How often each of a number of named things was met.

use std::collections::BTreeMap;
use std::fmt::Write;

#[derive(Clone, Debug, Default, PartialEq, Eq)]
pub struct Counts(BTreeMap<String, u64>);

impl Counts {
    pub fn count(&mut self, name: impl Into<String>) {
        *self.0.entry(name.into()).or_default() += 1;
    }

    pub fn set(&mut self, name: &str, count: u64) {
        self.0.insert(name.to_string(), count);
    }

    pub fn of(&self, name: &str) -> u64 {
        self.0.get(name).copied().unwrap_or(0)
    }

    pub fn add(&mut self, other: &Counts) {
        for (name, count) in &other.0 {
            *self.0.entry(name.clone()).or_default() += count;
        }
    }

    /// Which of the required were never met.
    pub fn missing(&self, required: Vec<String>) -> Vec<String> {
        required.into_iter().filter(|name| self.of(name) == 0).collect()
    }

    /// Under its title a line for each, by name.
    pub fn section(&self, title: &str) -> String {
        let mut text = format!("\n{title}\n");
        for (name, count) in &self.0 {
            writeln!(text, "{count:8}  {name}").expect("writing to a string");
        }
        text
    }
}

#[cfg(test)]
mod tests {
    use super::*;

    #[test]
    fn counts_add_up_and_what_is_missing_is_named() {
        let (mut one, mut two) = (Counts::default(), Counts::default());
        one.count("a");
        two.count("a");
        two.count("b");
        one.add(&two);
        assert_eq!((one.of("a"), one.of("b"), one.of("c")), (2, 1, 0));
        assert_eq!(one.missing(vec!["a".to_string(), "c".to_string()]), ["c"]);
        assert_eq!(one.section("t"), "\nt\n       2  a\n       1  b\n");
    }
}

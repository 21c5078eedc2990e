//! How often each number of a row was met, for rows that have a name: what
//! counts by name are for single things, these are for every byte and length.

use std::collections::BTreeMap;
use std::fmt::Write;

#[derive(Clone, Debug, Default, PartialEq, Eq)]
pub struct Rows(BTreeMap<String, BTreeMap<usize, u64>>);

/// A row of which every number has to be met.
#[derive(Clone, Debug, PartialEq, Eq)]
pub struct Row {
    pub name: String,
    pub numbers: Vec<usize>,
}

impl Row {
    pub fn new(name: impl Into<String>, numbers: impl IntoIterator<Item = usize>) -> Row {
        Row { name: name.into(), numbers: numbers.into_iter().collect() }
    }
}

impl Rows {
    pub fn count(&mut self, name: impl Into<String>, number: usize) {
        *self.0.entry(name.into()).or_default().entry(number).or_default() += 1;
    }

    pub fn of(&self, name: &str, number: usize) -> u64 {
        self.0.get(name).and_then(|row| row.get(&number)).copied().unwrap_or(0)
    }

    pub fn add(&mut self, other: &Rows) {
        for (name, row) in &other.0 {
            let sums = self.0.entry(name.clone()).or_default();
            for (number, count) in row {
                *sums.entry(*number).or_default() += count;
            }
        }
    }

    /// The rows that were not met whole, with how many numbers they lack.
    pub fn missing(&self, required: &[Row]) -> Vec<String> {
        let lacks = |row: &Row| {
            let unmet = |number: &&usize| self.of(&row.name, **number) == 0;
            let lacking: Vec<&usize> = row.numbers.iter().filter(unmet).collect();
            let first = lacking.first()?;
            let (lacking, all) = (lacking.len(), row.numbers.len());
            Some(format!("{}: {lacking} of {all} numbers, first {first}", row.name))
        };
        required.iter().filter_map(lacks).collect()
    }

    /// Under its title a line for each row: how often its rarest number was met.
    pub fn section(&self, title: &str, required: &[Row]) -> String {
        let mut text = format!("\n{title}\n");
        for Row { name, numbers } in required {
            let least = numbers.iter().map(|&number| self.of(name, number)).min().unwrap_or(0);
            let extent = extent(numbers);
            writeln!(text, "{least:8}  {name}: {extent}").expect("writing to a string");
        }
        text
    }
}

/// The numbers by their runs: `0 to 31, 127 to 255`.
fn extent(numbers: &[usize]) -> String {
    let mut runs: Vec<(usize, usize)> = Vec::new();
    for &number in numbers {
        match runs.last_mut() {
            Some((_, last)) if *last + 1 == number => *last = number,
            _ => runs.push((number, number)),
        }
    }
    let told = |&(first, last): &(usize, usize)| match last - first {
        0 => first.to_string(),
        _ => format!("{first} to {last}"),
    };
    runs.iter().map(told).collect::<Vec<_>>().join(", ")
}

#[cfg(test)]
mod tests {
    use super::*;

    #[test]
    fn rows_add_up_and_what_they_lack_is_named() {
        let (mut one, mut two) = (Rows::default(), Rows::default());
        one.count("a", 3);
        two.count("a", 3);
        two.count("a", 5);
        one.add(&two);
        assert_eq!((one.of("a", 3), one.of("a", 5), one.of("b", 3)), (2, 1, 0));
        let required = [Row::new("a", [3, 5]), Row::new("a", 2..=6), Row::new("b", [])];
        assert_eq!(one.missing(&required), ["a: 3 of 5 numbers, first 2"]);
        let text = "\nt\n       1  a: 3, 5\n       0  a: 2 to 6\n       0  b: \n";
        assert_eq!(one.section("t", &required), text);
    }
}

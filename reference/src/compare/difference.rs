//! The first answer in which two sides differ.

use super::sides::{Reference, Side, Sort};
use std::io;

#[derive(Clone, Debug, PartialEq, Eq)]
pub struct Difference {
    /// The line of the answers, from 1.
    pub answer: usize,
    /// None where the side has no such line.
    pub ours: Option<String>,
    pub reference: Option<String>,
}

impl Difference {
    pub fn first(ours: &str, reference: &str) -> Option<Difference> {
        if ours == reference {
            return None;
        }
        let (mut left, mut right) = (ours.split('\n'), reference.split('\n'));
        (1..).map(|answer| (answer, left.next(), right.next())).find(|(_, a, b)| a != b).map(
            |(answer, ours, reference)| Difference {
                answer,
                ours: ours.map(str::to_string),
                reference: reference.map(str::to_string),
            },
        )
    }

    /// The first difference over an input.
    pub fn over(ours: &dyn Side, sort: Sort, input: &[u8]) -> io::Result<Option<Difference>> {
        let reference = Reference.answer(sort, input)?;
        Ok(Difference::first(&ours.answer(sort, input)?, &reference))
    }

    /// The line of the script, from 1, that this answers.
    pub fn script_line(&self, sort: Sort, script: &[u8]) -> usize {
        let mut play = sort.player().unwrap_or_else(|| Box::new(|_| None));
        let (mut line, mut answers) = (0, 0);
        for text in script.split(|&byte| byte == b'\n') {
            line += 1;
            answers += play(text).map_or(0, |answer| answer.lines().count());
            if answers >= self.answer {
                break;
            }
        }
        line
    }

    /// Both answers, a line each.
    pub fn text(&self) -> String {
        let shown = |answer: &Option<String>| answer.clone().unwrap_or_else(|| "(none)".into());
        format!("  ours       {}\n  reference  {}\n", shown(&self.ours), shown(&self.reference))
    }
}

#[cfg(test)]
mod tests {
    use super::*;

    #[test]
    fn the_first_line_that_differs_is_told() {
        assert_eq!(Difference::first("a\nb\n", "a\nb\n"), None);
        let differs = Difference::first("a\nb\nc\n", "a\nx\nc\n").unwrap();
        assert_eq!(differs.answer, 2);
        assert_eq!(differs.text(), "  ours       b\n  reference  x\n");
    }

    #[test]
    fn a_side_that_stops_differs_where_it_stops() {
        let differs = Difference::first("a\n", "a\nb\n").unwrap();
        assert_eq!((differs.answer, differs.ours.as_deref()), (2, Some("")));
        let differs = Difference::first("a\nb\n", "a\nb").unwrap();
        assert_eq!((differs.answer, differs.reference), (3, None));
    }

    #[test]
    fn the_line_answered_is_found_past_tables_and_comments() {
        let script = b"setup 3 1 5 6 16\n# a comment\njoin 2 7 8 2\ntable\nquiet\n";
        let answered = |answer| Difference { answer, ours: None, reference: None };
        let line = |answer| answered(answer).script_line(Sort::Script, script);
        assert_eq!([line(1), line(2), line(3), line(4), line(5)], [1, 3, 4, 4, 5]);
        let script = b"read-display\n\n# a comment\nnonsense\n";
        let line = |answer| answered(answer).script_line(Sort::Payloads, script);
        assert_eq!([line(1), line(2)], [1, 4]);
    }
}

//! A program that is given its input whole and answers on standard output.

use std::io::{self, Read, Write};
use std::process::{Child, Command, Stdio};
use std::thread;

#[derive(Clone, Debug)]
pub struct Program {
    words: Vec<String>,
}

impl Program {
    /// The command and its words, a word to a line.
    pub fn new(command: &str) -> Program {
        Program { words: command.split('\n').map(str::to_string).collect() }
    }

    /// What it answers. Where it does not end well, that is its last line.
    pub fn answer(&self, input: &[u8]) -> io::Result<String> {
        let mut child = self.start()?;
        let mut bytes = Vec::new();
        let read = exchange(&mut child, input, &mut bytes);
        let status = child.wait()?;
        read?;
        let mut text = String::from_utf8_lossy(&bytes).into_owned();
        if !status.success() {
            text.push_str(&format!("(ended with {status})\n"));
        }
        Ok(text)
    }

    fn start(&self) -> io::Result<Child> {
        let (name, words) = self.words.split_first().expect("a split gives a word");
        let mut command = Command::new(name);
        command.args(words).stdin(Stdio::piped()).stdout(Stdio::piped()).stderr(Stdio::null());
        command.spawn().map_err(|error| io::Error::new(error.kind(), format!("{name}: {error}")))
    }
}

/// Gives the input while it takes the answer, so that neither side waits for
/// the other. A program may end before it has read everything.
fn exchange(child: &mut Child, input: &[u8], answer: &mut Vec<u8>) -> io::Result<usize> {
    let stdin = child.stdin.take();
    let stdout = child.stdout.take();
    thread::scope(|scope| {
        scope.spawn(move || stdin.map(|mut stdin| stdin.write_all(input)));
        stdout.map_or(Ok(0), |mut stdout| stdout.read_to_end(answer))
    })
}

#[cfg(test)]
mod tests {
    use super::*;

    #[test]
    fn it_answers_what_it_writes() {
        let input = vec![b'a'; 300_000];
        assert_eq!(Program::new("cat").answer(&input).unwrap().as_bytes(), input);
        assert_eq!(Program::new("true").answer(&input).unwrap(), "");
    }

    #[test]
    fn a_bad_end_is_the_last_line() {
        assert_eq!(Program::new("false").answer(b"").unwrap(), "(ended with exit status: 1)\n");
    }

    #[test]
    fn a_program_that_is_not_there_is_an_error() {
        assert!(Program::new("no/such/program").answer(b"").is_err());
    }
}

//! Runs tasks on several processors. What comes out does not hang on which of
//! them is the faster: tasks are handed out in order, and of the mismatches
//! found the one of the earliest task is told.

use super::mismatch::Mismatch;
use super::sides::Side;
use super::task::{Task, Totals};
use std::io;
use std::sync::Mutex;
use std::thread;

/// What was compared, and the first mismatch.
#[derive(Debug, Default)]
pub struct Outcome {
    pub totals: Totals,
    pub tasks: usize,
    pub mismatch: Option<Mismatch>,
}

struct Shared<'a, I> {
    tasks: I,
    handed_out: usize,
    outcome: Outcome,
    found_at: usize,
    error: Option<io::Error>,
    watch: &'a mut (dyn FnMut(&Outcome) + Send),
}

/// Runs the tasks until one finds a mismatch; `watch` sees each that is done.
pub fn run(
    tasks: impl Iterator<Item = Task> + Send,
    ours: &dyn Side,
    threads: usize,
    watch: &mut (dyn FnMut(&Outcome) + Send),
) -> io::Result<Outcome> {
    let outcome = Outcome::default();
    let found_at = usize::MAX;
    let shared = Mutex::new(Shared { tasks, handed_out: 0, outcome, found_at, error: None, watch });
    thread::scope(|scope| {
        for _ in 0..threads.max(1) {
            scope.spawn(|| work(&shared, ours));
        }
    });
    let shared = shared.into_inner().expect("no worker panics");
    shared.error.map_or(Ok(shared.outcome), Err)
}

pub fn processors() -> usize {
    thread::available_parallelism().map_or(1, |count| count.get())
}

fn work<I: Iterator<Item = Task>>(shared: &Mutex<Shared<'_, I>>, ours: &dyn Side) {
    loop {
        let next = shared.lock().expect("no worker panics").next();
        match next {
            Some((index, task)) => {
                let done = task.run(ours);
                shared.lock().expect("no worker panics").take(index, done);
            }
            None => return,
        }
    }
}

impl<I: Iterator<Item = Task>> Shared<'_, I> {
    /// The next task, none if something was found.
    fn next(&mut self) -> Option<(usize, Task)> {
        if self.outcome.mismatch.is_some() || self.error.is_some() {
            return None;
        }
        let task = self.tasks.next()?;
        self.handed_out += 1;
        Some((self.handed_out, task))
    }

    fn take(&mut self, index: usize, done: io::Result<(Totals, Option<Mismatch>)>) {
        match done {
            Err(error) => self.error = Some(error),
            Ok((totals, mismatch)) => {
                self.outcome.tasks += 1;
                self.outcome.totals.add(&totals);
                if mismatch.is_some() && index < self.found_at {
                    self.found_at = index;
                    self.outcome.mismatch = mismatch;
                }
                (self.watch)(&self.outcome);
            }
        }
    }
}

#[cfg(test)]
mod tests {
    use super::super::sides::{Reference, Sort};
    use super::super::task;
    use super::*;

    /// Answers as this implementation, but for captures of some sizes.
    struct Slips(fn(usize) -> bool);

    impl Side for Slips {
        fn answer(&self, sort: Sort, input: &[u8]) -> io::Result<String> {
            let slips = sort == Sort::Capture && (self.0)(input.len());
            let answer = Reference.answer(sort, input)?;
            Ok(if slips { format!("{answer}slip\n") } else { answer })
        }
    }

    fn outcome(side: &dyn Side, threads: usize) -> Outcome {
        let captures = |at: u64| 10 * at..10 * (at + 1);
        let tasks = (0..40).map(|at| Task { seed: 1, captures: captures(at), ..Task::default() });
        run(tasks, side, threads, &mut |_| ()).unwrap()
    }

    #[test]
    fn all_tasks_are_run_once_on_any_number_of_threads() {
        let (one, four) = (outcome(&Reference, 1), outcome(&Reference, 4));
        assert!(one.mismatch.is_none() && four.mismatch.is_none());
        assert_eq!((one.tasks, four.tasks), (40, 40));
        assert_eq!(one.totals.captures.captures(), 400);
        assert_eq!(one.totals.captures.report(), four.totals.captures.report());
    }

    #[test]
    fn the_earliest_mismatch_is_told_on_any_number_of_threads() {
        let side = Slips(|size| size % 7 == 3);
        let name = |threads| outcome(&side, threads).mismatch.unwrap().name;
        let first = name(1);
        assert!((0..10).all(|_| name(4) == first));
    }

    #[test]
    fn a_program_that_cannot_be_run_is_an_error() {
        struct Missing;
        impl Side for Missing {
            fn answer(&self, _: Sort, _: &[u8]) -> io::Result<String> {
                Err(io::Error::new(io::ErrorKind::NotFound, "no program"))
            }
        }
        assert!(run(task::of_gate(1, 1, 1), &Missing, 2, &mut |_| ()).is_err());
    }
}

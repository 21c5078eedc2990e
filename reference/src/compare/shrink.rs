//! Simple shrinking: what can be taken out of a failing input while it still
//! fails is taken out, first large pieces, then small ones.

use std::time::Instant;

/// In the end pieces of up to this size are tried at every place.
const SMALL: usize = 8;

/// What is left, and how it was found.
#[derive(Clone, Debug)]
pub struct Shrunk<T> {
    pub items: Vec<T>,
    pub runs: usize,
    /// False if the time was up before nothing more could be taken out.
    pub finished: bool,
}

struct Shrinker<'a, T> {
    shrunk: Shrunk<T>,
    plain: T,
    deadline: Instant,
    fails: &'a mut dyn FnMut(&[T]) -> bool,
}

/// Shrinks items that fail; what is left fails too. An item that cannot be
/// taken out may become the plain one.
pub fn shrink<T: Clone + PartialEq>(
    items: Vec<T>,
    plain: T,
    deadline: Instant,
    fails: &mut dyn FnMut(&[T]) -> bool,
) -> Shrunk<T> {
    let shrunk = Shrunk { items, runs: 0, finished: true };
    let mut shrinker = Shrinker { shrunk, plain, deadline, fails };
    shrinker.take_out_large();
    while shrinker.take_out_small() || shrinker.make_plain() {}
    shrinker.shrunk
}

impl<T: Clone + PartialEq> Shrinker<'_, T> {
    /// Halves, quarters and so on down to single items.
    fn take_out_large(&mut self) {
        let mut size = self.shrunk.items.len() / 2;
        while size > 0 {
            self.pass(size, size);
            size /= 2;
        }
    }

    /// Small pieces at every place; whether one could be taken out.
    fn take_out_small(&mut self) -> bool {
        let before = self.shrunk.items.len();
        for size in 1..=SMALL.min(before) {
            self.pass(size, 1);
        }
        self.shrunk.items.len() < before
    }

    /// The plain item in the place of others, so that what hangs on those may
    /// be taken out; whether one could be put.
    fn make_plain(&mut self) -> bool {
        let mut put = false;
        for place in (0..self.shrunk.items.len()).rev() {
            if self.shrunk.items[place] != self.plain && !self.time_is_up() {
                let mut items = self.shrunk.items.clone();
                items[place] = self.plain.clone();
                put |= self.attempt(items);
            }
        }
        put
    }

    /// Tries pieces of one size from the last to the first: later lines hang
    /// on earlier ones, so the last are the easiest to miss.
    fn pass(&mut self, size: usize, step: usize) {
        let mut end = self.shrunk.items.len();
        while end >= size && end > 0 && !self.time_is_up() {
            let items = &self.shrunk.items;
            let rest = [&items[..end - size], &items[end..]].concat();
            self.attempt(rest);
            end = end.saturating_sub(step).min(self.shrunk.items.len());
        }
    }

    /// Takes these items if they fail too.
    fn attempt(&mut self, items: Vec<T>) -> bool {
        self.shrunk.runs += 1;
        let failed = (self.fails)(&items);
        if failed {
            self.shrunk.items = items;
        }
        failed
    }

    fn time_is_up(&mut self) -> bool {
        let up = Instant::now() >= self.deadline;
        self.shrunk.finished = self.shrunk.finished && !up;
        up
    }
}

#[cfg(test)]
mod tests {
    use super::*;
    use std::time::Duration;

    fn shrunk(items: Vec<u32>, mut fails: impl FnMut(&[u32]) -> bool) -> Shrunk<u32> {
        shrink(items, 0, Instant::now() + Duration::from_secs(60), &mut fails)
    }

    #[test]
    fn what_matters_is_left() {
        let left = shrunk((0..1000).collect(), |items| {
            [3, 500, 999].iter().all(|wanted| items.contains(wanted))
        });
        assert_eq!(left.items, [3, 500, 999]);
        assert!(left.finished && left.runs < 400);
    }

    #[test]
    fn pairs_that_hang_together_go_together() {
        let paired = |items: &[u32]| items.chunks(2).all(|pair| pair == [pair[0], pair[0] ^ 1]);
        let left = shrunk((0..300).collect(), |items| paired(items) && items.contains(&77));
        assert_eq!(left.items, [76, 77]);
    }

    #[test]
    fn what_only_has_to_be_there_becomes_plain() {
        let left = shrunk(vec![1, 2, 3, 4], |items| items.len() >= 3 && items.contains(&2));
        assert_eq!(left.items, [0, 2, 0]);
    }

    #[test]
    fn nothing_is_taken_out_of_what_needs_all() {
        let left = shrunk(vec![1, 2, 3], |items| items == [1, 2, 3]);
        assert_eq!(left.items, [1, 2, 3]);
        assert_eq!(shrunk(vec![9], |items| items == [9]).items, [9]);
        assert_eq!(shrunk(vec![], |_| true).items, []);
    }

    #[test]
    fn time_is_bounded_and_what_is_left_still_fails() {
        let left = shrink(vec![1, 2, 3], 0, Instant::now(), &mut |_: &[u32]| true);
        assert_eq!((left.items.len(), left.runs, left.finished), (3, 0, false));
    }
}

//! Work shared out among threads.

use std::any::Any;
use std::panic::{catch_unwind, AssertUnwindSafe};
use std::sync::atomic::{AtomicUsize, Ordering};
use std::sync::mpsc::{channel, Sender};
use std::thread::{self, Builder};

/// What a piece of work came to, or what was said where it panicked.
pub type Outcome<T> = Result<T, String>;

/// So many pieces of work, and the number of the next that no thread has taken. A thread that is
/// done takes the next one, so none waits for a slow one.
struct Pile<Set, Work> {
    pieces: usize,
    next: AtomicUsize,
    set_up: Set,
    work: Work,
}

/// Has each piece of work, from 0 on, done once by one of some threads. Each thread has a desk of its
/// own, set up before its first piece and kept from piece to piece; behind a panic it gets a new one.
/// This thread gets each outcome as it comes, in any order.
pub fn share_out<Desk, T: Send>(
    pieces: usize,
    threads: usize,
    set_up: impl Fn() -> Desk + Sync,
    work: impl Fn(&mut Desk, usize) -> T + Sync,
    mut done: impl FnMut(usize, Outcome<T>),
) {
    let next = AtomicUsize::new(0);
    let pile = &Pile {
        pieces,
        next,
        set_up,
        work,
    };
    let (sender, outcomes) = channel();
    thread::scope(|scope| {
        let begins = |_: &usize| {
            let sender = sender.clone();
            let thread = Builder::new().spawn_scoped(scope, move || pile.work_off(sender));
            thread.is_ok()
        };
        // Where the system gives fewer threads, those do it all; where it gives none, this one does.
        if (0..threads.min(pieces)).filter(begins).count() == 0 {
            pile.work_off(sender.clone());
        }
        // Else the outcomes would never end.
        drop(sender);
        for (piece, outcome) in outcomes {
            done(piece, outcome);
        }
    });
}

impl<Desk, T, Set, Work> Pile<Set, Work>
where
    Set: Fn() -> Desk,
    Work: Fn(&mut Desk, usize) -> T,
{
    /// One thread's share: piece after piece until none is left.
    fn work_off(&self, outcomes: Sender<(usize, Outcome<T>)>) {
        let mut desk = None;
        while let Some(piece) = self.take() {
            // Nothing of a desk at which something panicked is used again.
            let outcome = catch_unwind(AssertUnwindSafe(|| {
                (self.work)(desk.get_or_insert_with(&self.set_up), piece)
            }));
            if outcome.is_err() {
                desk = None;
            }
            if outcomes.send((piece, outcome.map_err(said))).is_err() {
                return;
            }
        }
    }

    fn take(&self) -> Option<usize> {
        let piece = self.next.fetch_add(1, Ordering::Relaxed);
        (piece < self.pieces).then_some(piece)
    }
}

/// The words of a panic.
fn said(panic: Box<dyn Any + Send>) -> String {
    match panic.downcast::<String>() {
        Ok(words) => *words,
        Err(other) => match other.downcast_ref::<&str>() {
            Some(words) => (*words).into(),
            None => "a panic without words".into(),
        },
    }
}

#[cfg(test)]
mod tests {
    use super::*;

    /// The outcomes in the order of the pieces, each of which must come once.
    fn outcomes<T: Send>(
        pieces: usize,
        threads: usize,
        work: impl Fn(&mut usize, usize) -> T + Sync,
    ) -> Vec<Outcome<T>> {
        let mut all: Vec<_> = (0..pieces).map(|_| None).collect();
        share_out(
            pieces,
            threads,
            || 0,
            work,
            |piece, outcome| assert!(all[piece].replace(outcome).is_none()),
        );
        all.into_iter().flatten().collect()
    }

    #[test]
    fn each_piece_is_done_once() {
        for (pieces, threads) in [(0, 1), (1, 64), (5, 2), (999, 1), (999, 7), (9, 0)] {
            let done = outcomes(pieces, threads, |_, piece| 3 * piece);
            let expected: Vec<_> = (0..pieces).map(|piece| Ok(3 * piece)).collect();
            assert_eq!(done, expected, "{pieces} by {threads}");
        }
    }

    #[test]
    fn a_desk_is_kept_from_piece_to_piece() {
        let count = |desk: &mut usize, _| {
            *desk += 1;
            *desk
        };
        assert_eq!(outcomes(4, 1, count), [Ok(1), Ok(2), Ok(3), Ok(4)]);
    }

    #[test]
    fn a_panic_is_told_and_ends_no_other_piece() {
        let work = |desk: &mut usize, piece| {
            *desk += 1;
            match piece {
                2 => panic!("no {piece}"),
                3 => panic!("none"),
                _ => *desk,
            }
        };
        let expected = [
            Ok(1),
            Ok(2),
            Err("no 2".into()),
            Err("none".into()),
            Ok(1),
            Ok(2),
        ];
        assert_eq!(outcomes(6, 1, work), expected);
        let by_many = outcomes(100, 3, work);
        let panicked = by_many.iter().filter(|outcome| outcome.is_err()).count();
        assert_eq!((by_many.len(), panicked), (100, 2));
    }

    #[test]
    fn no_piece_waits_for_a_slow_one() {
        // The first piece ends only when all others are done.
        let done = AtomicUsize::new(0);
        let work = |_: &mut usize, piece| {
            while piece == 0 && done.load(Ordering::Relaxed) < 99 {
                thread::yield_now();
            }
            done.fetch_add(1, Ordering::Relaxed);
        };
        assert_eq!(outcomes(100, 2, work).len(), 100);
    }
}

//! Runs a mode: blocks of cases, drawn and checked by all threads.

use crate::check::{Desk, Difference, Tally};
use crate::draw::{Case, Draws, Mode};
use crate::{guard, shrink};
use std::sync::atomic::{AtomicU64, Ordering::SeqCst};
use std::sync::mpsc;
use std::thread;
use std::time::{Duration, Instant};

/// Cases of a block. Blocks are taken in their order, by whichever thread is free.
const BLOCK: u64 = 100;

/// A case that takes longer counts as one that does not return.
const LONGEST: Duration = Duration::from_secs(120);

/// How much is done.
#[derive(Clone, Copy)]
pub enum Share {
    Count(u64),
    Time(Duration),
}

pub struct Found {
    pub index: u64,
    pub case: Case,
    pub difference: Box<Difference>,
}

/// What the threads share.
struct Work {
    mode: Mode,
    seed: u64,
    share: Share,
    start: Instant,
    next: AtomicU64,
    /// The first block with a difference: later ones need not be begun.
    bound: AtomicU64,
}

impl Work {
    /// The next block's number and its indexes.
    fn block(&self) -> Option<(u64, std::ops::Range<u64>)> {
        let block = self.next.fetch_add(1, SeqCst);
        let first = block * BLOCK;
        let end = match self.share {
            Share::Count(count) => count.min(first + BLOCK),
            Share::Time(time) if self.start.elapsed() < time => first + BLOCK,
            Share::Time(_) => first,
        };
        let wanted = first < end && block < self.bound.load(SeqCst);
        wanted.then_some((block, first..end))
    }

    fn run(&self, slot: usize) -> (Tally, Option<Found>) {
        guard::enter(slot);
        let mut desk = Desk::default();
        let mut found = None;
        'blocks: while let Some((block, indexes)) = self.block() {
            let mut draws = Draws::new(self.mode, self.seed, block);
            for index in indexes {
                let case = draws.next(index);
                guard::at(index, &case);
                if let Some(difference) = shrink::difference(&mut desk, &case) {
                    self.bound.fetch_min(block, SeqCst);
                    found = Some(Found {
                        index,
                        case,
                        difference,
                    });
                    break 'blocks;
                }
            }
            guard::leave();
        }
        guard::leave();
        (desk.tally, found)
    }
}

/// Waits for all threads; ends the program if one of them stays at a case for too long.
fn collected<T>(results: &mpsc::Receiver<T>, threads: usize) -> Vec<T> {
    let mut all = Vec::new();
    let mut since = (guard::places(), [Instant::now(); guard::MOST_THREADS]);
    while all.len() < threads {
        if let Ok(result) = results.recv_timeout(Duration::from_secs(5)) {
            all.push(result);
            continue;
        }
        for (slot, place) in guard::places().into_iter().enumerate() {
            if place == 0 || place != since.0[slot] {
                (since.0[slot], since.1[slot]) = (place, Instant::now());
            } else if since.1[slot].elapsed() > LONGEST {
                guard::show(slot, "no answer");
                std::process::exit(1);
            }
        }
    }
    all
}

/// What was compared, or the difference of the lowest index.
pub fn run(mode: Mode, seed: u64, share: Share, threads: usize) -> Result<Tally, Found> {
    let work = Work {
        mode,
        seed,
        share,
        start: Instant::now(),
        next: AtomicU64::new(0),
        bound: AtomicU64::new(u64::MAX),
    };
    let results = thread::scope(|scope| {
        let (sender, receiver) = mpsc::channel();
        for slot in 0..threads {
            let (work, sender) = (&work, sender.clone());
            scope.spawn(move || sender.send(work.run(slot)));
        }
        collected(&receiver, threads)
    });
    let mut tally = Tally::default();
    let mut first: Option<Found> = None;
    for (part, found) in results {
        tally.cases += part.cases;
        let sums = tally.answers.iter_mut().zip(part.answers);
        sums.for_each(|(sum, more)| *sum += more);
        tally.damaged += part.damaged;
        tally.bytes += part.bytes;
        let earlier = |found: &Found| first.as_ref().is_none_or(|first| found.index < first.index);
        if let Some(found) = found.filter(earlier) {
            first = Some(found);
        }
    }
    first.map_or(Ok(tally), Err)
}

//! The inputs dealt out to threads.

use std::thread;

use crate::inputs::{Section, Share};
use crate::judge::{Judge, Tally};
use crate::port::Port;

/// Shows a section to one judge a thread, each with its share of it.
pub fn run(section: &Section, threads: usize, length: Share, ports: &[&'static dyn Port]) -> Tally {
    let tallies: Vec<Tally> = thread::scope(|scope| {
        let workers: Vec<_> = (0..threads)
            .map(|index| {
                let share = Share {
                    index,
                    of: threads,
                    ..length
                };
                scope.spawn(move || {
                    let mut judge = Judge::new(ports);
                    (section.show)(&mut judge, &share);
                    judge.tally
                })
            })
            .collect();
        workers
            .into_iter()
            .map(|worker| worker.join().expect("a judge does not panic"))
            .collect()
    });
    tallies
        .into_iter()
        .fold(Tally::default(), |mut sum, tally| {
            sum.add(tally);
            sum
        })
}

//! The mutants of a crate, tried by several jobs at a time.

use std::io;
use std::sync::atomic::{AtomicUsize, Ordering};
use std::sync::mpsc;
use std::thread;
use std::time::{Duration, Instant};

use crate::copies::{Bench, Workplace};
use crate::ending::Ending;
use crate::equivalents::Equivalent;
use crate::mutant::Mutant;

pub struct Outcome<'a> {
    pub mutant: &'a Mutant,
    pub ending: Ending,
    /// What the prover printed.
    pub printed: String,
    pub took: Duration,
}

pub struct Run<'a> {
    pub place: Workplace,
    pub jobs: usize,
    pub equivalents: &'a [Equivalent],
}

impl Run<'_> {
    /// Tries mutants of one crate, and reports each as it ends.
    pub fn of_crate<'m>(
        &self,
        library: &str,
        mutants: &[&'m Mutant],
        report: impl Fn(&Outcome),
    ) -> io::Result<Vec<Outcome<'m>>> {
        self.place.prove(library)?;
        let benches = (0..self.jobs).map(|job| self.place.bench(library, job));
        let benches = benches.collect::<io::Result<Vec<Bench>>>()?;
        let next = AtomicUsize::new(0);
        let (sender, ended) = mpsc::channel();
        thread::scope(|scope| {
            for bench in &benches {
                let (next, sender) = (&next, sender.clone());
                scope.spawn(move || {
                    while let Some(mutant) = mutants.get(next.fetch_add(1, Ordering::Relaxed)) {
                        // Nobody listens any more after an error.
                        if sender.send(self.outcome(bench, mutant)).is_err() {
                            break;
                        }
                    }
                });
            }
            drop(sender);
            let mut outcomes = Vec::new();
            for outcome in ended {
                let outcome = outcome?;
                report(&outcome);
                outcomes.push(outcome);
            }
            Ok(outcomes)
        })
    }

    fn outcome<'m>(&self, bench: &Bench, mutant: &'m Mutant) -> io::Result<Outcome<'m>> {
        let began = Instant::now();
        let (verdict, printed) = bench.try_mutant(mutant)?;
        let ending = Ending::of(verdict, mutant, self.equivalents);
        let took = began.elapsed();
        Ok(Outcome {
            mutant,
            ending,
            printed,
            took,
        })
    }
}

//! Requests drawn by seed and compared on all threads.

use crate::threads::on_all_threads;
use oracle::random::Random;
use std::fmt::Display;
use std::time::Instant;

/// One kind of request: how one is drawn, whether both sides agree on it, and what is kept of those seen.
pub struct Kind<R, T> {
    pub name: &'static str,
    pub draw: fn(&mut Random) -> R,
    pub compared: fn(&R, &mut T) -> bool,
    pub add: fn(&mut T, &T),
    pub count: fn(&T) -> u64,
    pub report: fn(&R),
}

impl<R: Send, T: Default + Display + Send> Kind<R, T> {
    fn until_one_fails(&self, mut requests: impl Iterator<Item = R>) -> (T, Option<R>) {
        let mut totals = T::default();
        let failing = requests.find(|request| !(self.compared)(request, &mut totals));
        (totals, failing)
    }

    fn ended(&self, what: &str, totals: &T, failing: Option<R>) -> bool {
        println!("{what}\n{totals}");
        failing.iter().for_each(self.report);
        failing.is_none()
    }

    pub fn listed(&self, what: &str, requests: impl Iterator<Item = R>) -> bool {
        let (totals, failing) = self.until_one_fails(requests);
        self.ended(what, &totals, failing)
    }

    pub fn random(&self, seed: u64, count: u64) -> bool {
        let begun = Instant::now();
        let shares = on_all_threads(|i, threads| {
            let seeds = (seed + i..seed.saturating_add(count)).step_by(threads as usize);
            self.until_one_fails(seeds.map(|seed| (self.draw)(&mut Random::new(seed))))
        });
        let mut totals = T::default();
        shares.iter().for_each(|(own, _)| (self.add)(&mut totals, own));
        let failing = shares.into_iter().find_map(|(_, request)| request);
        let rate = (self.count)(&totals) as f64 / begun.elapsed().as_secs_f64();
        self.ended(&format!("{}, seeds from {seed} on: {rate:.0} a second", self.name), &totals, failing)
    }
}

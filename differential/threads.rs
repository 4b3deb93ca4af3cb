//! The machine's threads, each with its share of the seeds.

/// What each thread makes of its number and of how many they are.
pub fn on_all_threads<T: Send>(work: impl Fn(u64, u64) -> T + Sync) -> Vec<T> {
    let threads = std::thread::available_parallelism().map_or(1, |n| n.get() as u64);
    let work = &work;
    std::thread::scope(|scope| {
        let workers: Vec<_> = (0..threads).map(|i| scope.spawn(move || work(i, threads))).collect();
        workers.into_iter().map(|worker| worker.join().expect("a worker ends")).collect()
    })
}

//! Work on many random cases, two at a time.

use crate::random::Random;
use std::sync::atomic::{AtomicU64, Ordering};

/// Two workers take the numbers below `count` from one row. A worker takes the row as an iterator of numbers, each with its
/// random source: what comes of case i of a seed is always the same. After the first fault the row ends.
pub fn two_at_a_time<C: Send>(
    count: u64,
    seed: u64,
    work: impl Fn(&mut dyn Iterator<Item = (u64, Random)>) -> Result<C, String> + Sync,
) -> Result<[C; 2], String> {
    let next = AtomicU64::new(0);
    let worker = || {
        let mut row = std::iter::from_fn(|| {
            let i = next.fetch_add(1, Ordering::Relaxed);
            (i < count).then(|| (i, Random(Random(seed).next() ^ Random(i).next())))
        });
        work(&mut row).inspect_err(|_| next.store(count, Ordering::Relaxed))
    };
    std::thread::scope(|scope| {
        let workers = [scope.spawn(worker), scope.spawn(worker)];
        let [a, b] = workers.map(|worker| worker.join().expect("a worker ends"));
        Ok([a?, b?])
    })
}

//! Work split over the machine's processors.

use std::sync::atomic::{AtomicUsize, Ordering};
use std::{panic, thread};

/// What the job answers for each shard from 0 to `shards` - 1, in order. A
/// processor that is done takes the next shard that is left.
pub fn on_all_processors<T: Send>(shards: usize, job: impl Fn(usize) -> T + Sync) -> Vec<T> {
    let next = AtomicUsize::new(0);
    let work = || {
        let mut done = Vec::new();
        loop {
            let shard = next.fetch_add(1, Ordering::Relaxed);
            if shard >= shards {
                return done;
            }
            done.push((shard, job(shard)));
        }
    };
    let processors = thread::available_parallelism().map_or(1, usize::from);
    let mut all: Vec<(usize, T)> = thread::scope(|scope| {
        let threads: Vec<_> = (0..processors).map(|_| scope.spawn(work)).collect();
        threads.into_iter().flat_map(|t| t.join().unwrap_or_else(|fault| panic::resume_unwind(fault))).collect()
    });
    all.sort_by_key(|(shard, _)| *shard);
    all.into_iter().map(|(_, answer)| answer).collect()
}

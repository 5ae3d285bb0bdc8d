//! Blocks that four threads use at once.

use super::arcs::{clone_often, compare_often};
use super::Arc;
use std::thread;

#[inline(never)]
pub fn contend(times: u64) -> u64 {
    let handle = Arc::new(7u64);
    in_four(|| clone_often(&handle, times))
}

#[inline(never)]
pub fn ptr_eq(times: u64) -> u64 {
    let (first, second) = (Arc::new(7u64), Arc::new(7u64));
    in_four(|| compare_often(&first, &second, times))
}

fn in_four(work: impl Fn() -> u64 + Sync) -> u64 {
    thread::scope(|s| {
        let threads: Vec<_> = (0..4).map(|_| s.spawn(&work)).collect();
        let sums = threads.into_iter().map(|thread| thread.join().unwrap());
        sums.fold(0, u64::wrapping_add)
    })
}

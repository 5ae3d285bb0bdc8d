//! Handles on one thread.

use super::Arc;
use crate::random::shuffle;
use std::hint::black_box;

/// So many that they and their blocks are more than a cache has room for.
const HANDLES: u64 = 1_000_000;

#[inline(never)]
pub fn new_drop(times: u64) -> u64 {
    let mut sum = 0u64;
    for i in 0..times {
        let handle = Arc::new(i);
        sum = sum.wrapping_add(*handle);
    }
    sum
}

pub fn clone_often(handle: &Arc<u64>, times: u64) -> u64 {
    let mut sum = 0u64;
    for _ in 0..times {
        let again = handle.clone();
        sum = sum.wrapping_add(*again);
    }
    sum
}

#[inline(never)]
pub fn deref_sum(times: u64) -> u64 {
    let mut handles: Vec<Arc<u64>> = (0..HANDLES).map(Arc::new).collect();
    shuffle(&mut handles);
    let mut sum = 0u64;
    for _ in 0..times {
        sum = sum.rotate_left(1).wrapping_add(sum_of(&handles));
    }
    sum
}

fn sum_of(handles: &[Arc<u64>]) -> u64 {
    let mut sum = 0u64;
    for handle in handles {
        sum = sum.wrapping_add(**handle);
    }
    sum
}

#[inline(never)]
pub fn make_mut_unique(times: u64) -> u64 {
    let mut handle = Arc::new(7u64);
    for _ in 0..times {
        let value = Arc::make_mut(&mut handle);
        *value = value.wrapping_add(3);
    }
    *handle
}

#[inline(never)]
pub fn get_mut_unique(times: u64) -> u64 {
    let mut handle = Arc::new(7u64);
    for _ in 0..times {
        if let Some(value) = Arc::get_mut(&mut handle) {
            *value = value.wrapping_add(3);
        }
    }
    *handle
}

#[inline(never)]
pub fn make_mut_shared(times: u64) -> u64 {
    let handle = Arc::new([1u64, 2, 3, 4, 5, 6, 7, 8]);
    let mut sum = 0u64;
    for i in 0..times {
        let mut own = handle.clone();
        let place = (i & 7) as usize;
        let values = Arc::make_mut(&mut own);
        values[place] = values[place].wrapping_add(i);
        sum = sum.wrapping_add(values[place]);
    }
    sum
}

/// Returns how many comparisons were made, whatever they were answered.
pub fn compare_often(first: &Arc<u64>, second: &Arc<u64>, times: u64) -> u64 {
    let mut compared = 0u64;
    for _ in 0..times {
        black_box(Arc::ptr_eq(first, second));
        compared = compared.wrapping_add(1);
    }
    compared
}

#[inline(never)]
pub fn ptr_eq_same(times: u64) -> u64 {
    let handle = Arc::new(7u64);
    compare_often(&handle, &handle.clone(), times)
}

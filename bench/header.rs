//! Header slices, which the pointers build in different ways.

use crate::twin;

/// The items of each slice.
const ITEMS: u32 = 16;

/// The slices that `get` reads.
const SLICES: usize = 1024;

pub trait Slice {
    fn of(header: u64, items: impl ExactSizeIterator<Item = u32>) -> Self;
    fn header(&self) -> u64;
    fn items(&self) -> &[u32];
}

impl Slice for servo_arc::ThinArc<u64, u32> {
    #[inline(always)]
    fn of(header: u64, items: impl ExactSizeIterator<Item = u32>) -> Self {
        servo_arc::Arc::from_header_and_iter(header, items)
    }

    fn header(&self) -> u64 {
        self.header
    }

    fn items(&self) -> &[u32] {
        self.slice()
    }
}

impl Slice for (u64, std::sync::Arc<[u32]>) {
    #[inline(always)]
    fn of(header: u64, items: impl ExactSizeIterator<Item = u32>) -> Self {
        (header, items.collect())
    }

    fn header(&self) -> u64 {
        self.0
    }

    fn items(&self) -> &[u32] {
        &self.1
    }
}

impl Slice for twin::Arc<twin::HeaderSlice> {
    #[inline(always)]
    fn of(header: u64, items: impl ExactSizeIterator<Item = u32>) -> Self {
        let items = items.collect();
        twin::Arc::new(twin::HeaderSlice { header, items })
    }

    fn header(&self) -> u64 {
        self.header
    }

    fn items(&self) -> &[u32] {
        &self.items
    }
}

// Out of line, as it was when it was measured.
#[inline(never)]
fn make<S: Slice>(number: u64, first: u32) -> S {
    S::of(number, (0..ITEMS).map(move |k| k.wrapping_add(first)))
}

#[inline(never)]
pub fn build<S: Slice>(times: u64) -> u64 {
    let mut sum = 0u64;
    for i in 0..times {
        let slice: S = make(i, i as u32);
        let last = slice.items().last().copied().unwrap_or(0);
        sum = sum
            .wrapping_add(slice.header())
            .wrapping_add(u64::from(last));
    }
    sum
}

/// One item of a slice after the other.
#[inline(never)]
pub fn get<S: Slice>(times: u64) -> u64 {
    let slices: Vec<S> = (0..SLICES as u64).map(|i| make(i, i as u32)).collect();
    let mut at = 0usize;
    let mut sum = 0u64;
    for _ in 0..times {
        let items = slices[at % SLICES].items();
        let item = items.get((at >> 16) % ITEMS as usize);
        sum = sum.wrapping_add(u64::from(item.copied().unwrap_or(0)));
        at = (sum as usize).wrapping_mul(5).wrapping_add(1);
    }
    sum
}

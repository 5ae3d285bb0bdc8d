//! A list by number through its calls.

use crate::{sum_of, timed, ITEMS, VERSIONS};
use std::time::{Duration, Instant};

/// So many calls change a list in the middle.
const CHANGES: usize = 1_000;

/// What is measured.
pub trait List: Clone + Default {
    /// Another version, if that shares what it is of.
    fn version(&self) -> Option<Self> {
        Some(self.clone())
    }

    fn push(&mut self, item: u64);
    fn pop(&mut self) -> Option<u64>;
    fn get(&self, at: usize) -> Option<u64>;
    fn set(&mut self, at: usize, item: u64);
    fn insert(&mut self, at: usize, item: u64);
    fn remove(&mut self, at: usize) -> u64;
    fn split_off(&mut self, at: usize) -> Self;
    fn append(&mut self, other: Self);
    fn items(&self) -> impl Iterator<Item = u64>;
}

impl List for Vec<u64> {
    fn version(&self) -> Option<Vec<u64>> {
        None
    }

    fn push(&mut self, item: u64) {
        self.push(item);
    }

    fn pop(&mut self) -> Option<u64> {
        self.pop()
    }

    fn get(&self, at: usize) -> Option<u64> {
        self.as_slice().get(at).copied()
    }

    fn set(&mut self, at: usize, item: u64) {
        self[at] = item;
    }

    fn insert(&mut self, at: usize, item: u64) {
        self.insert(at, item);
    }

    fn remove(&mut self, at: usize) -> u64 {
        self.remove(at)
    }

    fn split_off(&mut self, at: usize) -> Vec<u64> {
        self.split_off(at)
    }

    fn append(&mut self, mut other: Vec<u64>) {
        self.append(&mut other);
    }

    fn items(&self) -> impl Iterator<Item = u64> {
        self.iter().copied()
    }
}

#[cfg(im)]
impl List for im_rc::Vector<u64> {
    fn push(&mut self, item: u64) {
        self.push_back(item);
    }

    fn pop(&mut self) -> Option<u64> {
        self.pop_back()
    }

    fn get(&self, at: usize) -> Option<u64> {
        self.get(at).copied()
    }

    fn set(&mut self, at: usize, item: u64) {
        self.set(at, item);
    }

    fn insert(&mut self, at: usize, item: u64) {
        self.insert(at, item);
    }

    fn remove(&mut self, at: usize) -> u64 {
        self.remove(at)
    }

    fn split_off(&mut self, at: usize) -> im_rc::Vector<u64> {
        self.split_off(at)
    }

    fn append(&mut self, other: im_rc::Vector<u64>) {
        self.append(other);
    }

    fn items(&self) -> impl Iterator<Item = u64> {
        self.iter().copied()
    }
}

fn push<L: List>(len: usize, lists: usize) -> Vec<L> {
    let mut made = Vec::new();
    for _ in 0..lists {
        let mut list = L::default();
        for item in 0..len {
            list.push(item as u64);
        }
        made.push(list);
    }
    made
}

fn get(list: &impl List, places: &[u64], rounds: usize) -> u64 {
    let mut sum = 0u64;
    for _ in 0..rounds {
        for &place in places {
            sum = sum.wrapping_add(list.get(place as usize).unwrap_or(0));
        }
    }
    sum
}

fn step(list: &impl List, rounds: usize) -> u64 {
    (0..rounds).fold(0, |sum, _| sum_of(list.items(), sum))
}

/// Each version has another item at one place, and ends the version before it.
fn version(list: &mut impl List, places: &[u64]) {
    for at in 0..VERSIONS {
        let old = list.version();
        list.set(places[at % places.len()] as usize, at as u64);
        drop(old);
    }
}

fn insert(list: &mut impl List, places: &[u64]) {
    for at in 0..CHANGES {
        list.insert(places[at % places.len()] as usize, at as u64);
    }
}

fn remove(list: &mut impl List, places: &[u64]) -> u64 {
    let mut sum = 0u64;
    for at in 0..CHANGES {
        let item = list.remove(places[at % places.len()] as usize);
        sum = sum.rotate_left(1).wrapping_add(item);
    }
    sum
}

/// Makes two lists of it and one again, each time at another place.
fn cut<L: List>(list: &mut L, places: &[u64]) {
    let (mut split, mut append) = (Duration::ZERO, Duration::ZERO);
    for at in 0..CHANGES {
        let start = Instant::now();
        let rest = list.split_off(places[at % places.len()] as usize);
        split += start.elapsed();
        let start = Instant::now();
        list.append(rest);
        append += start.elapsed();
    }
    println!("split_off {}", split.as_nanos());
    println!("append {}", append.as_nanos());
}

/// Takes an item out of each of the lists as often as there are places.
fn pop<L: List>(lists: Vec<L>, places: &[u64]) -> u64 {
    let mut sum = 0u64;
    for mut list in lists {
        for _ in places {
            sum = sum.wrapping_add(list.pop().unwrap_or(0));
        }
    }
    sum
}

/// All calls on lists of as many items, one after another, at these places.
pub fn measure<L: List>(places: &[u64]) -> u64 {
    let rounds = ITEMS / places.len();
    let mut lists: Vec<L> = timed("push", || push(places.len(), rounds.max(2)));
    let list = lists.last_mut().unwrap();
    let mut sum = timed("get", || get(list, places, rounds));
    sum = sum.wrapping_add(timed("step", || step(list, rounds)));
    timed("version", || version(list, places));
    timed("insert", || insert(list, places));
    sum = sum.wrapping_add(timed("remove", || remove(list, places)));
    cut(list, places);
    let others = lists.split_off(lists.len() / 2);
    // First, since the allocator takes up what a pop gives back only at a later call.
    timed("drop", || drop(others));
    sum.wrapping_add(timed("pop", || pop(lists, places)))
}

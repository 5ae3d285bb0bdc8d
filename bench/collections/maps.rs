//! A map through its calls.

use crate::{sum_of, timed, ITEMS, MAPS, VERSIONS};
use std::collections::BTreeMap;

/// What is measured.
pub trait Map: Clone + Default {
    /// Another version, if that shares what it is of.
    fn version(&self) -> Option<Self> {
        Some(self.clone())
    }

    fn insert(&mut self, key: u64, value: u64);
    fn get(&self, key: u64) -> Option<u64>;
    /// The value under the key, one more than before.
    fn modify(&mut self, key: u64) -> Option<u64>;
    fn remove(&mut self, key: u64) -> Option<u64>;
    fn pop_first(&mut self) -> Option<u64>;
    fn pop_last(&mut self) -> Option<u64>;
    fn values(&self) -> impl Iterator<Item = u64>;
    fn len(&self) -> usize;
}

fn changed(value: Option<&mut u64>) -> Option<u64> {
    let value = value?;
    *value = value.wrapping_add(1);
    Some(*value)
}

impl Map for BTreeMap<u64, u64> {
    fn version(&self) -> Option<BTreeMap<u64, u64>> {
        None
    }

    fn insert(&mut self, key: u64, value: u64) {
        self.insert(key, value);
    }

    fn get(&self, key: u64) -> Option<u64> {
        self.get(&key).copied()
    }

    fn modify(&mut self, key: u64) -> Option<u64> {
        changed(self.get_mut(&key))
    }

    fn remove(&mut self, key: u64) -> Option<u64> {
        self.remove(&key)
    }

    fn pop_first(&mut self) -> Option<u64> {
        self.pop_first().map(|entry| entry.1)
    }

    fn pop_last(&mut self) -> Option<u64> {
        self.pop_last().map(|entry| entry.1)
    }

    fn values(&self) -> impl Iterator<Item = u64> {
        self.values().copied()
    }

    fn len(&self) -> usize {
        self.len()
    }
}

#[cfg(im)]
impl Map for im_rc::OrdMap<u64, u64> {
    fn insert(&mut self, key: u64, value: u64) {
        self.insert(key, value);
    }

    fn get(&self, key: u64) -> Option<u64> {
        self.get(&key).copied()
    }

    fn modify(&mut self, key: u64) -> Option<u64> {
        changed(self.get_mut(&key))
    }

    fn remove(&mut self, key: u64) -> Option<u64> {
        self.remove(&key)
    }

    fn pop_first(&mut self) -> Option<u64> {
        let key = self.get_min()?.0;
        self.remove(&key)
    }

    fn pop_last(&mut self) -> Option<u64> {
        let key = self.get_max()?.0;
        self.remove(&key)
    }

    fn values(&self) -> impl Iterator<Item = u64> {
        self.values().copied()
    }

    fn len(&self) -> usize {
        self.len()
    }
}

fn insert<M: Map>(keys: &[u64], maps: usize) -> Vec<M> {
    let mut made = Vec::new();
    for _ in 0..maps {
        let mut map = M::default();
        for &key in keys {
            map.insert(key, key);
        }
        made.push(map);
    }
    made
}

fn get(map: &impl Map, keys: &[u64], rounds: usize) -> u64 {
    let mut sum = 0u64;
    for _ in 0..rounds {
        for &key in keys {
            sum = sum.wrapping_add(map.get(key).unwrap_or(0));
        }
    }
    sum
}

fn step(map: &impl Map, rounds: usize) -> u64 {
    (0..rounds).fold(0, |sum, _| sum_of(map.values(), sum))
}

fn clone(map: &impl Map) -> u64 {
    let mut sum = 0u64;
    for _ in 0..ITEMS {
        let version = map.version();
        sum = sum.wrapping_add(map.len() as u64);
        drop(version);
    }
    sum
}

/// Each version has another value under one key, and ends the version before it.
fn version(map: &mut impl Map, keys: &[u64]) {
    for at in 0..VERSIONS {
        let old = map.version();
        map.insert(keys[at % keys.len()], at as u64);
        drop(old);
    }
}

fn modify(map: &mut impl Map, keys: &[u64], rounds: usize) -> u64 {
    let mut sum = 0u64;
    for _ in 0..rounds {
        for &key in keys {
            sum = sum.wrapping_add(map.modify(key).unwrap_or(0));
        }
    }
    sum
}

/// Empties the maps by that call, once for each key.
fn emptied<M: Map>(maps: Vec<M>, keys: &[u64], call: impl Fn(&mut M, u64) -> Option<u64>) -> u64 {
    let mut sum = 0u64;
    for mut map in maps {
        for &key in keys {
            sum = sum.wrapping_add(call(&mut map, key).unwrap_or(0));
        }
    }
    sum
}

/// All calls on maps of these keys, one after another.
pub fn measure<M: Map>(keys: &[u64]) -> u64 {
    let rounds = ITEMS / keys.len();
    let mut maps: Vec<M> = timed("insert", || insert(keys, rounds.max(MAPS)));
    let mut map = maps.pop().unwrap();
    let mut sum = timed("get", || get(&map, keys, rounds));
    sum = sum.wrapping_add(timed("step", || step(&map, rounds)));
    sum = sum.wrapping_add(timed("modify", || modify(&mut map, keys, rounds)));
    sum = sum.wrapping_add(timed("clone", || clone(&map)));
    timed("version", || version(&mut map, keys));
    maps.push(map);
    let quarter = maps.len() / MAPS;
    let mut last = || maps.split_off(maps.len() - quarter);
    let (removed, firsts, lasts) = (last(), last(), last());
    sum = sum.wrapping_add(timed("remove", || emptied(removed, keys, |map, key| map.remove(key))));
    sum = sum.wrapping_add(timed("pop_first", || emptied(firsts, keys, |map, _| map.pop_first())));
    sum = sum.wrapping_add(timed("pop_last", || emptied(lasts, keys, |map, _| map.pop_last())));
    timed("drop", || drop(maps));
    sum
}

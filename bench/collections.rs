//! Collections in Rust through the calls of `arcspeed`'s `map-rising`, `map-mixed` and `sequence`, each timed.
//!
//!     collections PEER WORKLOAD ITEMS     prints the nanoseconds of each call, and a checksum
//!     collections list                    prints the peers of maps, and those of sequences
//!
//! `btree` and `vec` are the `BTreeMap` and the `Vec` of std, and `im` is the `OrdMap` or the `Vector` of im-rc with
//! atomic counts, which are there if this was compiled with `--cfg im`.

#[path = "collections/maps.rs"]
mod maps;
mod random;
#[path = "collections/sequences.rs"]
mod sequences;

use std::collections::BTreeMap;
use std::time::Instant;
use std::{env, process};

/// So many items are put in and read, whatever the number of them in one collection.
const ITEMS: usize = 1_000_000;
const VERSIONS: usize = 100_000;

/// At least so many maps are made: three calls take a part of them each, and the others are dropped.
const MAPS: usize = 4;

/// Prints how long the work took.
fn timed<T>(call: &str, work: impl FnOnce() -> T) -> T {
    let start = Instant::now();
    let made = work();
    println!("{call} {}", start.elapsed().as_nanos());
    made
}

/// The sum of what the steps give, in their order.
fn sum_of(values: impl Iterator<Item = u64>, sum: u64) -> u64 {
    values.fold(sum, |sum, value| sum.rotate_left(1).wrapping_add(value))
}

fn checksum(peer: &str, workload: &str, len: usize) -> Option<u64> {
    let mut keys: Vec<u64> = (0..len as u64).collect();
    if workload != "map-rising" {
        random::shuffle(&mut keys);
    }
    match (workload, peer) {
        ("map-rising" | "map-mixed", "btree") => Some(maps::measure::<BTreeMap<u64, u64>>(&keys)),
        ("sequence", "vec") => Some(sequences::measure::<Vec<u64>>(&keys)),
        #[cfg(im)]
        ("map-rising" | "map-mixed", "im") => Some(maps::measure::<im_rc::OrdMap<u64, u64>>(&keys)),
        #[cfg(im)]
        ("sequence", "im") => Some(sequences::measure::<im_rc::Vector<u64>>(&keys)),
        _ => None,
    }
}

fn main() {
    let words: Vec<String> = env::args().skip(1).collect();
    let words: Vec<&str> = words.iter().map(|word| word.as_str()).collect();
    let im = if cfg!(im) { " im" } else { "" };
    let sum = match words.as_slice() {
        ["list"] => return println!("maps{im} btree\nsequences{im} vec"),
        [peer, workload, len] => len
            .parse()
            .ok()
            .filter(|len| *len > 0)
            .and_then(|len| checksum(peer, workload, len)),
        _ => None,
    };
    match sum {
        Some(sum) => println!("{sum}"),
        None => {
            eprintln!("usage: collections PEER WORKLOAD ITEMS | collections list");
            process::exit(2);
        }
    }
}

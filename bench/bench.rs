//! Workloads on counted pointers, each run over several implementations.
//!
//!     bench IMPLEMENTATION WORKLOAD ITERATIONS     prints a checksum
//!     bench list                                   prints WORKLOAD UNITS ITERATIONS IMPLEMENTATIONS, a line each
//!
//! An implementation is `servo` (the crate that was ported), `std` (the standard library's `Arc`) or `twin`: a pointer
//! in Rust that makes the port's atomic steps, to tell what they cost by themselves.

// What is linked after it lies 16 bytes further.
#[cfg(moved)]
std::arch::global_asm!(".section .text.skip, \"axR\"", ".skip 16");

mod by_value;
mod header;
mod random;
mod twin;
mod union;

use std::env;
use std::process;

// Each of these modules has the workloads, compiled over the pointer that stands beside them.

#[path = "."]
mod on_servo {
    pub mod workloads;
    pub use servo_arc::Arc;

    pub type Slice = servo_arc::ThinArc<u64, u32>;
    pub type Union = servo_arc::ArcUnion<u64, u32>;

    pub fn marked(value: u64) -> Option<Arc<u64>> {
        Some(Arc::new_leaked(value))
    }
}

#[path = "."]
mod on_std {
    pub mod workloads;
    pub use std::sync::Arc;

    pub type Slice = (u64, Arc<[u32]>);
    pub type Union = crate::union::Either<Arc<u64>, Arc<u32>>;

    pub fn marked(_: u64) -> Option<Arc<u64>> {
        None
    }
}

#[path = "."]
mod on_twin {
    pub mod workloads;
    pub use crate::twin::Arc;

    pub type Slice = Arc<crate::twin::HeaderSlice>;
    pub type Union = crate::union::Either<Arc<u64>, Arc<u32>>;

    pub fn marked(value: u64) -> Option<Arc<u64>> {
        Some(Arc::new_marked(value))
    }
}

const ALL: &str = "servo,std,twin";

/// The measured units of one iteration, the iterations that take some 100 ms, and the implementations.
const WORKLOADS: [(&str, u64, u64, &str); 18] = [
    ("new-drop", 1, 5_000_000, ALL),
    ("clone-drop", 1, 8_000_000, ALL),
    ("deref-sum", 1_000_000, 10, ALL),
    ("make-mut-unique", 1, 50_000_000, ALL),
    ("get-mut-unique", 1, 50_000_000, ALL),
    ("make-mut-shared", 1, 3_000_000, ALL),
    ("contend-4", 1, 2_000_000, ALL),
    ("ptr-eq-same", 1, 1_000_000, ALL),
    ("ptr-eq-4", 4, 50_000, ALL),
    ("header-get", 1, 20_000_000, ALL),
    ("header-build", 1, 3_000_000, ALL),
    ("marked-clone", 1, 50_000_000, "servo,twin"),
    ("static-clone", 1, 50_000_000, "servo,twin"),
    ("union-clone", 1, 5_000_000, ALL),
    ("cow-set", 1, 20_000_000, ALL),
    ("list-walk", 1_000_000, 10, ALL),
    ("cascade", 1_000, 100, ALL),
    ("cascade-4", 1_000, 100, ALL),
];

fn checksum(implementation: &str, workload: &str, times: &str) -> Option<u64> {
    let times = times.parse().ok()?;
    match implementation {
        "servo" => on_servo::workloads::run(workload, times),
        "std" => on_std::workloads::run(workload, times),
        "twin" => on_twin::workloads::run(workload, times),
        _ => None,
    }
}

fn main() {
    let words: Vec<String> = env::args().skip(1).collect();
    let words: Vec<&str> = words.iter().map(|word| word.as_str()).collect();
    let sum = match words.as_slice() {
        ["list"] => {
            for (name, units, iterations, implementations) in WORKLOADS {
                println!("{name} {units} {iterations} {implementations}");
            }
            return;
        }
        [implementation, workload, times] => checksum(implementation, workload, times),
        _ => None,
    };
    match sum {
        Some(sum) => println!("{sum}"),
        None => {
            eprintln!("usage: bench IMPLEMENTATION WORKLOAD ITERATIONS | bench list");
            process::exit(2);
        }
    }
}

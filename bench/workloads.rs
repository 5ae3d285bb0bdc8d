//! The workloads over one pointer.

mod arcs;
mod lists;
mod pages;
mod styles;
mod threads;

use super::{marked, Arc, Slice, Union};
use crate::{header, union};

/// The checksum of a workload, if the pointer has it.
pub fn run(workload: &str, times: u64) -> Option<u64> {
    Some(match workload {
        "new-drop" => arcs::new_drop(times),
        "clone-drop" => arcs::clone_often(&Arc::new(7), times),
        "deref-sum" => arcs::deref_sum(times),
        "make-mut-unique" => arcs::make_mut_unique(times),
        "get-mut-unique" => arcs::get_mut_unique(times),
        "make-mut-shared" => arcs::make_mut_shared(times),
        "contend-4" => threads::contend(times),
        "ptr-eq-same" => arcs::ptr_eq_same(times),
        "ptr-eq-4" => threads::ptr_eq(times),
        "header-get" => header::get::<Slice>(times),
        "header-build" => header::build::<Slice>(times),
        // Only the port has arcs that know the mark without a load.
        "marked-clone" | "static-clone" => arcs::clone_often(&marked(7)?, times),
        "union-clone" => union::clone_often::<Union>(times),
        "cow-set" => pages::set_often(times),
        "list-walk" => lists::list_walk(times),
        "cascade" => styles::cascade(1, times),
        "cascade-4" => styles::cascade(4, times),
        _ => return None,
    })
}

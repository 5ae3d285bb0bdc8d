//! A long list whose versions share their nodes.

use super::Arc;

const ITEMS: u64 = 1_000_000;

#[derive(Clone)]
struct List {
    first: Option<Arc<Node>>,
    len: usize,
}

struct Node {
    value: u64,
    rest: List,
}

impl List {
    fn push(&self, value: u64) -> List {
        let rest = self.clone();
        let len = rest.len + 1;
        let first = Some(Arc::new(Node { value, rest }));
        List { first, len }
    }
}

impl Drop for List {
    /// Node by node in a loop, since a derived drop would end each node inside the one before.
    fn drop(&mut self) {
        let mut first = self.first.take();
        while let Some(mut node) = first {
            first = Arc::get_mut(&mut node).and_then(|node| node.rest.first.take());
        }
    }
}

fn sum_of(list: &List) -> u64 {
    let mut sum = 0u64;
    let mut rest = list;
    while let Some(node) = &rest.first {
        sum = sum.wrapping_add(node.value);
        rest = &node.rest;
    }
    sum
}

#[inline(never)]
pub fn list_walk(times: u64) -> u64 {
    let empty = List {
        first: None,
        len: 0,
    };
    let list = (0..ITEMS).fold(empty, |list, value| list.push(value));
    let mut sum = 0u64;
    for _ in 0..times {
        sum = sum.rotate_left(1).wrapping_add(sum_of(&list));
    }
    sum
}

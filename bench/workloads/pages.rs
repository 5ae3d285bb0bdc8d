//! A list in pages, of which a version shares those that it does not write.

use super::Arc;
use crate::random::Random;

const ITEMS: usize = 100_000;
const PAGE: usize = 64; // known to the compiler here, a number that is chosen at run time in the port

struct Paged {
    pages: Arc<Vec<Arc<Vec<u64>>>>,
}

impl Paged {
    fn of(items: &[u64]) -> Paged {
        let pages = items.chunks(PAGE).map(|page| Arc::new(page.to_vec()));
        Paged {
            pages: Arc::new(pages.collect()),
        }
    }

    fn get(&self, i: usize) -> u64 {
        self.pages[i / PAGE][i % PAGE]
    }

    /// A call of its own, as in the port.
    #[inline(never)]
    fn set(&mut self, i: usize, item: u64) {
        let pages = Arc::make_mut(&mut self.pages);
        Arc::make_mut(&mut pages[i / PAGE])[i % PAGE] = item;
    }
}

#[inline(never)]
pub fn set_often(times: u64) -> u64 {
    let items: Vec<u64> = (0..ITEMS as u64).collect();
    let mut list = Paged::of(&items);
    let mut random = Random::new();
    for _ in 0..times {
        let i = random.below(ITEMS);
        list.set(i, list.get(i).wrapping_add(random.state));
    }
    list.get(0).wrapping_add(list.get(random.pick(ITEMS)))
}

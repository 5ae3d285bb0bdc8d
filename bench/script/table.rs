//! The table: slots with handles of the crate that was ported.

use crate::{Answer, Line};
use servo_arc::Arc;

pub struct Table {
    slots: Vec<Option<Arc<u32>>>,
}

impl Table {
    pub fn new(slots: usize) -> Table {
        Table {
            slots: vec![None; slots],
        }
    }

    /// The answer to a line that is valid.
    pub fn run(&mut self, line: &Line) -> Option<Answer> {
        let [slot, second] = line.numbers;
        let (i, j) = (slot as usize, second as usize);
        let greatest = match (line.word, line.count) {
            (b"clone" | b"ptreq" | b"same", 2) => i.max(j),
            (b"new" | b"getmut" | b"makemut", 2) => i,
            (b"drop" | b"own" | b"mark" | b"raw" | b"get", 1) => i,
            _ => return None,
        };
        if greatest >= self.slots.len() {
            return Some(Answer::NoSlot);
        }
        let answer = match line.word {
            b"new" => self.put(i, Arc::new(second)),
            b"ptreq" => self.compare(i, j, Arc::ptr_eq),
            b"same" => self.compare(i, j, |a, b| **a == **b),
            b"clone" => self.slots[i].clone().and_then(|handle| self.put(j, handle)),
            b"drop" => self.slots[i].take().map(|_| Answer::Done),
            b"raw" => self.slots[i].take().and_then(|handle| {
                let raw = Arc::into_raw(handle);
                self.put(i, unsafe { Arc::from_raw(raw) })
            }),
            word => self.slots[i]
                .as_mut()
                .map(|handle| ask(handle, word, second)),
        };
        Some(answer.unwrap_or(Answer::Empty))
    }

    #[inline(always)]
    fn put(&mut self, slot: usize, handle: Arc<u32>) -> Option<Answer> {
        self.slots[slot] = Some(handle);
        Some(Answer::Done)
    }

    fn compare(
        &self,
        i: usize,
        j: usize,
        same: fn(&Arc<u32>, &Arc<u32>) -> bool,
    ) -> Option<Answer> {
        Some(Answer::Is(same(
            self.slots[i].as_ref()?,
            self.slots[j].as_ref()?,
        )))
    }
}

/// A call on one handle, which stays where it is.
fn ask(handle: &mut Arc<u32>, word: &[u8], value: u32) -> Answer {
    match word {
        b"get" => return Answer::Value(**handle),
        b"getmut" => match Arc::get_mut(handle) {
            Some(place) => *place = value,
            None => return Answer::Shared,
        },
        b"makemut" => *Arc::make_mut(handle) = value,
        b"own" => drop(Arc::make_mut(handle)),
        _ => handle.mark_as_intentionally_leaked(),
    }
    Answer::Done
}

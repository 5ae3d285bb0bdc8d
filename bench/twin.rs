//! A counted pointer by the port's rules, each of its atomic steps `SeqCst`: one word, bit 63 the mark, a clone by a
//! load and a compare-exchange that is tried again, a drop by a load and a subtraction. Its block has the port's other
//! two words too: the stamp, by which it compares two handles as the port does, and the limit.

use std::ops::Deref;
use std::sync::atomic::{AtomicU64, Ordering::SeqCst};

const MARK: u64 = 1 << 63;
const MAX_REFCOUNT: u64 = MARK - 1;
const PAUSES: u16 = 256;

struct Block<T> {
    word: AtomicU64,
    stamp: AtomicU64,
    limit: u64,
    value: T,
}

pub struct Arc<T> {
    at: *mut Block<T>,
}

unsafe impl<T: Send + Sync> Send for Arc<T> {}
unsafe impl<T: Send + Sync> Sync for Arc<T> {}

#[derive(Debug)]
pub struct Full;

impl<T> Arc<T> {
    #[inline]
    pub fn new(value: T) -> Arc<T> {
        Arc::with_word(1, value)
    }

    pub fn new_marked(value: T) -> Arc<T> {
        Arc::with_word(MARK + 1, value)
    }

    #[inline]
    fn with_word(word: u64, value: T) -> Arc<T> {
        Arc {
            at: Box::into_raw(Box::new(Block {
                word: AtomicU64::new(word),
                stamp: AtomicU64::new(0),
                limit: MAX_REFCOUNT,
                value,
            })),
        }
    }

    #[inline]
    fn word(&self) -> &AtomicU64 {
        unsafe { &(*self.at).word }
    }

    #[inline]
    pub fn try_clone(&self) -> Result<Arc<T>, Full> {
        match self.attempt(self.word().load(SeqCst))? {
            Ok(handle) => Ok(handle),
            Err(found) => self.try_on(found),
        }
    }

    /// A clone from a word that was seen, or the word that its raise found in place of it.
    #[inline]
    fn attempt(&self, seen: u64) -> Result<Result<Arc<T>, u64>, Full> {
        if seen & MARK != 0 {
            return Ok(Ok(Arc { at: self.at }));
        }
        if seen >= unsafe { (*self.at).limit } {
            return Err(Full);
        }
        let raised = self.word().compare_exchange(seen, seen + 1, SeqCst, SeqCst);
        Ok(raised.map(|_| Arc { at: self.at }))
    }

    /// Once it has its handle, it leaves the word to the others for a moment.
    #[cold]
    #[inline(never)]
    fn try_on(&self, mut seen: u64) -> Result<Arc<T>, Full> {
        loop {
            match self.attempt(seen)? {
                Ok(handle) => {
                    for _ in 0..PAUSES {
                        std::hint::spin_loop();
                    }
                    return Ok(handle);
                }
                Err(found) => seen = found,
            }
        }
    }

    #[inline]
    pub fn is_unique(&self) -> bool {
        self.word().load(SeqCst) == 1
    }

    #[inline]
    pub fn ptr_eq(this: &Arc<T>, other: &Arc<T>) -> bool {
        let (one, two) = unsafe { (&(*this.at).stamp, &(*other.at).stamp) };
        let mut saw_sign = false;
        let mut amount = 1u64;
        for _ in 0..64 {
            let before = two.load(SeqCst);
            let own = one.fetch_add(amount, SeqCst);
            let after = two.load(SeqCst);
            if after == before {
                return false;
            }
            let sees_sign = after.wrapping_sub(before) == amount;
            if saw_sign && sees_sign {
                return true;
            }
            saw_sign = sees_sign;
            let odd = own.wrapping_mul(0x9e37_79b9_7f4a_7c15) | 1;
            amount = amount.wrapping_add(odd).wrapping_add(odd);
        }
        false
    }

    #[inline]
    pub fn get_mut(this: &mut Arc<T>) -> Option<&mut T> {
        if this.is_unique() {
            Some(unsafe { &mut (*this.at).value })
        } else {
            None
        }
    }
}

impl<T: Clone> Arc<T> {
    #[inline]
    pub fn make_mut(this: &mut Arc<T>) -> &mut T {
        if !this.is_unique() {
            *this = Arc::new((**this).clone());
        }
        unsafe { &mut (*this.at).value }
    }
}

impl<T> From<T> for Arc<T> {
    fn from(value: T) -> Arc<T> {
        Arc::new(value)
    }
}

impl<T> Clone for Arc<T> {
    #[inline]
    fn clone(&self) -> Arc<T> {
        self.try_clone().expect("the handle limit is reached")
    }
}

impl<T> Deref for Arc<T> {
    type Target = T;

    #[inline]
    fn deref(&self) -> &T {
        unsafe { &(*self.at).value }
    }
}

impl<T> Drop for Arc<T> {
    #[inline]
    fn drop(&mut self) {
        if self.word().load(SeqCst) & MARK != 0 {
            return;
        }
        if self.word().fetch_sub(1, SeqCst) == 1 {
            drop(unsafe { Box::from_raw(self.at) });
        }
    }
}

/// Two requests for memory, as in the port: the items, then the block.
pub struct HeaderSlice {
    pub header: u64,
    pub items: Box<[u32]>,
}

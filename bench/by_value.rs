//! What the cascade looks its nodes up by.

use std::hash::{BuildHasherDefault, Hash, Hasher};
use std::ops::Deref;

/// A handle that goes by its value, whichever pointer it is.
#[derive(Clone)]
pub struct ByValue<P>(pub P);

impl<P: Deref> Deref for ByValue<P> {
    type Target = P::Target;

    fn deref(&self) -> &P::Target {
        &self.0
    }
}

impl<P: Deref<Target: PartialEq>> PartialEq for ByValue<P> {
    fn eq(&self, other: &Self) -> bool {
        **self == **other
    }
}

impl<P: Deref<Target: Eq>> Eq for ByValue<P> {}

impl<P: Deref<Target: Hash>> Hash for ByValue<P> {
    fn hash<H: Hasher>(&self, state: &mut H) {
        (**self).hash(state)
    }
}

/// A fast hash, as engines have it in place of std's.
#[derive(Default)]
pub struct FastHasher(u64);

pub type FastHash = BuildHasherDefault<FastHasher>;

impl Hasher for FastHasher {
    fn write(&mut self, bytes: &[u8]) {
        for byte in bytes {
            self.write_u64(u64::from(*byte));
        }
    }

    fn write_u32(&mut self, n: u32) {
        self.write_u64(u64::from(n));
    }

    fn write_usize(&mut self, n: usize) {
        self.write_u64(n as u64);
    }

    fn write_u64(&mut self, n: u64) {
        self.0 = (self.0.rotate_left(5) ^ n).wrapping_mul(0x517c_c1b7_2722_0a95);
    }

    fn finish(&self) -> u64 {
        self.0.rotate_left(26)
    }
}

//! Handles of one of two types.

use crate::random::Random;
use servo_arc::{ArcUnion, ArcUnionBorrow};
use std::ops::Deref;

pub trait Union: Clone {
    /// One of each type, 7 and 9.
    fn both() -> [Self; 2];
    fn value(&self) -> u64;
}

impl Union for ArcUnion<u64, u32> {
    fn both() -> [Self; 2] {
        [
            ArcUnion::from_first(servo_arc::Arc::new(7)),
            ArcUnion::from_second(servo_arc::Arc::new(9)),
        ]
    }

    fn value(&self) -> u64 {
        match self.borrow() {
            ArcUnionBorrow::First(value) => *value,
            ArcUnionBorrow::Second(value) => u64::from(*value),
        }
    }
}

/// In place of the union of a pointer that has none.
#[derive(Clone)]
pub enum Either<A, B> {
    First(A),
    Second(B),
}

impl<A, B> Union for Either<A, B>
where
    A: From<u64> + Clone + Deref<Target = u64>,
    B: From<u32> + Clone + Deref<Target = u32>,
{
    fn both() -> [Self; 2] {
        [Either::First(A::from(7)), Either::Second(B::from(9))]
    }

    fn value(&self) -> u64 {
        match self {
            Either::First(value) => **value,
            Either::Second(value) => u64::from(**value),
        }
    }
}

#[inline(never)]
pub fn clone_often<U: Union>(times: u64) -> u64 {
    let unions = U::both();
    let mut random = Random::new();
    let mut sum = 0u64;
    for _ in 0..times {
        let again = unions[random.below(2)].clone();
        sum = sum.wrapping_add(again.value());
    }
    sum
}

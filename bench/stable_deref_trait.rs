//! The two marker traits that the ported crate's source names, so that it is built without a registry.
#![no_std]
use core::ops::Deref;

/// # Safety
/// The address that `deref` gives stays the same when the pointer moves.
pub unsafe trait StableDeref: Deref {}

/// # Safety
/// A clone derefs to the address of the original.
pub unsafe trait CloneStableDeref: StableDeref + Clone {}

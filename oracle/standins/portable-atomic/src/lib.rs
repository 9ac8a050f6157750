//! Stand-in for `portable_atomic`: the atomics of `core`, which the real crate gives on this kind of machine too.

#![no_std]

pub use core::sync::atomic::{AtomicBool, AtomicU8, AtomicU32, Ordering};

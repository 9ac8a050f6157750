//! Stand-in for `embassy_sync`: a lock, a signal, a watch and a channel for a program of one thread.
//! A signal keeps the last value sent until it is taken, as the real one does. A watch also remembers the last value
//! sent since that was last asked for (`take_sent`), which the real one tells its receivers.

#![no_std]
#![allow(clippy::new_without_default)]

extern crate alloc;

pub mod blocking_mutex;
pub mod channel;
pub mod signal;
pub mod watch;

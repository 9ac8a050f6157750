//! Stand-in for `embassy_time`: a clock in whole milliseconds that the oracle sets before each call.
//! The real clock counts ticks and converts; document 01 makes it unsigned 64-bit milliseconds.

#![no_std]

use core::future::{Future, pending};
use core::sync::atomic::{AtomicU64, Ordering};

static CLOCK_MS: AtomicU64 = AtomicU64::new(0);

/// What `Instant::now` gives from here on.
pub fn set_clock_ms(now_ms: u64) {
    CLOCK_MS.store(now_ms, Ordering::Relaxed);
}

#[derive(Clone, Copy, Debug, PartialEq, Eq, PartialOrd, Ord)]
pub struct Instant {
    ms: u64,
}

impl Instant {
    pub fn now() -> Self {
        Self::from_millis(CLOCK_MS.load(Ordering::Relaxed))
    }

    pub const fn from_millis(ms: u64) -> Self {
        Self { ms }
    }

    pub const fn as_millis(&self) -> u64 {
        self.ms
    }

    /// Only the time stamps of logged frames use it, which nothing here reads.
    pub const fn as_micros(&self) -> u64 {
        self.ms.wrapping_mul(1000)
    }

    pub const fn saturating_duration_since(&self, earlier: Self) -> Duration {
        Duration {
            ms: self.ms.saturating_sub(earlier.ms),
        }
    }
}

#[derive(Clone, Copy, Debug, PartialEq, Eq, PartialOrd, Ord)]
pub struct Duration {
    ms: u64,
}

impl Duration {
    pub const fn from_millis(ms: u64) -> Self {
        Self { ms }
    }

    pub const fn from_secs(s: u64) -> Self {
        Self { ms: s * 1000 }
    }
}

/// A timer that never fires: only tasks wait for one, and the oracle runs none.
pub struct Timer;

impl Timer {
    pub fn after(_duration: Duration) -> impl Future<Output = ()> {
        pending()
    }
}

#[derive(Clone, Copy, Debug, PartialEq, Eq)]
pub struct TimeoutError;

/// Waits without a limit: only the logging server uses it.
pub async fn with_timeout<F: Future>(
    _limit: Duration,
    future: F,
) -> Result<F::Output, TimeoutError> {
    Ok(future.await)
}

use core::marker::PhantomData;

pub mod raw {
    pub struct CriticalSectionRawMutex;
}

/// A lock that never waits. Like a critical section it may be entered again while it is held.
pub struct Mutex<R, T> {
    raw: PhantomData<R>,
    inner: T,
}

// SAFETY: the oracle's programs have one thread.
unsafe impl<R, T> Sync for Mutex<R, T> {}

impl<R, T> Mutex<R, T> {
    pub const fn new(inner: T) -> Self {
        Self {
            raw: PhantomData,
            inner,
        }
    }

    pub fn lock<U>(&self, f: impl FnOnce(&T) -> U) -> U {
        f(&self.inner)
    }
}

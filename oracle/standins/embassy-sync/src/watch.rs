use core::cell::RefCell;
use core::marker::PhantomData;

/// A value that can be read at any time, and the last value sent since `take_sent`.
pub struct Watch<R, T, const N: usize> {
    raw: PhantomData<R>,
    cells: RefCell<Cells<T>>,
}

struct Cells<T> {
    value: Option<T>,
    sent: Option<T>,
}

// SAFETY: the oracle's programs have one thread.
unsafe impl<R, T, const N: usize> Sync for Watch<R, T, N> {}

impl<R, T: Clone, const N: usize> Watch<R, T, N> {
    pub const fn new_with(value: T) -> Self {
        Self {
            raw: PhantomData,
            cells: RefCell::new(Cells {
                value: Some(value),
                sent: None,
            }),
        }
    }

    pub fn sender(&self) -> Sender<'_, R, T, N> {
        Sender { watch: self }
    }

    pub fn receiver(&self) -> Option<Receiver<'_, R, T, N>> {
        Some(Receiver { watch: self })
    }

    pub fn try_get(&self) -> Option<T> {
        self.cells.borrow().value.clone()
    }

    /// Added: the last value sent since this was last called.
    pub fn take_sent(&self) -> Option<T> {
        self.cells.borrow_mut().sent.take()
    }

    /// Added: sets the value without a record of it.
    pub fn set_quietly(&self, value: T) {
        self.cells.borrow_mut().value = Some(value);
    }
}

pub struct Sender<'a, R, T, const N: usize> {
    watch: &'a Watch<R, T, N>,
}

impl<R, T: Clone, const N: usize> Sender<'_, R, T, N> {
    pub fn send(&self, value: T) {
        let mut cells = self.watch.cells.borrow_mut();
        cells.sent = Some(value.clone());
        cells.value = Some(value);
    }
}

/// Named by the source's signatures; nothing here waits on one.
pub struct Receiver<'a, R, T, const N: usize> {
    watch: &'a Watch<R, T, N>,
}

impl<R, T: Clone, const N: usize> Receiver<'_, R, T, N> {
    pub fn try_get(&self) -> Option<T> {
        self.watch.try_get()
    }
}

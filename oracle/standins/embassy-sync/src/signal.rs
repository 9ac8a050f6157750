use core::cell::RefCell;
use core::future::poll_fn;
use core::marker::PhantomData;
use core::task::Poll;

/// The last value sent and not yet taken.
pub struct Signal<R, T> {
    raw: PhantomData<R>,
    value: RefCell<Option<T>>,
}

// SAFETY: the oracle's programs have one thread.
unsafe impl<R, T> Sync for Signal<R, T> {}

impl<R, T> Signal<R, T> {
    pub const fn new() -> Self {
        Self {
            raw: PhantomData,
            value: RefCell::new(None),
        }
    }

    pub fn signal(&self, value: T) {
        *self.value.borrow_mut() = Some(value);
    }

    pub fn reset(&self) {
        *self.value.borrow_mut() = None;
    }

    pub fn try_take(&self) -> Option<T> {
        self.value.borrow_mut().take()
    }

    pub async fn wait(&self) -> T {
        poll_fn(|_| match self.try_take() {
            Some(value) => Poll::Ready(value),
            None => Poll::Pending,
        })
        .await
    }
}

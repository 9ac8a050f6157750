use alloc::collections::VecDeque;
use core::cell::RefCell;
use core::future::poll_fn;
use core::marker::PhantomData;
use core::task::Poll;

/// A queue of at most `N` values.
pub struct Channel<R, T, const N: usize> {
    raw: PhantomData<R>,
    queue: RefCell<VecDeque<T>>,
}

#[derive(Debug, PartialEq, Eq)]
pub enum TrySendError<T> {
    Full(T),
}

#[derive(Debug, PartialEq, Eq)]
pub enum TryReceiveError {
    Empty,
}

// SAFETY: the oracle's programs have one thread.
unsafe impl<R, T, const N: usize> Sync for Channel<R, T, N> {}

impl<R, T, const N: usize> Channel<R, T, N> {
    pub const fn new() -> Self {
        Self {
            raw: PhantomData,
            queue: RefCell::new(VecDeque::new()),
        }
    }

    pub fn try_send(&self, value: T) -> Result<(), TrySendError<T>> {
        let mut queue = self.queue.borrow_mut();
        if queue.len() >= N {
            return Err(TrySendError::Full(value));
        }
        queue.push_back(value);
        Ok(())
    }

    pub fn try_receive(&self) -> Result<T, TryReceiveError> {
        self.queue
            .borrow_mut()
            .pop_front()
            .ok_or(TryReceiveError::Empty)
    }

    pub async fn send(&self, value: T) {
        let mut waiting = Some(value);
        poll_fn(|_| match waiting.take().map(|value| self.try_send(value)) {
            Some(Err(TrySendError::Full(value))) => {
                waiting = Some(value);
                Poll::Pending
            }
            _ => Poll::Ready(()),
        })
        .await
    }

    pub async fn receive(&self) -> T {
        poll_fn(|_| match self.try_receive() {
            Ok(value) => Poll::Ready(value),
            Err(TryReceiveError::Empty) => Poll::Pending,
        })
        .await
    }
}

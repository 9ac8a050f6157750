//! Stand-in for `embassy_futures`: `select`, which polls two futures in turn. Only tasks and the logging server use it.

#![no_std]

pub mod select {
    use core::future::{Future, poll_fn};
    use core::pin::pin;
    use core::task::Poll;

    pub enum Either<A, B> {
        First(A),
        Second(B),
    }

    pub async fn select<A: Future, B: Future>(a: A, b: B) -> Either<A::Output, B::Output> {
        let mut a = pin!(a);
        let mut b = pin!(b);
        poll_fn(|cx| {
            if let Poll::Ready(value) = a.as_mut().poll(cx) {
                return Poll::Ready(Either::First(value));
            }
            b.as_mut().poll(cx).map(Either::Second)
        })
        .await
    }
}

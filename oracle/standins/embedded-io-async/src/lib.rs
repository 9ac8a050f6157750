//! Stand-in for `embedded_io_async`: the two traits that the logging server is written over. The oracle has no stream,
//! so nothing implements them.

#![no_std]
#![allow(async_fn_in_trait)]

pub trait ErrorType {
    type Error;
}

pub trait Read: ErrorType {
    async fn read(&mut self, buf: &mut [u8]) -> Result<usize, Self::Error>;
}

pub trait Write: ErrorType {
    async fn write_all(&mut self, buf: &[u8]) -> Result<(), Self::Error>;
}

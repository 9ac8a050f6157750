//! The proved side: the functions of the Rattle crate `bench_calls`. A slice crosses as a pointer and a length.

use crate::work::{METHOD, RANDOM, Work};

unsafe extern "C" {
    fn timed_digest(platform: u32, print: *const u8, len: usize, out: *mut [u8; 32]) -> bool;
    fn timed_starts(
        n: u64,
        car: *const [u8; 32],
        record: *const u8,
        record_len: usize,
        phone: *const u8,
        phone_len: usize,
        method: *const u8,
        method_len: usize,
        random: *const u8,
        random_len: usize,
    ) -> u32;
    fn timed_submits(
        n: u64,
        car: *const [u8; 32],
        record: *const u8,
        record_len: usize,
        phone: *const u8,
        phone_len: usize,
        method: *const u8,
        method_len: usize,
        random: *const u8,
        random_len: usize,
        typed: *const u8,
        typed_len: usize,
    ) -> u32;
    fn timed_allows(
        n: u64,
        car: *const [u8; 32],
        record: *const u8,
        record_len: usize,
        method: *const u8,
        method_len: usize,
        command: bool,
        owner: *const u8,
        owner_len: usize,
    ) -> u32;
    fn timed_sends(
        n: u64,
        car: *const [u8; 32],
        record: *const u8,
        record_len: usize,
        method: *const u8,
        method_len: usize,
        command: bool,
        owner: *const u8,
        owner_len: usize,
    ) -> u32;
    fn timed_serves(
        n: u64,
        car: *const [u8; 32],
        record: *const u8,
        record_len: usize,
        method: *const u8,
        method_len: usize,
        command: bool,
        owner: *const u8,
        owner_len: usize,
    ) -> u32;
    fn timed_restores(
        n: u64,
        car: *const [u8; 32],
        record: *const u8,
        record_len: usize,
        method: *const u8,
        method_len: usize,
    ) -> u32;
    fn timed_encodes(
        n: u64,
        car: *const [u8; 32],
        record: *const u8,
        record_len: usize,
        method: *const u8,
        method_len: usize,
    ) -> u32;
    fn timed_floors(
        n: u64,
        car: *const [u8; 32],
        record: *const u8,
        record_len: usize,
        method: *const u8,
        method_len: usize,
    ) -> u32;
}

// SAFETY, for each call below: the pointers are those of live slices with their lengths, and the functions have no
// `requires`.

pub fn digest(platform: u32, fingerprint: &[u8]) -> [u8; 32] {
    let mut out = [0; 32];
    let ok = unsafe { timed_digest(platform, fingerprint.as_ptr(), fingerprint.len(), &mut out) };
    assert!(ok, "at most 4,096 bytes");
    out
}

pub fn starts(work: &Work, n: u64) -> u32 {
    unsafe {
        timed_starts(
            n,
            &work.car,
            work.record.as_ptr(),
            work.record.len(),
            work.phone.as_ptr(),
            work.phone.len(),
            METHOD.as_ptr(),
            METHOD.len(),
            RANDOM.as_ptr(),
            RANDOM.len(),
        )
    }
}

pub fn submits(work: &Work, typed: &[u8], n: u64) -> u32 {
    unsafe {
        timed_submits(
            n,
            &work.car,
            work.record.as_ptr(),
            work.record.len(),
            work.phone.as_ptr(),
            work.phone.len(),
            METHOD.as_ptr(),
            METHOD.len(),
            RANDOM.as_ptr(),
            RANDOM.len(),
            typed.as_ptr(),
            typed.len(),
        )
    }
}

pub fn allows(work: &Work, command: bool, n: u64) -> u32 {
    unsafe {
        timed_allows(
            n,
            &work.car,
            work.record.as_ptr(),
            work.record.len(),
            METHOD.as_ptr(),
            METHOD.len(),
            command,
            work.phone.as_ptr(),
            work.phone.len(),
        )
    }
}

pub fn sends(work: &Work, command: bool, n: u64) -> u32 {
    unsafe {
        timed_sends(
            n,
            &work.car,
            work.record.as_ptr(),
            work.record.len(),
            METHOD.as_ptr(),
            METHOD.len(),
            command,
            work.phone.as_ptr(),
            work.phone.len(),
        )
    }
}

pub fn serves(work: &Work, command: bool, n: u64) -> u32 {
    unsafe {
        timed_serves(
            n,
            &work.car,
            work.record.as_ptr(),
            work.record.len(),
            METHOD.as_ptr(),
            METHOD.len(),
            command,
            work.phone.as_ptr(),
            work.phone.len(),
        )
    }
}

pub fn restores(work: &Work, n: u64) -> u32 {
    unsafe {
        timed_restores(
            n,
            &work.car,
            work.record.as_ptr(),
            work.record.len(),
            METHOD.as_ptr(),
            METHOD.len(),
        )
    }
}

pub fn encodes(work: &Work, n: u64) -> u32 {
    unsafe {
        timed_encodes(
            n,
            &work.car,
            work.record.as_ptr(),
            work.record.len(),
            METHOD.as_ptr(),
            METHOD.len(),
        )
    }
}

pub fn floors(work: &Work, n: u64) -> u32 {
    unsafe {
        timed_floors(
            n,
            &work.car,
            work.record.as_ptr(),
            work.record.len(),
            METHOD.as_ptr(),
            METHOD.len(),
        )
    }
}

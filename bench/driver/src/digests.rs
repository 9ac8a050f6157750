//! The car digest in Rust, over the crate `sha2`, and in C. The Rust is that of the source's `car_digest`.

use sha2::{Digest, Sha256};

const DOMAIN: &[u8] = b"opencar/can-rw-approval/v1";

unsafe extern "C" {
    fn reference_digest(platform: u32, print: *const u8, len: usize, out: *mut u8);
}

#[inline(never)]
pub fn rust(platform: u32, fingerprint: &[u8]) -> [u8; 32] {
    let mut hasher = Sha256::new();
    hasher.update(DOMAIN);
    hasher.update(platform.to_le_bytes());
    hasher.update(fingerprint);
    hasher.finalize().into()
}

pub fn c(platform: u32, fingerprint: &[u8]) -> [u8; 32] {
    let mut out = [0; 32];
    // SAFETY: the pointers are those of a live slice and of 32 bytes to write.
    unsafe {
        reference_digest(
            platform,
            fingerprint.as_ptr(),
            fingerprint.len(),
            out.as_mut_ptr(),
        );
    }
    out
}

/// `n` digests; the sum of their bytes at a place that moves.
pub fn many(digest: fn(u32, &[u8]) -> [u8; 32], fingerprint: &[u8], n: u64) -> u32 {
    let digest = std::hint::black_box(digest);
    (0..n).fold(0, |sum: u32, i| {
        let out = digest(i as u32, std::hint::black_box(fingerprint));
        sum.wrapping_add(out[i as usize % 32].into())
    })
}

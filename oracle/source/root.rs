#![cfg_attr(not(test), no_std)]
// The line above is the first line of the source's lib.rs; what is included is the rest of it (see build.rs).
#![allow(dead_code, clippy::useless_conversion)]

include!(concat!(env!("OUT_DIR"), "/lib.rs"));

/// What `append/` adds to each module, for the oracle.
pub mod oracle {
    pub use crate::availability::oracle as availability;
    pub use crate::can::oracle as can;
    pub use crate::can_access::oracle as can_access;
    pub use crate::can_log::oracle as can_log;
    pub use crate::can_probe::oracle as can_probe;
    pub use crate::can_tx::oracle as can_tx;
    pub use crate::pairing::oracle as pairing;
    pub use crate::phone_trust::oracle as phone_trust;
    pub use crate::validation::oracle as validation;
}

//! Stand-in for a module that docs/src does not hold (the pairing window). lib.rs passes these names on; nothing calls
//! them.

pub fn close_pairing_window() {}
pub fn is_pairing_window_open() {}
pub fn open_pairing_window_for() {}

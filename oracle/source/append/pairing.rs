
// ── Added for the oracle ──────────────────────────────────────────────────────

pub mod oracle {
    use super::*;

    /// A new gate's limit, 0 included, which `set_ble_max_bonded_phones` would ignore.
    pub fn set_bonded_limit(max: u8) {
        BLE_MAX_BONDED_PHONES.store(max, Ordering::Relaxed);
    }

    pub fn paired() -> Vec<Vec<u8>> {
        PAIRED_PHONES.lock(|phones| phones.borrow().clone())
    }

    pub fn set_paired(paired: Vec<Vec<u8>>) {
        PAIRED_PHONES.lock(|phones| *phones.borrow_mut() = paired);
    }
}


// ── Added for the oracle ──────────────────────────────────────────────────────

pub mod oracle {
    use super::*;

    pub fn validations() -> Option<(CarDigest, Vec<Vec<u8>>)> {
        VALIDATIONS.lock(|v| v.borrow().as_ref().map(|v| (v.car, v.phones.clone())))
    }

    pub fn set_validations(validations: Option<(CarDigest, Vec<Vec<u8>>)>) {
        let validations = validations.map(|(car, phones)| Validations { car, phones });
        VALIDATIONS.lock(|v| *v.borrow_mut() = validations);
    }

    pub fn validated_count() -> usize {
        VALIDATIONS.lock(|v| v.borrow().as_ref().map_or(0, |v| v.phones.len()))
    }

    pub fn ble_peer() -> Option<Vec<u8>> {
        super::ble_peer()
    }

    pub fn is_ble_peer_validated() -> bool {
        super::is_ble_peer_validated()
    }

    /// Sends what a change of the validations sends.
    pub fn store_validations() {
        super::store_validations();
    }

    pub fn notify_phone_access_changed() {
        super::notify_phone_access_changed();
    }
}


// ── Added for the oracle ──────────────────────────────────────────────────────

pub mod oracle {
    use super::*;

    /// What the dispatcher makes for a command of this phone.
    pub fn authorization(device_id: &[u8]) -> CommandAuthorization {
        CommandAuthorization::new(device_id.to_vec())
    }
}

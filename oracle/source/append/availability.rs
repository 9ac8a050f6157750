// ── Added for the oracle ──────────────────────────────────────────────────────

pub mod oracle {
    /// Whether the availability signal was raised since this was last asked.
    pub fn take_changed() -> bool {
        super::CHANGED.try_take().is_some()
    }
}

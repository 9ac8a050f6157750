
// ── Added for the oracle ──────────────────────────────────────────────────────

pub mod oracle {
    use super::*;

    /// The logging note sets this flag and nothing else. What a logging session does besides is not ported.
    pub fn set_logging(on: bool) {
        CAN_LOG_ACTIVE.store(on, Ordering::Relaxed);
    }

    /// The statics as they are at first.
    pub fn reset() {
        CAN_LOG_ACTIVE.store(false, Ordering::Relaxed);
        CAN_LOG_DROPPED.store(0, Ordering::Relaxed);
        while CAN_LOG_CHANNEL.try_receive().is_ok() {}
    }
}

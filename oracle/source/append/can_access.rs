
// ── Added for the oracle ──────────────────────────────────────────────────────

pub mod oracle {
    use super::*;

    pub fn car() -> Option<CarDigest> {
        POLICY.lock(|p| p.borrow().car)
    }

    pub fn approval() -> Option<CarDigest> {
        POLICY.lock(|p| p.borrow().approval)
    }

    pub fn dev_unlocked() -> bool {
        POLICY.lock(|p| p.borrow().dev_unlocked)
    }

    pub fn set_car(car: Option<CarDigest>) {
        POLICY.lock(|p| p.borrow_mut().car = car);
    }

    pub fn set_dev_unlocked(unlocked: bool) {
        POLICY.lock(|p| p.borrow_mut().dev_unlocked = unlocked);
    }

    /// Whether the access signal was raised since this was last asked.
    pub fn take_access_changed() -> bool {
        CAN_ACCESS_CHANGED.try_take().is_some()
    }

    /// The statics as they are at first.
    pub fn reset() {
        reset_can_access_for_tests();
        PRODUCTION_BUILD.store(false, Ordering::Relaxed);
        CAN_ACCESS_CHANGED.reset();
    }
}


// ── Added for the oracle ──────────────────────────────────────────────────────

pub mod oracle {
    use super::*;

    pub fn vehicle_read_only() -> bool {
        CAN_READ_ONLY.load(Ordering::Relaxed)
    }

    pub fn set_vehicle_read_only(read_only: bool) {
        CAN_READ_ONLY.store(read_only, Ordering::Relaxed);
    }

    /// For FD notes: the source can declare an FD bus but not take it back.
    pub fn undeclare_can_fd_bus(bus_id: u8) {
        if let Some(flag) = CAN_FD_BUSES.get(bus_id as usize) {
            flag.store(false, Ordering::Relaxed);
        }
    }

    /// The last value sent to the CAN drivers since this was last asked.
    pub fn take_read_only_sent() -> Option<bool> {
        CAN_READ_ONLY_WATCH.take_sent()
    }

    /// The statics as they are at first.
    pub fn reset() {
        CAN_READ_ONLY.store(true, Ordering::Relaxed);
        CAR_IDENTITY_CONFIRMED.store(false, Ordering::Relaxed);
        for flag in &CAN_FD_BUSES {
            flag.store(false, Ordering::Relaxed);
        }
        CAN_READ_ONLY_WATCH.set_quietly(true);
        CAN_READ_ONLY_WATCH.take_sent();
    }
}

// ── Added for the oracle ──────────────────────────────────────────────────────

pub mod oracle {
    use super::*;

    /// The stored window.
    #[derive(Clone, Copy)]
    pub struct WindowView {
        pub probe: &'static IdentityProbe,
        pub opened_at_ms: u64,
        pub relocks: u32,
        pub sent: u8,
    }

    pub fn window() -> Option<WindowView> {
        WINDOW.lock(|w| {
            w.borrow().as_ref().map(|w| WindowView {
                probe: w.probe,
                opened_at_ms: w.opened_at.as_millis(),
                relocks: w.relocks,
                sent: w.sent,
            })
        })
    }

    pub fn set_window(view: Option<WindowView>) {
        let window = view.map(|view| Window {
            probe: view.probe,
            opened_at: Instant::from_millis(view.opened_at_ms),
            relocks: view.relocks,
            sent: view.sent,
        });
        WINDOW.lock(|w| *w.borrow_mut() = window);
    }

    pub fn attempts() -> u8 {
        ATTEMPTS.load(Ordering::Relaxed)
    }

    pub fn set_attempts(attempts: u8) {
        ATTEMPTS.store(attempts, Ordering::Relaxed);
    }

    pub fn relocks() -> u32 {
        RELOCKS.load(Ordering::Relaxed)
    }

    pub fn set_relocks(relocks: u32) {
        RELOCKS.store(relocks, Ordering::Relaxed);
    }

    pub fn marks() -> [u32; MAX_CAN_BUSES] {
        core::array::from_fn(|bus| LAST_RX_MS[bus].load(Ordering::Relaxed))
    }

    pub fn set_marks(marks: [u32; MAX_CAN_BUSES]) {
        for (last, mark) in LAST_RX_MS.iter().zip(marks) {
            last.store(mark, Ordering::Relaxed);
        }
    }

    /// The statics as they are at first.
    pub fn reset() {
        reset_identity_probe_for_tests();
        set_relocks(0);
    }
}

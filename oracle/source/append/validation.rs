
// ── Added for the oracle ──────────────────────────────────────────────────────

pub mod oracle {
    use super::*;

    /// The stored session.
    #[derive(Clone)]
    pub struct SessionView {
        pub id: u32,
        pub phone: Vec<u8>,
        pub method: &'static ValidationMethod,
        pub car: CarDigest,
        pub code: Option<[u8; CODE_LENGTH]>,
        pub attempts_left: u32,
        pub deadline_ms: u64,
        pub status: Status,
        pub ended_at_ms: u64,
    }

    pub fn session() -> Option<SessionView> {
        STATE.lock(|s| {
            s.borrow().session.as_ref().map(|s| SessionView {
                id: s.id,
                phone: s.phone.clone(),
                method: s.method,
                car: s.car,
                code: s.code,
                attempts_left: s.attempts_left,
                deadline_ms: s.deadline_ms,
                status: s.status,
                ended_at_ms: s.ended_at_ms,
            })
        })
    }

    pub fn set_session(view: Option<SessionView>) {
        let session = view.map(|view| Session {
            id: view.id,
            phone: view.phone,
            method: view.method,
            car: view.car,
            code: view.code,
            attempts_left: view.attempts_left,
            deadline_ms: view.deadline_ms,
            status: view.status,
            ended_at_ms: view.ended_at_ms,
        });
        STATE.lock(|s| s.borrow_mut().session = session);
    }

    /// The tries of the stored session, if there is one.
    pub fn set_attempts_left(attempts: u32) {
        STATE.lock(|s| {
            if let Some(session) = &mut s.borrow_mut().session {
                session.attempts_left = attempts;
            }
        });
    }

    pub fn methods() -> &'static [ValidationMethod] {
        STATE.lock(|s| s.borrow().methods)
    }

    pub fn cooldown_until_ms() -> u64 {
        STATE.lock(|s| s.borrow().cooldown_until_ms)
    }

    pub fn set_cooldown_until_ms(until_ms: u64) {
        STATE.lock(|s| s.borrow_mut().cooldown_until_ms = until_ms);
    }

    pub fn next_id() -> u32 {
        STATE.lock(|s| s.borrow().next_id)
    }

    pub fn set_next_id(next_id: u32) {
        STATE.lock(|s| s.borrow_mut().next_id = next_id);
    }

    /// The lent random bytes of one start; none if no byte is lent.
    pub fn set_random(random: Option<fn(&mut [u8])>) {
        STATE.lock(|s| s.borrow_mut().random = random);
    }

    /// The last challenge sent since this was last asked.
    pub fn take_challenge_sent() -> Option<Option<ValidationChallenge>> {
        CHALLENGE.take_sent()
    }

    pub fn set_challenge_quietly(challenge: Option<ValidationChallenge>) {
        CHALLENGE.set_quietly(challenge);
    }

    /// Raises what the end of a challenge raises.
    pub fn after_change(challenge_ended: bool) {
        super::after_change(challenge_ended);
    }

    pub fn start_validation(
        phone: &[u8],
        method_id: &str,
        now_ms: u64,
    ) -> Result<proto::PhoneValidationSession, (ValidationError, Data)> {
        super::start_validation(phone, method_id, now_ms)
    }

    pub fn submit_validation_code(
        phone: &[u8],
        code: &str,
        now_ms: u64,
    ) -> Result<proto::PhoneValidationSession, (ValidationError, Data)> {
        super::submit_validation_code(phone, code, now_ms)
    }

    pub fn cancel_validation(phone: &[u8], now_ms: u64) -> Result<(), ValidationError> {
        super::cancel_validation(phone, now_ms)
    }

    pub fn validation_methods() -> proto::PhoneValidationMethods {
        super::validation_methods()
    }

    pub fn session_for(phone: &[u8], now_ms: u64) -> Option<proto::PhoneValidationSession> {
        super::session_for(phone, now_ms)
    }

    /// The statics as they are at first.
    pub fn reset() {
        STATE.lock(|s| {
            *s.borrow_mut() = State {
                methods: &[],
                session: None,
                cooldown_until_ms: 0,
                next_id: 1,
                random: None,
            }
        });
        CHALLENGE.set_quietly(None);
        CHALLENGE.take_sent();
    }
}

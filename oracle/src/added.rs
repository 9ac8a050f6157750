//! What documents 01 and 02 add around the source or give another form (listed in ADDED.md). Each function decides only
//! what the source cannot, and leaves the rest to it.

use crate::answer::{Answer, Refusal, Values};
use crate::calls::Call;
use crate::gate::{Gate, Outcome, finish, plain, refused};
use crate::host::{self, RandomSpent, Settings};
use crate::items::{Class, IdKind, IdNumber, ProbeFrame};
use core_interface::oracle::validation::SessionView;
use core_interface::oracle::{
    availability, can, can_access, can_log, can_tx, phone_trust, validation,
};
use core_interface::proto::PhoneValidationStatus as Status;
use core_interface::proto::system_command_result::Result as Data;
use core_interface::{CanFrame, CanTxFrame, IdentityProbe, ValidationChallenge, ValidationError};
use embedded_can::{ExtendedId, Id, StandardId};
use std::panic::{AssertUnwindSafe, catch_unwind, resume_unwind};

pub const MAX_ID_BYTES: usize = 32;
pub const MAX_PHONES: usize = 32;
const MAX_FINGERPRINT_BYTES: usize = 4096;

impl Gate {
    /// Runs a call that document 01 adds to or changes; `None` for any other.
    pub(crate) fn run_added(&mut self, call: &Call) -> Option<Outcome> {
        Some(match call {
            Call::New { .. } => self.new_gate(Settings::of(call)?),
            Call::Start {
                phone,
                method,
                now,
                random,
            } => self.start(phone, method, *now, random),
            Call::Submit { phone, code, now } => submit(phone, code, *now),
            Call::Complete { session, now } => complete(*session, *now),
            Call::Pair { phone } => pair(phone),
            Call::Fingerprint { fingerprint } => confirm_fingerprint(fingerprint),
            Call::SetPeer { phone } => set_peer(phone.as_deref()),
            Call::OpenProbe { bus, now, frame } => self.open_probe(*bus, *now, &frame.0),
            Call::CloseProbe {} => self.close_probe(),
            Call::Allow {
                bus,
                frame_bus,
                kind,
                id,
                dlc,
                data,
                class,
                now,
            } => {
                embassy_time::set_clock_ms(*now);
                allow(*bus, (*frame_bus, *kind, *id, *dlc, *data), class)
            }
            Call::Heard { bus, now } => {
                self.marks.hear(*bus, *now);
                heard(*bus, *now)
            }
            Call::NotePlatform { number } => {
                core_interface::init(*number);
                plain(Answer::Ok)
            }
            Call::NoteLogging { on } => {
                can_log::set_logging(*on);
                plain(Answer::Ok)
            }
            Call::NoteFd { bus, on } => {
                if *on {
                    core_interface::declare_can_fd_bus(*bus);
                } else {
                    can::undeclare_can_fd_bus(*bus);
                }
                plain(Answer::Ok)
            }
            Call::NoteAvailable { place, on } => self.note(*place, *on, host::note_available),
            Call::NoteContinue { place, on } => self.note(*place, *on, host::note_continue),
            _ => return None,
        })
    }

    /// 25 hands back the least gate.
    fn new_gate(&mut self, settings: Settings) -> Outcome {
        if settings.in_range() {
            self.make_new(settings);
            plain(Answer::Ok)
        } else {
            self.make_new(Settings::least());
            refused(Refusal::BadSettings)
        }
    }

    /// 17 also for an id out of range.
    fn open_probe(&mut self, bus: u8, now: u64, frames: &[ProbeFrame]) -> Outcome {
        embassy_time::set_clock_ms(now);
        let frames: Option<Vec<(Id, [u8; 8])>> = frames
            .iter()
            .map(|frame| can_id(frame.kind, frame.id).map(|id| (id, frame.data)))
            .collect();
        let Some(frames) = frames else {
            return refused(Refusal::Invalid);
        };
        let probe = Box::leak(Box::new(IdentityProbe {
            bus_id: bus,
            frames: frames.leak(),
        }));
        match core_interface::open_identity_probe(probe) {
            Ok(window) => {
                self.window = Some(window);
                plain(Answer::Ok)
            }
            Err(error) => refused(error),
        }
    }

    /// Dropping the window closes it; no if there is none.
    fn close_probe(&mut self) -> Outcome {
        match self.window.take() {
            Some(window) => {
                drop(window);
                plain(Answer::Yes)
            }
            None => plain(Answer::No),
        }
    }

    /// 18, 7 by the number of lent bytes, and 19 where the source would look for a group for ever. The source's session
    /// gets the gate's tries.
    fn start(&self, phone: &[u8], method: &[u8], now: u64, random: &[u8]) -> Outcome {
        if phone.len() > MAX_ID_BYTES {
            return refused(Refusal::IdTooLong);
        }
        // Methods have ids of ASCII; bytes that are no text become a text that is none of them.
        let method = String::from_utf8_lossy(method);
        host::lend(random);
        validation::set_random((!random.is_empty()).then_some(host::fill));
        let started = catch_unwind(AssertUnwindSafe(|| {
            validation::start_validation(phone, &method, now)
        }));
        validation::set_random(None);
        match started {
            Ok(Ok(session)) => {
                validation::set_attempts_left(self.tries);
                (Answer::Ok, Values::session(session.into()))
            }
            Ok(Err((error, data))) => (Answer::Refused(error.into()), refusal_values(error, data)),
            Err(stopped) if stopped.is::<RandomSpent>() => refused(Refusal::RandomSpent),
            Err(panic) => resume_unwind(panic),
        }
    }

    /// W-206, behind each call: the gate's tries are those that the source's session has left, and full again if the call
    /// ended a session as Succeeded or Failed.
    pub(crate) fn keep_tries(&mut self, ran: bool) {
        let Some(session) = validation::session() else {
            return;
        };
        let ended_so = matches!(session.status, Status::Succeeded | Status::Failed);
        self.tries = if ran && ended_so {
            self.settings.tries
        } else {
            session.attempts_left
        };
        validation::set_attempts_left(self.tries);
    }

    /// A place past the methods does nothing.
    fn note(&self, place: u32, on: bool, set: fn(usize, bool)) -> Outcome {
        if (place as usize) < self.settings.methods.len() {
            set(place as usize, on);
        }
        plain(Answer::Ok)
    }
}

/// Whether a session runs.
pub(crate) fn is_running() -> bool {
    validation::session().is_some_and(|session| session.status == Status::InProgress)
}

/// The session with a wrong code, the seconds with a cooldown.
fn refusal_values(error: ValidationError, data: Data) -> Values {
    match data {
        Data::ValidationSession(session) => Values::session(session.into()),
        Data::ValidationRefusal(refusal) if error == ValidationError::CoolingDown => {
            Values::text(format!("seconds={}", refusal.cooldown_s))
        }
        Data::ValidationRefusal(_) => Values::default(),
    }
}

/// W-202: bytes 32 and 45, each alone between two digits, are dropped. Trimming first would give the same, since no
/// digit is trimmed.
pub(crate) fn ungrouped(typed: &str) -> String {
    let bytes = typed.as_bytes();
    let is_digit = |at: usize| bytes.get(at).is_some_and(|byte| (48..=57).contains(byte));
    let mut kept = Vec::new();
    for (at, byte) in bytes.iter().enumerate() {
        let between = at > 0 && is_digit(at - 1) && is_digit(at + 1);
        if !(between && matches!(byte, 32 | 45)) {
            kept.push(*byte);
        }
    }
    String::from_utf8(kept).expect("whole characters were dropped")
}

/// 20 before anything else, and 21. The source is told the code without its groups.
fn submit(phone: &[u8], code: &[u8], now: u64) -> Outcome {
    let Ok(code) = std::str::from_utf8(code) else {
        return refused(Refusal::NotText);
    };
    let before = Before::now();
    let result = validation::submit_validation_code(phone, &ungrouped(code), now);
    if before.take_back_if_full() {
        return refused(Refusal::ListFull);
    }
    match result {
        Ok(session) => (Answer::Ok, Values::session(session.into())),
        Err((error, data)) => (Answer::Refused(error.into()), refusal_values(error, data)),
    }
}

/// 21, with no signal but the tick's. A session that can be completed was not ended by the tick, so that is none.
fn complete(session: u32, now: u64) -> Outcome {
    let before = Before::now();
    let completed = core_interface::complete_validation_action_at(session, now);
    if before.take_back_if_full() {
        can_access::take_access_changed();
        availability::take_changed();
        return refused(Refusal::ListFull);
    }
    plain(completed)
}

/// The session and the challenge before a call that may validate a phone.
struct Before {
    session: Option<SessionView>,
    challenge: Option<ValidationChallenge>,
}

impl Before {
    fn now() -> Self {
        Self {
            session: validation::session(),
            challenge: core_interface::current_validation_challenge(),
        }
    }

    /// The source's list has no bound. A success that made it longer than 32 is taken back: the phone leaves the list,
    /// the session goes on as it was, and what the success sent to the store and the display is not sent.
    fn take_back_if_full(self) -> bool {
        if phone_trust::validated_count() <= MAX_PHONES {
            return false;
        }
        let (car, mut phones) = phone_trust::validations().expect("the list is not empty");
        phones.pop();
        phone_trust::set_validations(Some((car, phones)));
        validation::set_session(self.session);
        validation::set_challenge_quietly(self.challenge);
        core_interface::try_take_phone_validations_to_store();
        validation::take_challenge_sent();
        true
    }
}

/// 18.
fn pair(phone: &[u8]) -> Outcome {
    if phone.len() > MAX_ID_BYTES {
        return refused(Refusal::IdTooLong);
    }
    plain(finish(core_interface::add_paired_phone(phone)))
}

/// 18.
fn set_peer(phone: Option<&[u8]>) -> Outcome {
    if phone.is_some_and(|phone| phone.len() > MAX_ID_BYTES) {
        return refused(Refusal::IdTooLong);
    }
    core_interface::set_ble_peer(phone);
    plain(Answer::Ok)
}

/// 23.
fn confirm_fingerprint(fingerprint: &[u8]) -> Outcome {
    if fingerprint.len() > MAX_FINGERPRINT_BYTES {
        return refused(Refusal::TooLarge);
    }
    plain(core_interface::confirm_car_fingerprint(fingerprint))
}

/// A CAN id, if the number is in range.
pub(crate) fn can_id(kind: IdKind, number: IdNumber) -> Option<Id> {
    match kind {
        IdKind::Std => StandardId::new(u16::try_from(number.0).ok()?).map(Id::Standard),
        IdKind::Ext => ExtendedId::new(number.0).map(Id::Extended),
    }
}

/// 24.
fn allow(
    bus: u8,
    (frame_bus, kind, number, dlc, data): (u8, IdKind, IdNumber, u8, [u8; 8]),
    class: &Class,
) -> Outcome {
    let Some(id) = can_id(kind, number) else {
        return refused(Refusal::BadFrame);
    };
    let frame = CanFrame {
        bus_id: frame_bus,
        id,
        data,
        dlc,
    };
    let frame = match class {
        Class::Platform => CanTxFrame::platform(frame),
        Class::Command(owner) => CanTxFrame::command(&can_tx::authorization(owner), frame),
    };
    plain(core_interface::allow_can_tx(bus, &frame))
}

/// The driver's call for every frame that it receives. Only the bus matters to the gate.
fn heard(bus: u8, now: u64) -> Outcome {
    embassy_time::set_clock_ms(now);
    let id = StandardId::new(0).expect("0 is in range");
    core_interface::log_can_frame(&CanFrame {
        bus_id: bus,
        id: Id::Standard(id),
        data: [0; 8],
        dlc: 0,
    });
    plain(Answer::Ok)
}

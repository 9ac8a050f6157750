//! What a call gives: its answer, the answer's values and the signals, and how a line shows them.

use crate::hex::to_hex;
use crate::items::{MethodKind, yes_no};
use core_interface::oracle::{availability, can, can_access, validation};
use core_interface::proto::{
    PhoneValidationMethodKind, PhoneValidationSession, PhoneValidationStatus,
};
use core_interface::{
    CanAccessError, CarDigest, ProbeRefused, ValidationChallenge, ValidationError,
};
use std::fmt;

/// The refusals of documents 01 and 02, with their numbers.
#[derive(Clone, Copy, Debug, PartialEq, Eq)]
pub enum Refusal {
    UnknownMethod = 1,
    CarNotIdentified = 2,
    CoolingDown = 3,
    OtherPhoneSession = 4,
    MethodUnavailable = 5,
    MethodNotAvailableNow = 6,
    NoRandomSource = 7,
    NoSession = 8,
    NotCodeEntry = 9,
    WrongCode = 10,
    NoDevLock = 11,
    NotNeeded = 12,
    Logging = 13,
    BusAsleep = 14,
    Busy = 15,
    NoAttemptsLeft = 16,
    Invalid = 17,
    IdTooLong = 18,
    RandomSpent = 19,
    NotText = 20,
    ListFull = 21,
    Malformed = 22,
    TooLarge = 23,
    BadFrame = 24,
    BadSettings = 25,
    BadBus = 26,
    QueueFull = 27,
    CarTwice = 28,
    ManyCars = 29,
    ShortOutput = 30,
    NoSave = 31,
}

impl From<ValidationError> for Refusal {
    fn from(error: ValidationError) -> Self {
        match error {
            ValidationError::UnknownMethod => Self::UnknownMethod,
            ValidationError::MethodUnavailable => Self::MethodUnavailable,
            ValidationError::MethodNotAvailableNow => Self::MethodNotAvailableNow,
            ValidationError::CarNotIdentified => Self::CarNotIdentified,
            ValidationError::OtherPhoneSession => Self::OtherPhoneSession,
            ValidationError::CoolingDown => Self::CoolingDown,
            ValidationError::NoSession => Self::NoSession,
            ValidationError::NotCodeEntry => Self::NotCodeEntry,
            ValidationError::NoRandomSource => Self::NoRandomSource,
            ValidationError::WrongCode => Self::WrongCode,
        }
    }
}

impl From<CanAccessError> for Refusal {
    fn from(error: CanAccessError) -> Self {
        match error {
            CanAccessError::CarNotIdentified => Self::CarNotIdentified,
            CanAccessError::NoDevLock => Self::NoDevLock,
        }
    }
}

impl From<ProbeRefused> for Refusal {
    fn from(refused: ProbeRefused) -> Self {
        match refused {
            ProbeRefused::NotNeeded => Self::NotNeeded,
            ProbeRefused::Logging => Self::Logging,
            ProbeRefused::BusAsleep => Self::BusAsleep,
            ProbeRefused::Busy => Self::Busy,
            ProbeRefused::NoAttemptsLeft => Self::NoAttemptsLeft,
            ProbeRefused::Invalid => Self::Invalid,
        }
    }
}

#[derive(Clone, Copy, Debug, PartialEq, Eq)]
pub enum Answer {
    Ok,
    Yes,
    No,
    None,
    Refused(Refusal),
}

impl From<bool> for Answer {
    fn from(yes: bool) -> Self {
        if yes { Self::Yes } else { Self::No }
    }
}

impl fmt::Display for Answer {
    fn fmt(&self, f: &mut fmt::Formatter) -> fmt::Result {
        match self {
            Self::Ok => f.write_str("ok"),
            Self::Yes => f.write_str("yes"),
            Self::No => f.write_str("no"),
            Self::None => f.write_str("none"),
            Self::Refused(refusal) => write!(f, "{}/{refusal:?}", *refusal as u32),
        }
    }
}

/// The session as a phone is told of it.
#[derive(Clone, Debug, PartialEq, Eq)]
pub struct SessionReply {
    pub place: usize,
    pub kind: MethodKind,
    pub status: PhoneValidationStatus,
    pub digits: u32,
    pub tries: u32,
    pub seconds: u32,
    pub cooldown: u32,
}

impl From<PhoneValidationSession> for SessionReply {
    fn from(session: PhoneValidationSession) -> Self {
        Self {
            place: place_of(&session.method_id),
            kind: kind_from(session.kind),
            status: status_from(session.status),
            digits: session.code_length,
            tries: session.attempts_left,
            seconds: session.expires_in_s,
            cooldown: session.cooldown_s,
        }
    }
}

impl fmt::Display for SessionReply {
    fn fmt(&self, f: &mut fmt::Formatter) -> fmt::Result {
        write!(
            f,
            "method={} kind={} status={} digits={} tries={} seconds={} cooldown={}",
            self.place,
            self.kind.name(),
            status_name(self.status),
            self.digits,
            self.tries,
            self.seconds,
            self.cooldown
        )
    }
}

/// The source names a session's method by id; only the first method with that id can have started.
pub fn place_of(method_id: &str) -> usize {
    validation::methods()
        .iter()
        .position(|method| method.id == method_id)
        .expect("a session's method is declared")
}

pub fn kind_from(number: i32) -> MethodKind {
    const CODE: i32 = PhoneValidationMethodKind::CodeEntry as i32;
    const ACTION: i32 = PhoneValidationMethodKind::InCarAction as i32;
    match number {
        CODE => MethodKind::Code,
        ACTION => MethodKind::Action,
        _ => panic!("the source gave a method kind that is none"),
    }
}

fn status_from(number: i32) -> PhoneValidationStatus {
    use PhoneValidationStatus::{Cancelled, Failed, InProgress, Succeeded, TimedOut};
    [InProgress, Succeeded, Failed, Cancelled, TimedOut]
        .into_iter()
        .find(|status| *status as i32 == number)
        .expect("the source gives one of the five statuses")
}

pub fn status_name(status: PhoneValidationStatus) -> &'static str {
    match status {
        PhoneValidationStatus::InProgress => "in_progress",
        PhoneValidationStatus::Succeeded => "succeeded",
        PhoneValidationStatus::Failed => "failed",
        PhoneValidationStatus::Cancelled => "cancelled",
        PhoneValidationStatus::TimedOut => "timed_out",
        PhoneValidationStatus::Unspecified => panic!("no session has this status"),
    }
}

/// The values that stand behind an answer: some text, then a session reply if there is one.
#[derive(Clone, Debug, Default, PartialEq, Eq)]
pub struct Values {
    pub text: String,
    pub session: Option<SessionReply>,
}

impl Values {
    pub fn text(text: String) -> Self {
        Self {
            text,
            session: None,
        }
    }

    pub fn session(session: SessionReply) -> Self {
        Self {
            text: String::new(),
            session: Some(session),
        }
    }
}

/// The running challenge, with the method's place.
pub fn show_challenge(challenge: &ValidationChallenge) -> (u32, usize, String) {
    let code = match &challenge.code {
        Some(code) => to_hex(code),
        None => "-".to_string(),
    };
    (challenge.session, place_of(challenge.method_id), code)
}

/// The last value sent on each channel during one call.
#[derive(Clone, Debug, Default, PartialEq, Eq)]
pub struct Signals {
    pub access: bool,
    pub availability: bool,
    pub read_only: Option<bool>,
    pub approval: Option<Option<CarDigest>>,
    pub validations: Option<Vec<u8>>,
    pub challenge: Option<Option<ValidationChallenge>>,
}

impl Signals {
    /// Takes what the source's channels hold, which leaves them empty.
    pub fn take() -> Self {
        Self {
            access: can_access::take_access_changed(),
            availability: availability::take_changed(),
            read_only: can::take_read_only_sent(),
            approval: core_interface::try_take_can_read_write_approval_to_store(),
            validations: core_interface::try_take_phone_validations_to_store(),
            challenge: validation::take_challenge_sent(),
        }
    }
}

impl fmt::Display for Signals {
    fn fmt(&self, f: &mut fmt::Formatter) -> fmt::Result {
        let mut sent: Vec<String> = Vec::new();
        if self.access {
            sent.push("A".to_string());
        }
        if self.availability {
            sent.push("V".to_string());
        }
        if let Some(read_only) = self.read_only {
            sent.push(format!("R:{}", yes_no(read_only)));
        }
        if let Some(approval) = &self.approval {
            sent.push(match approval {
                Some(car) => format!("P:{}", to_hex(car)),
                None => "P:erase".to_string(),
            });
        }
        if let Some(record) = &self.validations {
            sent.push(match &record[..] {
                [] => "S:erase".to_string(),
                record => format!("S:{}", to_hex(record)),
            });
        }
        if let Some(challenge) = &self.challenge {
            sent.push(match challenge {
                Some(challenge) => {
                    let (session, place, code) = show_challenge(challenge);
                    format!("C:{session}/{place}/{code}")
                }
                None => "C:none".to_string(),
            });
        }
        if sent.is_empty() {
            sent.push("none".to_string());
        }
        f.write_str(&sent.join(","))
    }
}

/// All that one call gives.
#[derive(Clone, Debug, PartialEq, Eq)]
pub struct Reply {
    pub answer: Answer,
    pub values: Values,
    pub signals: Signals,
}

impl fmt::Display for Reply {
    fn fmt(&self, f: &mut fmt::Formatter) -> fmt::Result {
        write!(f, "answer={}", self.answer)?;
        if !self.values.text.is_empty() {
            write!(f, " {}", self.values.text)?;
        }
        if let Some(session) = &self.values.session {
            write!(f, " {session}")?;
        }
        write!(f, " signals={}", self.signals)
    }
}

//! What the source asks of its surroundings: settings, the methods' two questions, random bytes.

use crate::calls::Call;
use crate::items::{Method, MethodKind};
use core_interface::{ValidationKind, ValidationMethod};
use std::cell::Cell;
use std::panic::resume_unwind;
use std::sync::Mutex;
use std::sync::atomic::{AtomicBool, Ordering};

/// The settings of a gate.
#[derive(Clone, Debug, PartialEq, Eq)]
pub struct Settings {
    pub digits: u32,
    pub tries: u32,
    pub session_ms: u32,
    pub cooldown_ms: u32,
    pub keep_ms: u32,
    pub bonded: u32,
    pub methods: Vec<Method>,
}

pub const MAX_METHODS: usize = 8;
const DAY_MS: u32 = 86_400_000;

impl Settings {
    /// The settings of a `new` call.
    pub fn of(call: &Call) -> Option<Self> {
        let Call::New {
            digits,
            tries,
            session,
            cooldown,
            keep,
            bonded,
            method,
        } = call
        else {
            return None;
        };
        Some(Self {
            digits: *digits,
            tries: *tries,
            session_ms: *session,
            cooldown_ms: *cooldown,
            keep_ms: *keep,
            bonded: *bonded,
            methods: method.0.clone(),
        })
    }

    /// The gate that 25 hands back.
    pub fn least() -> Self {
        Self {
            digits: 1,
            tries: 1,
            session_ms: 1,
            cooldown_ms: 0,
            keep_ms: 0,
            bonded: 0,
            methods: Vec::new(),
        }
    }

    pub fn in_range(&self) -> bool {
        (1..=9).contains(&self.digits)
            && (1..=20).contains(&self.tries)
            && (1..=DAY_MS).contains(&self.session_ms)
            && self.cooldown_ms <= DAY_MS
            && self.keep_ms <= DAY_MS
            && self.bonded <= 32
            && self.methods.len() <= MAX_METHODS
            && self.methods.iter().all(|method| {
                (1..=32).contains(&method.id.len())
                    && method.id.iter().all(|byte| (33..=126).contains(byte))
            })
    }

    /// Whether these are the settings that the source was compiled with.
    pub fn match_build(&self) -> bool {
        let built = [
            core_interface::CODE_LENGTH as u64,
            u64::from(core_interface::MAX_CODE_ATTEMPTS),
            core_interface::VALIDATION_SESSION_MS,
            core_interface::VALIDATION_COOLDOWN_MS,
            core_interface::VALIDATION_RESULT_KEEP_MS,
        ];
        let asked = [
            self.digits,
            self.tries,
            self.session_ms,
            self.cooldown_ms,
            self.keep_ms,
        ];
        asked.map(u64::from) == built
    }
}

// ── The methods' two questions ────────────────────────────────────────────────

static AVAILABLE: [AtomicBool; MAX_METHODS] = [const { AtomicBool::new(true) }; MAX_METHODS];
static CONTINUE: [AtomicBool; MAX_METHODS] = [const { AtomicBool::new(true) }; MAX_METHODS];

fn available<const PLACE: usize>() -> bool {
    AVAILABLE[PLACE].load(Ordering::Relaxed)
}

fn may_continue<const PLACE: usize>() -> bool {
    CONTINUE[PLACE].load(Ordering::Relaxed)
}

/// A method's question, whether it is available or may continue.
type Question = fn() -> bool;

/// A function for each place, since the source's methods hold plain functions.
const ARE_AVAILABLE: [Question; MAX_METHODS] = [
    available::<0>,
    available::<1>,
    available::<2>,
    available::<3>,
    available::<4>,
    available::<5>,
    available::<6>,
    available::<7>,
];

const MAY_CONTINUE: [Question; MAX_METHODS] = [
    may_continue::<0>,
    may_continue::<1>,
    may_continue::<2>,
    may_continue::<3>,
    may_continue::<4>,
    may_continue::<5>,
    may_continue::<6>,
    may_continue::<7>,
];

pub fn is_available(place: usize) -> bool {
    AVAILABLE[place].load(Ordering::Relaxed)
}

pub fn can_continue(place: usize) -> bool {
    CONTINUE[place].load(Ordering::Relaxed)
}

pub fn note_available(place: usize, on: bool) {
    AVAILABLE[place].store(on, Ordering::Relaxed);
}

pub fn note_continue(place: usize, on: bool) {
    CONTINUE[place].store(on, Ordering::Relaxed);
}

/// Declares methods to the source, which keeps them for as long as the program runs. Both questions say yes at first.
pub fn declare_methods(methods: &[Method]) {
    for flag in AVAILABLE.iter().chain(&CONTINUE) {
        flag.store(true, Ordering::Relaxed);
    }
    let declared: Vec<ValidationMethod> = methods.iter().enumerate().map(declared).collect();
    core_interface::declare_validation_methods(declared.leak());
}

fn declared((place, method): (usize, &Method)) -> ValidationMethod {
    let id = String::from_utf8(method.id.clone()).expect("bytes from 33 to 126 are text");
    ValidationMethod {
        id: id.leak(),
        kind: match method.kind {
            MethodKind::Code => ValidationKind::CodeEntry,
            MethodKind::Action => ValidationKind::InCarAction,
        },
        needs_approval: method.needs_approval,
        is_available: ARE_AVAILABLE[place],
        can_continue: MAY_CONTINUE[place],
    }
}

// ── Random bytes ──────────────────────────────────────────────────────────────

static LENT: Mutex<Vec<u8>> = Mutex::new(Vec::new());

/// Changes a group before the source sees it; only a wrong rule has one.
pub type Alter = fn([u8; 4]) -> [u8; 4];

thread_local! {
    static ALTER: Cell<Option<Alter>> = const { Cell::new(None) };
}

/// Ends a draw that has no whole group left. The source's loop would go on for ever.
pub struct RandomSpent;

/// The bytes that the next draw takes its groups from, front first.
pub fn lend(bytes: &[u8]) {
    let mut lent = LENT.lock().expect("one thread");
    lent.clear();
    lent.extend(bytes.iter().rev());
}

pub fn alter_groups(alter: Option<Alter>) {
    ALTER.set(alter);
}

/// The source's random source: fills the buffer from the lent bytes, or ends the draw.
pub fn fill(buffer: &mut [u8]) {
    let mut lent = LENT.lock().expect("one thread");
    if lent.len() < buffer.len() {
        drop(lent);
        resume_unwind(Box::new(RandomSpent));
    }
    for byte in buffer.iter_mut() {
        *byte = lent.pop().expect("counted above");
    }
    if let Some(alter) = ALTER.get() {
        let group = buffer.try_into().expect("the source draws four bytes");
        buffer.copy_from_slice(&alter(group));
    }
}

//! Wrong rules about what a typed code leads to: tries, cooldown, full lists.

use super::{Wrong, reply, run, wrong};
use crate::added::{MAX_PHONES, is_running};
use crate::answer::{Answer, Refusal, Reply};
use crate::calls::Call;
use crate::gate::{Gate, refused};
use crate::items::MethodKind;
use crate::shelf::Shelf;
use core_interface::MAX_CODE_ATTEMPTS;
use core_interface::oracle::validation::SessionView;
use core_interface::oracle::{phone_trust, validation};
use core_interface::proto::PhoneValidationStatus;
use core_interface::proto::PhoneValidationStatus::{Cancelled, Failed, InProgress, TimedOut};

pub const RULES: &[Wrong] = &[
    wrong(
        "cooldown-not-set",
        "the last try starts no cooldown",
        cooldown_not_set,
    ),
    wrong(
        "cooldown-after-reply",
        "the last try's reply does not show the new cooldown",
        cooldown_after_reply,
    ),
    wrong("start-refills", "a start refills the tries", start_refills)
        .same_if(MAX_CODE_ATTEMPTS == 1),
    wrong(
        "other-phone-refills",
        "a start of another phone refills the tries",
        other_phone_refills,
    )
    .same_if(MAX_CODE_ATTEMPTS == 1),
    wrong(
        "cancel-refills",
        "a session that is cancelled refills the tries",
        cancel_refills,
    )
    .same_if(MAX_CODE_ATTEMPTS == 1),
    wrong(
        "time-out-refills",
        "a session that times out refills the tries",
        time_out_refills,
    )
    .same_if(MAX_CODE_ATTEMPTS == 1),
    wrong(
        "failed-not-refilled",
        "a session that fails leaves no try",
        failed_not_refilled,
    ),
    wrong(
        "success-not-refilled",
        "a right code does not refill the tries",
        success_not_refilled,
    )
    .same_if(MAX_CODE_ATTEMPTS == 1),
    wrong(
        "action-not-refilled",
        "a completed action does not refill the tries",
        action_not_refilled,
    )
    .same_if(MAX_CODE_ATTEMPTS == 1),
    wrong(
        "full-list-refills",
        "a right code that a full list refuses refills the tries",
        full_list_refills,
    )
    .same_if(MAX_CODE_ATTEMPTS == 1),
    wrong(
        "no-session-silent",
        "a submit without a session raises no signal",
        no_session_silent,
    ),
    wrong("full-at-31", "a list of 31 phones is full", full_at_31),
    wrong(
        "full-if-listed",
        "a full list also refuses a phone that it holds",
        full_if_listed,
    ),
    wrong(
        "full-other-car",
        "a full list of another car refuses too",
        full_other_car,
    ),
    wrong(
        "full-all-cars",
        "32 phones under all cars together are full",
        full_all_cars,
    ),
    wrong(
        "fifth-car-refused",
        "a fifth car gets 21",
        fifth_car_refused,
    ),
    wrong(
        "full-before-code",
        "a full list refuses before the code is looked at",
        full_before_code,
    ),
    wrong(
        "cooldown-longest",
        "a cooldown does not replace a longer one",
        cooldown_longest,
    ),
    wrong(
        "success-listed-silent",
        "a success of a phone that is listed is not stored again",
        success_listed_silent,
    ),
];

/// Gives the gate other tries, behind a call; its reply shows them.
fn set_tries(gate: &mut Gate, reply: &mut Reply, tries: u32) {
    gate.tries = tries;
    validation::set_attempts_left(tries);
    if let Some(shown) = &mut reply.values.session
        && shown.kind == MethodKind::Code
    {
        shown.tries = tries;
    }
}

/// Runs a call and refills the tries behind it, if `refills` says so of the session before, the call and its answer.
fn refill_if(
    gate: &mut Gate,
    call: &Call,
    refills: fn(Option<SessionView>, &Call, Answer) -> bool,
) -> Reply {
    let before = validation::session();
    let mut reply = run(gate, call);
    if refills(before, call, reply.answer) {
        set_tries(gate, &mut reply, MAX_CODE_ATTEMPTS);
    }
    reply
}

/// Runs a call and takes its refill back, if it has this answer.
fn not_refilled(gate: &mut Gate, call: &Call, answer: Answer) -> Reply {
    let before = gate.tries;
    let mut reply = run(gate, call);
    if reply.answer == answer {
        set_tries(gate, &mut reply, before);
    }
    reply
}

pub fn refill_tries(gate: &mut Gate, call: &Call) -> Reply {
    refill_if(gate, call, |_, _, answer| {
        answer == Answer::Refused(Refusal::WrongCode) && is_running()
    })
}

fn start_refills(gate: &mut Gate, call: &Call) -> Reply {
    refill_if(gate, call, |_, call, answer| {
        matches!(call, Call::Start { .. }) && answer == Answer::Ok
    })
}

fn other_phone_refills(gate: &mut Gate, call: &Call) -> Reply {
    refill_if(gate, call, |before, call, answer| {
        let Call::Start { phone, .. } = call else {
            return false;
        };
        answer == Answer::Ok && before.is_some_and(|session| session.phone != *phone)
    })
}

/// Whether the session that ran before has ended so.
fn ended_as(before: Option<SessionView>, status: PhoneValidationStatus) -> bool {
    before.is_some_and(|session| session.status == InProgress)
        && validation::session().is_some_and(|session| session.status == status)
}

fn cancel_refills(gate: &mut Gate, call: &Call) -> Reply {
    refill_if(gate, call, |before, _, _| ended_as(before, Cancelled))
}

fn time_out_refills(gate: &mut Gate, call: &Call) -> Reply {
    refill_if(gate, call, |before, _, _| ended_as(before, TimedOut))
}

fn failed_not_refilled(gate: &mut Gate, call: &Call) -> Reply {
    let before = validation::session();
    let mut reply = run(gate, call);
    if ended_as(before, Failed) {
        set_tries(gate, &mut reply, 0);
    }
    reply
}

fn success_not_refilled(gate: &mut Gate, call: &Call) -> Reply {
    match call {
        Call::Submit { .. } => not_refilled(gate, call, Answer::Ok),
        _ => run(gate, call),
    }
}

fn action_not_refilled(gate: &mut Gate, call: &Call) -> Reply {
    match call {
        Call::Complete { .. } => not_refilled(gate, call, Answer::Yes),
        _ => run(gate, call),
    }
}

fn full_list_refills(gate: &mut Gate, call: &Call) -> Reply {
    refill_if(gate, call, |_, call, answer| {
        matches!(call, Call::Submit { .. }) && answer == Answer::Refused(Refusal::ListFull)
    })
}

/// What is left of a cooldown, in seconds.
fn left(until: u64, now: u64) -> u32 {
    until.saturating_sub(now).div_ceil(1000) as u32
}

fn cooldown_not_set(gate: &mut Gate, call: &Call) -> Reply {
    let until = validation::cooldown_until_ms();
    let reply = cooldown_after_reply(gate, call);
    if let Call::Submit { .. } = call {
        validation::set_cooldown_until_ms(until);
    }
    reply
}

fn cooldown_after_reply(gate: &mut Gate, call: &Call) -> Reply {
    let until = validation::cooldown_until_ms();
    let mut reply = run(gate, call);
    if let Call::Submit { now, .. } = call
        && let Some(shown) = &mut reply.values.session
        && shown.status == Failed
    {
        shown.cooldown = left(until, *now);
    }
    reply
}

fn no_session_silent(gate: &mut Gate, call: &Call) -> Reply {
    let mut reply = run(gate, call);
    let alone = reply.signals.challenge.is_none();
    if reply.answer == Answer::Refused(Refusal::NoSession) && alone {
        reply.signals = Default::default();
    }
    reply
}

/// Runs the call on the same gate and, if `full` says so of the store before it, takes its success back and answers 21.
fn refuse_success(gate: &mut Gate, call: &Call, full: fn(&Before) -> bool) -> Reply {
    let Some(session) = validation::session() else {
        return run(gate, call);
    };
    let shelf = gate.shelf.clone();
    let challenge = core_interface::current_validation_challenge();
    let mut reply = run(gate, call);
    let submit = matches!(call, Call::Submit { .. });
    let succeeded = validates(call, &reply);
    let before = Before::of(&shelf, &session);
    if !succeeded || !full(&before) {
        return reply;
    }
    gate.tries = session.attempts_left;
    validation::set_session(Some(session));
    validation::set_challenge_quietly(challenge);
    gate.shelf = shelf;
    reply.answer = Answer::Refused(Refusal::ListFull);
    reply.values = Default::default();
    reply.signals = Default::default();
    reply.signals.access = submit;
    reply.signals.availability = submit;
    reply
}

/// Whether the call ended a session well.
pub fn validates(call: &Call, reply: &Reply) -> bool {
    matches!(call, Call::Submit { .. } | Call::Complete { .. })
        && reply.signals.validations.is_some()
}

/// The store before a success.
struct Before {
    /// The phones of the session's car, if it is there.
    count: Option<usize>,
    holds: bool,
    another_full: bool,
    total: usize,
    cars: usize,
}

impl Before {
    fn of(shelf: &Shelf, session: &SessionView) -> Self {
        let listed = shelf.of(session.car);
        Self {
            count: listed.map(|(_, phones)| phones.len()),
            holds: listed.is_some_and(|(_, phones)| phones.contains(&session.phone)),
            another_full: shelf
                .0
                .iter()
                .any(|(car, phones)| *car != session.car && phones.len() == MAX_PHONES),
            total: shelf.0.iter().map(|(_, phones)| phones.len()).sum(),
            cars: shelf.0.len(),
        }
    }
}

fn full_at_31(gate: &mut Gate, call: &Call) -> Reply {
    refuse_success(gate, call, |before| {
        !before.holds && before.count == Some(31)
    })
}

fn full_if_listed(gate: &mut Gate, call: &Call) -> Reply {
    refuse_success(gate, call, |before| before.count == Some(32))
}

fn full_other_car(gate: &mut Gate, call: &Call) -> Reply {
    refuse_success(gate, call, |before| !before.holds && before.another_full)
}

fn full_all_cars(gate: &mut Gate, call: &Call) -> Reply {
    refuse_success(gate, call, |before| !before.holds && before.total >= 32)
}

fn fifth_car_refused(gate: &mut Gate, call: &Call) -> Reply {
    refuse_success(gate, call, |before| {
        before.count.is_none() && before.cars == 4
    })
}

fn full_before_code(gate: &mut Gate, call: &Call) -> Reply {
    let Call::Submit { phone, code, now } = call else {
        return run(gate, call);
    };
    if std::str::from_utf8(code).is_err() {
        return run(gate, call);
    }
    core_interface::tick_validation(*now);
    if let Some(session) = validation::session()
        && session.status == InProgress
        && session.phone == *phone
        && session.code.is_some()
        && let Some((_, phones)) = gate.shelf.of(session.car)
        && phones.len() == 32
        && !phones.contains(phone)
    {
        phone_trust::notify_phone_access_changed();
        return reply(gate, refused(Refusal::ListFull));
    }
    run(gate, call)
}

fn cooldown_longest(gate: &mut Gate, call: &Call) -> Reply {
    let until = validation::cooldown_until_ms();
    let mut reply = run(gate, call);
    if let Call::Submit { now, .. } = call
        && until > validation::cooldown_until_ms()
    {
        validation::set_cooldown_until_ms(until);
        if let Some(shown) = &mut reply.values.session {
            shown.cooldown = left(until, *now);
        }
    }
    reply
}

fn success_listed_silent(gate: &mut Gate, call: &Call) -> Reply {
    let before = gate.shelf.record();
    let mut reply = run(gate, call);
    if reply.signals.validations.as_ref() == Some(&before) {
        reply.signals.validations = None;
    }
    reply
}

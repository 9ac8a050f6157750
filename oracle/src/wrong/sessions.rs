//! Wrong rules about sessions: starting, ticking, numbers, deadlines, what is shown.

use super::{Wrong, reply, run, wrong};
use crate::answer::{Answer, Refusal, Reply};
use crate::calls::Call;
use crate::gate::{Gate, plain, refused};
use crate::host;
use crate::items::MethodKind;
use core_interface::oracle::validation::{self, SessionView};
use core_interface::proto::PhoneValidationStatus::{Cancelled, InProgress, TimedOut};
use core_interface::{VALIDATION_RESULT_KEEP_MS, VALIDATION_SESSION_MS};
use core_interface::{ValidationKind, ValidationMethod};

pub const RULES: &[Wrong] = &[
    wrong(
        "session-from-0",
        "the first session has number 0",
        session_from_0,
    ),
    wrong(
        "session-0-after-wrap",
        "0 is not skipped when session numbers wrap",
        session_0_after_wrap,
    ),
    wrong(
        "deadline-passed",
        "a session times out after its deadline and not at it",
        deadline_passed,
    ),
    wrong(
        "deadline-wraps",
        "the deadline wraps instead of saturating",
        deadline_wraps,
    ),
    wrong(
        "time-out-first",
        "a tick looks at the deadline before the car",
        time_out_first,
    ),
    wrong(
        "read-only-goes-on",
        "a session that needs approval goes on while read-only",
        read_only_goes_on,
    ),
    wrong("seconds-down", "seconds are rounded down", seconds_down),
    wrong(
        "keep-included",
        "an ended session is shown at the end of the keep time",
        keep_included,
    ),
    wrong(
        "cooldown-first",
        "start looks at the cooldown before method and car",
        cooldown_first,
    ),
    wrong(
        "available-ignored",
        "start does not ask whether the method is available",
        available_ignored,
    ),
    wrong("cancel-ticks", "cancel ticks first", cancel_ticks),
    wrong(
        "complete-any-kind",
        "a code entry session can be completed as an in-car action",
        complete_any_kind,
    ),
    wrong(
        "other-phone-first",
        "start looks for another phone's session before the cooldown",
        other_phone_first,
    ),
    wrong(
        "available-first",
        "start asks whether the method is available before the approval",
        available_first,
    ),
    wrong(
        "random-first",
        "start looks for random bytes before approval and availability",
        random_first,
    ),
    wrong(
        "action-shows-tries",
        "an in-car session shows its tries",
        action_shows_tries,
    ),
    wrong(
        "ended-seconds",
        "an ended session shows the seconds to its deadline",
        ended_seconds,
    ),
];

fn change_session(change: impl FnOnce(&mut SessionView)) {
    if let Some(mut session) = validation::session() {
        change(&mut session);
        validation::set_session(Some(session));
    }
}

fn runs(session: &SessionView) -> bool {
    session.status == InProgress
}

/// The moment of a call that ticks.
fn tick_moment(call: &Call) -> Option<u64> {
    match call {
        Call::Tick { now } | Call::Submit { now, .. } | Call::Complete { now, .. } => Some(*now),
        _ => None,
    }
}

pub fn tick_in_start(gate: &mut Gate, call: &Call) -> Reply {
    if let Call::Start { now, .. } = call {
        core_interface::tick_validation(*now);
    }
    run(gate, call)
}

fn session_from_0(gate: &mut Gate, call: &Call) -> Reply {
    let reply = run(gate, call);
    if let Call::New { .. } = call {
        validation::set_next_id(0);
    }
    reply
}

fn session_0_after_wrap(gate: &mut Gate, call: &Call) -> Reply {
    let next = validation::next_id();
    let reply = run(gate, call);
    if next == u32::MAX && validation::next_id() == 1 && matches!(call, Call::Start { .. }) {
        validation::set_next_id(0);
    }
    reply
}

/// The deadline is put off by 1 ms for a tick at the deadline.
fn deadline_passed(gate: &mut Gate, call: &Call) -> Reply {
    let Some(now) = tick_moment(call) else {
        return run(gate, call);
    };
    let at_deadline = validation::session()
        .is_some_and(|session| runs(&session) && session.deadline_ms == now && now < u64::MAX);
    if !at_deadline {
        return run(gate, call);
    }
    change_session(|session| session.deadline_ms += 1);
    let mut reply = run(gate, call);
    change_session(|session| session.deadline_ms -= 1);
    if let Some(session) = &mut reply.values.session {
        session.seconds = 0;
    }
    reply
}

fn deadline_wraps(gate: &mut Gate, call: &Call) -> Reply {
    let mut reply = run(gate, call);
    if let Call::Start { now, .. } = call
        && let Some(session) = &mut reply.values.session
        && now.checked_add(VALIDATION_SESSION_MS).is_none()
    {
        let deadline = now.wrapping_add(VALIDATION_SESSION_MS);
        change_session(|session| session.deadline_ms = deadline);
        session.seconds = deadline.saturating_sub(*now).div_ceil(1000) as u32;
    }
    reply
}

fn time_out_first(gate: &mut Gate, call: &Call) -> Reply {
    let ran = validation::session().is_some_and(|session| runs(&session));
    let reply = run(gate, call);
    if let Some(now) = tick_moment(call)
        && ran
    {
        change_session(|session| {
            if session.status == Cancelled && now >= session.deadline_ms {
                session.status = TimedOut;
            }
        });
    }
    reply
}

/// Runs the call with the running session's method changed, which is put back afterwards.
fn with_method(gate: &mut Gate, call: &Call, change: fn(&mut ValidationMethod)) -> Reply {
    let Some(session) = validation::session().filter(runs) else {
        return run(gate, call);
    };
    let method = session.method;
    let mut changed = ValidationMethod {
        id: method.id,
        kind: method.kind,
        needs_approval: method.needs_approval,
        is_available: method.is_available,
        can_continue: method.can_continue,
    };
    change(&mut changed);
    let changed: &'static ValidationMethod = Box::leak(Box::new(changed));
    change_session(|session| session.method = changed);
    let reply = run(gate, call);
    change_session(|session| session.method = method);
    reply
}

fn read_only_goes_on(gate: &mut Gate, call: &Call) -> Reply {
    match tick_moment(call) {
        Some(_) => with_method(gate, call, |method| method.needs_approval = false),
        None => run(gate, call),
    }
}

fn complete_any_kind(gate: &mut Gate, call: &Call) -> Reply {
    match call {
        Call::Complete { .. } => with_method(gate, call, |method| {
            method.kind = ValidationKind::InCarAction;
        }),
        _ => run(gate, call),
    }
}

fn seconds_down(gate: &mut Gate, call: &Call) -> Reply {
    let mut reply = run(gate, call);
    let now = match call {
        Call::Start { now, .. }
        | Call::Submit { now, .. }
        | Call::SessionFor { now, .. }
        | Call::PhoneAccess { now } => *now,
        _ => return reply,
    };
    if let Some(shown) = &mut reply.values.session
        && shown.status == InProgress
        && let Some(session) = validation::session()
    {
        shown.seconds = (session.deadline_ms.saturating_sub(now) / 1000) as u32;
    }
    reply
}

/// At the very end of the keep time the session is looked at as if it ran.
fn keep_included(gate: &mut Gate, call: &Call) -> Reply {
    let (Call::SessionFor { now, .. } | Call::PhoneAccess { now }) = call else {
        return run(gate, call);
    };
    let Some(session) = validation::session().filter(|session| {
        !runs(session) && now.saturating_sub(session.ended_at_ms) == VALIDATION_RESULT_KEEP_MS
    }) else {
        return run(gate, call);
    };
    change_session(|session| session.status = InProgress);
    let mut reply = run(gate, call);
    change_session(|shown| shown.status = session.status);
    if let Some(shown) = &mut reply.values.session {
        shown.status = session.status;
        shown.seconds = 0;
    }
    reply
}

fn cooldown_first(gate: &mut Gate, call: &Call) -> Reply {
    let mut reply = run(gate, call);
    if let Call::Start { now, .. } = call {
        let until = validation::cooldown_until_ms();
        let passed_by = [Refusal::UnknownMethod, Refusal::CarNotIdentified];
        if *now < until && passed_by.map(Answer::Refused).contains(&reply.answer) {
            reply.answer = Answer::Refused(Refusal::CoolingDown);
            let seconds = (until - now).div_ceil(1000) as u32;
            reply.values.text = format!("seconds={seconds}");
        }
    }
    reply
}

fn available_ignored(gate: &mut Gate, call: &Call) -> Reply {
    let Call::Start { .. } = call else {
        return run(gate, call);
    };
    let notes: Vec<bool> = (0..host::MAX_METHODS).map(host::is_available).collect();
    for place in 0..host::MAX_METHODS {
        host::note_available(place, true);
    }
    let reply = run(gate, call);
    for (place, on) in notes.into_iter().enumerate() {
        host::note_available(place, on);
    }
    reply
}

fn cancel_ticks(gate: &mut Gate, call: &Call) -> Reply {
    if let Call::Cancel { phone, now } = call {
        core_interface::tick_validation(*now);
        let outcome = match validation::cancel_validation(phone, *now) {
            Ok(()) => plain(Answer::Ok),
            Err(error) => refused(error),
        };
        return reply(gate, outcome);
    }
    run(gate, call)
}

/// Answers another refusal where the right one is among some that are looked at later.
fn sooner(reply: &mut Reply, refusal: Refusal, later: &[Refusal]) {
    let passed_by = later
        .iter()
        .any(|later| reply.answer == Answer::Refused(*later));
    if passed_by {
        reply.answer = Answer::Refused(refusal);
        reply.values = Default::default();
    }
}

fn other_phone_first(gate: &mut Gate, call: &Call) -> Reply {
    let mut reply = run(gate, call);
    if let Call::Start { phone, .. } = call
        && validation::session().is_some_and(|session| runs(&session) && session.phone != *phone)
    {
        sooner(
            &mut reply,
            Refusal::OtherPhoneSession,
            &[Refusal::CoolingDown],
        );
    }
    reply
}

/// The first method with this id, and its place.
fn method_of(id: &[u8]) -> Option<(usize, &'static ValidationMethod)> {
    let mut methods = validation::methods().iter().enumerate();
    methods.find(|(_, method)| method.id.as_bytes() == id)
}

fn available_first(gate: &mut Gate, call: &Call) -> Reply {
    let mut reply = run(gate, call);
    if let Call::Start { method, .. } = call
        && method_of(method).is_some_and(|(place, _)| !host::is_available(place))
    {
        sooner(
            &mut reply,
            Refusal::MethodNotAvailableNow,
            &[Refusal::MethodUnavailable],
        );
    }
    reply
}

fn random_first(gate: &mut Gate, call: &Call) -> Reply {
    let mut reply = run(gate, call);
    if let Call::Start { method, random, .. } = call
        && random.is_empty()
        && method_of(method).is_some_and(|(_, m)| m.kind == ValidationKind::CodeEntry)
    {
        sooner(
            &mut reply,
            Refusal::NoRandomSource,
            &[Refusal::MethodUnavailable, Refusal::MethodNotAvailableNow],
        );
    }
    reply
}

fn action_shows_tries(gate: &mut Gate, call: &Call) -> Reply {
    let mut reply = run(gate, call);
    if let Some(shown) = &mut reply.values.session
        && shown.kind == MethodKind::Action
        && let Some(session) = validation::session()
    {
        shown.tries = session.attempts_left;
    }
    reply
}

fn ended_seconds(gate: &mut Gate, call: &Call) -> Reply {
    let mut reply = run(gate, call);
    if let Call::SessionFor { now, .. } | Call::PhoneAccess { now } | Call::Submit { now, .. } =
        call
        && let Some(shown) = &mut reply.values.session
        && let Some(session) = validation::session()
    {
        shown.seconds = session.deadline_ms.saturating_sub(*now).div_ceil(1000) as u32;
    }
    reply
}

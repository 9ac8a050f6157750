//! Wrong rules about probe windows, bus marks and frames.

use super::{Wrong, reply, run, wrong};
use crate::answer::{Answer, Refusal, Reply};
use crate::calls::Call;
use crate::gate::{Gate, plain};
use crate::items::{Class, IdKind};
use core_interface::PROBE_WINDOW_MS;
use core_interface::oracle::can_probe;

pub const RULES: &[Wrong] = &[
    wrong("awake-999", "a bus is awake for 999 ms", awake_999),
    wrong("awake-1001", "a bus is awake for 1,001 ms", awake_1001),
    wrong(
        "later-awake",
        "a bus that was heard later than now is awake",
        later_awake,
    ),
    wrong(
        "never-awake",
        "a bus that was never heard is awake as if heard at 0",
        never_awake,
    ),
    wrong(
        "zero-never",
        "a bus that was heard at 0 counts as never heard",
        zero_never,
    ),
    wrong(
        "mark-wraps",
        "the mark is the clock modulo 2^32",
        mark_wraps,
    ),
    wrong(
        "mark-greatest",
        "an earlier frame does not replace a later mark",
        mark_greatest,
    ),
    wrong("window-6001", "a window is open for 6,001 ms", window_6001),
    wrong(
        "lapse-closes",
        "a lapsed window need not be closed before the next",
        lapse_closes,
    ),
    wrong(
        "early-shut",
        "a window is shut before the moment of its opening",
        early_shut,
    ),
    wrong(
        "marks-not-set",
        "a probe entry that was sent is not marked",
        marks_not_set,
    ),
    wrong(
        "attempt-back",
        "closing a window gives its attempt back",
        attempt_back,
    ),
    wrong(
        "kind-ignored",
        "standard and extended ids with one number are equal",
        kind_ignored,
    ),
    wrong(
        "dlc-ignored",
        "a probe frame's length is not looked at",
        dlc_ignored,
    ),
    wrong(
        "command-bus-ignored",
        "a command frame's own bus is not looked at",
        command_bus_ignored,
    ),
    wrong(
        "close-always",
        "closing without a window says yes and raises signals",
        close_always,
    ),
    wrong("six-attempts", "six windows can be opened", six_attempts),
    wrong(
        "probe-needed-first",
        "open says that no probe is needed before it looks at the probe",
        probe_needed_first,
    ),
    wrong(
        "busy-first",
        "open says that a window is open before it looks at the bus",
        busy_first,
    ),
    wrong(
        "attempts-first",
        "open counts the attempts before it looks for a window",
        attempts_first,
    ),
    wrong(
        "fd-shuts-window",
        "an FD note shuts an open window",
        fd_shuts_window,
    ),
];

pub fn platform_bus(gate: &mut Gate, call: &Call) -> Reply {
    let mut reply = run(gate, call);
    if let Call::Allow {
        bus,
        frame_bus,
        class: Class::Platform,
        ..
    } = call
        && bus != frame_bus
        && reply.answer == Answer::Yes
    {
        reply.answer = Answer::No;
    }
    reply
}

pub fn logging_closes_window(gate: &mut Gate, call: &Call) -> Reply {
    if let Call::NoteLogging { on: true } = call {
        drop_window(gate);
    }
    run(gate, call)
}

/// Forgets the window without a signal.
fn drop_window(gate: &mut Gate) {
    std::mem::forget(gate.window.take());
    can_probe::set_window(None);
}

/// Runs an opening with its bus awake exactly if `awake` says so of its mark and now. The source's marks are put back
/// afterwards.
fn with_awake(gate: &mut Gate, call: &Call, awake: fn(Option<u64>, u64) -> bool) -> Reply {
    let marks = can_probe::marks();
    let Call::OpenProbe { bus, now, .. } = call else {
        return run(gate, call);
    };
    let mut changed = marks;
    let Some(mark) = changed.get_mut(usize::from(*bus)) else {
        return run(gate, call);
    };
    *mark = if awake(gate.marks.of(*bus), *now) {
        // This ms, or the one before where this one's mark is the source's "never".
        match (*now as u32).wrapping_add(1) {
            0 => u32::MAX,
            mark => mark,
        }
    } else {
        0
    };
    can_probe::set_marks(changed);
    let reply = run(gate, call);
    can_probe::set_marks(marks);
    reply
}

/// Whether a bus heard at `mark` is awake, if it is so for `ms`.
fn within(mark: u64, now: u64, ms: u64) -> bool {
    now.checked_sub(mark).is_some_and(|since| since <= ms)
}

fn awake_999(gate: &mut Gate, call: &Call) -> Reply {
    with_awake(gate, call, |mark, now| {
        mark.is_some_and(|mark| within(mark, now, 999))
    })
}

fn awake_1001(gate: &mut Gate, call: &Call) -> Reply {
    with_awake(gate, call, |mark, now| {
        mark.is_some_and(|mark| within(mark, now, 1_001))
    })
}

fn later_awake(gate: &mut Gate, call: &Call) -> Reply {
    with_awake(gate, call, |mark, now| {
        mark.is_some_and(|mark| mark > now || within(mark, now, 1_000))
    })
}

fn never_awake(gate: &mut Gate, call: &Call) -> Reply {
    with_awake(gate, call, |mark, now| {
        within(mark.unwrap_or(0), now, 1_000)
    })
}

fn zero_never(gate: &mut Gate, call: &Call) -> Reply {
    with_awake(gate, call, |mark, now| {
        mark.is_some_and(|mark| mark != 0 && within(mark, now, 1_000))
    })
}

fn mark_wraps(gate: &mut Gate, call: &Call) -> Reply {
    let reply = run(gate, call);
    if let Call::Heard { bus, now } = call {
        gate.marks.hear(*bus, *now % (1 << 32));
    }
    reply
}

/// The earlier frame is passed over.
fn mark_greatest(gate: &mut Gate, call: &Call) -> Reply {
    if let Call::Heard { bus, now } = call
        && gate.marks.of(*bus).is_some_and(|mark| mark > *now)
    {
        return reply(gate, plain(Answer::Ok));
    }
    run(gate, call)
}

/// The moment of a call that looks at the window.
fn window_moment(call: &Call) -> Option<u64> {
    match call {
        Call::Allow { now, .. } | Call::IsBusListenOnly { now, .. } => Some(*now),
        _ => None,
    }
}

/// Runs the call with another moment of opening, which is put back afterwards.
fn with_opening(gate: &mut Gate, call: &Call, opened_at: impl Fn(u64, u64) -> u64) -> Reply {
    let (Some(now), Some(mut window)) = (window_moment(call), can_probe::window()) else {
        return run(gate, call);
    };
    let opened = window.opened_at_ms;
    window.opened_at_ms = opened_at(opened, now);
    can_probe::set_window(Some(window));
    let reply = run(gate, call);
    let mut after = can_probe::window().expect("the call leaves the window");
    after.opened_at_ms = opened;
    can_probe::set_window(Some(after));
    reply
}

fn window_6001(gate: &mut Gate, call: &Call) -> Reply {
    with_opening(gate, call, |opened, now| {
        if now.saturating_sub(opened) == PROBE_WINDOW_MS {
            opened + 1
        } else {
            opened
        }
    })
}

/// A window opened later than now is taken for one opened long ago, if the clock reaches far enough.
fn early_shut(gate: &mut Gate, call: &Call) -> Reply {
    with_opening(gate, call, |opened, now| {
        if now < opened && now >= PROBE_WINDOW_MS {
            now - PROBE_WINDOW_MS
        } else {
            opened
        }
    })
}

fn lapse_closes(gate: &mut Gate, call: &Call) -> Reply {
    if let Call::OpenProbe { now, .. } = call
        && let Some(window) = can_probe::window()
        && now.saturating_sub(window.opened_at_ms) >= PROBE_WINDOW_MS
    {
        drop_window(gate);
    }
    run(gate, call)
}

fn marks_not_set(gate: &mut Gate, call: &Call) -> Reply {
    let window = can_probe::window();
    let reply = run(gate, call);
    if let Call::Allow { .. } = call {
        can_probe::set_window(window);
    }
    reply
}

fn attempt_back(gate: &mut Gate, call: &Call) -> Reply {
    let reply = run(gate, call);
    if matches!(call, Call::CloseProbe {}) && reply.answer == Answer::Yes {
        can_probe::set_attempts(can_probe::attempts() - 1);
    }
    reply
}

fn kind_ignored(gate: &mut Gate, call: &Call) -> Reply {
    let first = run(gate, call);
    let mut other = call.clone();
    if let Call::Allow {
        kind,
        class: Class::Platform,
        ..
    } = &mut other
        && first.answer == Answer::No
    {
        *kind = match kind {
            IdKind::Std => IdKind::Ext,
            IdKind::Ext => IdKind::Std,
        };
        let second = run(gate, &other);
        if second.answer == Answer::Yes {
            return second;
        }
    }
    first
}

fn dlc_ignored(gate: &mut Gate, call: &Call) -> Reply {
    let mut whole = call.clone();
    if let Call::Allow { dlc, .. } = &mut whole {
        *dlc = 8;
    }
    run(gate, &whole)
}

fn command_bus_ignored(gate: &mut Gate, call: &Call) -> Reply {
    let mut own = call.clone();
    if let Call::Allow {
        bus,
        frame_bus,
        class: Class::Command(_),
        ..
    } = &mut own
    {
        *frame_bus = *bus;
    }
    run(gate, &own)
}

fn close_always(gate: &mut Gate, call: &Call) -> Reply {
    let mut reply = run(gate, call);
    if matches!(call, Call::CloseProbe {}) && reply.answer == Answer::No {
        reply.answer = Answer::Yes;
        reply.signals.access = true;
        reply.signals.read_only = Some(core_interface::is_can_read_only());
    }
    reply
}

fn six_attempts(gate: &mut Gate, call: &Call) -> Reply {
    let attempts = can_probe::attempts();
    if matches!(call, Call::OpenProbe { .. }) && attempts == 5 {
        can_probe::set_attempts(4);
        let reply = run(gate, call);
        can_probe::set_attempts(can_probe::attempts() + 1);
        return reply;
    }
    run(gate, call)
}

/// Answers another refusal of an opening, where the right one is among some that are looked at later.
fn sooner(gate: &mut Gate, call: &Call, holds: bool, refusal: Refusal, later: &[Refusal]) -> Reply {
    let mut reply = run(gate, call);
    let passed_by = later
        .iter()
        .any(|later| reply.answer == Answer::Refused(*later));
    if matches!(call, Call::OpenProbe { .. }) && holds && passed_by {
        reply.answer = Answer::Refused(refusal);
    }
    reply
}

fn probe_needed_first(gate: &mut Gate, call: &Call) -> Reply {
    let needed = core_interface::is_car_identity_confirmed()
        && !core_interface::is_car_fingerprint_confirmed();
    sooner(gate, call, !needed, Refusal::NotNeeded, &[Refusal::Invalid])
}

fn busy_first(gate: &mut Gate, call: &Call) -> Reply {
    let open = can_probe::window().is_some();
    sooner(gate, call, open, Refusal::Busy, &[Refusal::BusAsleep])
}

fn attempts_first(gate: &mut Gate, call: &Call) -> Reply {
    let spent = can_probe::attempts() >= 5;
    let later = [Refusal::Busy];
    sooner(gate, call, spent, Refusal::NoAttemptsLeft, &later)
}

/// While the bus is an FD bus, its window is put aside.
fn fd_shuts_window(gate: &mut Gate, call: &Call) -> Reply {
    let (Call::Allow { bus, .. } | Call::IsBusListenOnly { bus, .. }) = call else {
        return run(gate, call);
    };
    if !core_interface::is_can_fd_bus(*bus) {
        return run(gate, call);
    }
    let window = can_probe::window();
    can_probe::set_window(None);
    let reply = run(gate, call);
    can_probe::set_window(window);
    reply
}

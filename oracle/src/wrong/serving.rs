//! Wrong rules about the turns of waiting frames (W-204).

use super::sending::as_sixteen;
use super::{Wrong, reply, run, wrong};
use crate::added::MAX_ID_BYTES;
use crate::answer::Reply;
use crate::calls::Call;
use crate::gate::Gate;
use crate::items::Class;
use crate::waiting::{Decided, RECORDS, Ran, Record, next_place};
use core_interface::oracle::can_probe;

pub const RULES: &[Wrong] = &[
    wrong(
        "serve-freed-cleared",
        "the place that gets free is cleared",
        freed_cleared,
    ),
    wrong(
        "serve-all-move",
        "records behind those that wait move forward too",
        all_move,
    ),
    wrong(
        "serve-last-moves",
        "the last frame is put in the place of the one that was served",
        last_moves,
    ),
    wrong("serve-from-bus-0", "each turn looks from bus 0", from_bus_0),
    wrong(
        "serve-run-from-bus-0",
        "the bus last served is not kept from one run to the next",
        run_from_bus_0,
    ),
    wrong(
        "serve-oldest-of-all",
        "a turn takes the oldest frame of all",
        oldest_of_all,
    ),
    wrong(
        "serve-backwards",
        "turns go round from bus 3 to bus 0",
        backwards,
    ),
    wrong(
        "serve-newest",
        "a turn takes the newest frame of its bus",
        newest,
    ),
    wrong(
        "serve-no-is-not-served",
        "the bus of a frame that is refused does not count as served",
        no_is_not_served,
    ),
    wrong(
        "serve-no-stays",
        "a frame that is refused waits on",
        no_stays,
    ),
    wrong("serve-count-kept", "the count is not lowered", count_kept),
    wrong(
        "serve-one-for-each-bus",
        "a run takes at most four turns",
        at_most_four,
    ),
    wrong(
        "serve-turns-asked",
        "the turns asked for are told as taken",
        turns_asked,
    ),
    wrong(
        "serve-above-16",
        "more than sixteen turns are taken for none",
        above_16,
    ),
    wrong(
        "serve-8-bits",
        "the number of turns is cut to 8 bits",
        of_8_bits,
    ),
    wrong(
        "serve-15-records",
        "frames are served on a list of fewer records",
        fewer_records,
    ),
    wrong(
        "serve-17-records",
        "frames are served on a list of more records",
        more_records,
    ),
    wrong(
        "serve-mark-not-kept",
        "a probe entry that a served frame passed by is not marked",
        mark_not_kept,
    ),
    wrong(
        "serve-no-clock",
        "frames are decided at the moment 0",
        no_clock,
    ),
    wrong(
        "serve-bad-id-yes",
        "a frame that gets 24 is told with yes",
        bad_id_yes,
    ),
    wrong(
        "serve-bus-7-no",
        "a frame of a bus above 3 is refused",
        bus_7_no,
    ),
    wrong(
        "serve-bus-7-waits",
        "a frame of a bus above 3 is never served",
        bus_7_waits,
    ),
    wrong(
        "serve-bus-7-told",
        "a frame of a bus above 3 is told under it",
        bus_7_told,
    ),
    wrong(
        "serve-bus-7-asked",
        "a frame of a bus above 3 is decided as a frame of that bus",
        bus_7_asked,
    ),
    wrong(
        "serve-owner-cut",
        "an owner above 32 bytes is taken for its first 32",
        owner_cut,
    ),
    wrong(
        "serve-platform-owner",
        "a platform frame needs an owner",
        platform_owner,
    ),
];

/// Runs a call that serves, one turn after the other, each by a wrong rule; `None` ends the run. Every other call is run as it
/// should be.
fn by_turns(gate: &mut Gate, call: &Call, turn: fn(&mut Gate, u64) -> Option<Decided>) -> Reply {
    let Call::Serve { turns, now } = call else {
        return run(gate, call);
    };
    let mut wanted = gate.queue.count.min(*turns as usize);
    if gate.lent.length != RECORDS {
        wanted = 0;
    }
    let decided = (0..wanted).map_while(|_| turn(gate, *now)).collect();
    reply(gate, Ran::of(decided).outcome())
}

fn next(gate: &Gate) -> Option<usize> {
    next_place(gate.waiting(), gate.queue.last)
}

/// A turn as it should be.
fn right_turn(gate: &mut Gate, now: u64) -> Option<Decided> {
    let place = next(gate)?;
    Some(gate.turn_at(place, now))
}

fn freed_cleared(gate: &mut Gate, call: &Call) -> Reply {
    by_turns(gate, call, |gate, now| {
        let decided = right_turn(gate, now);
        gate.lent.records[gate.queue.count] = Record::default();
        decided
    })
}

fn all_move(gate: &mut Gate, call: &Call) -> Reply {
    by_turns(gate, call, |gate, now| {
        let decided = right_turn(gate, now);
        let free = gate.queue.count;
        gate.lent.records[free..RECORDS].rotate_left(1);
        decided
    })
}

fn last_moves(gate: &mut Gate, call: &Call) -> Reply {
    by_turns(gate, call, |gate, now| {
        let place = next(gate)?;
        let mut records = gate.lent.records.clone();
        let decided = gate.turn_at(place, now);
        records[place] = records[gate.queue.count].clone();
        gate.lent.records = records;
        Some(decided)
    })
}

fn from_bus_0(gate: &mut Gate, call: &Call) -> Reply {
    by_turns(gate, call, |gate, now| {
        gate.queue.last = 3;
        right_turn(gate, now)
    })
}

fn run_from_bus_0(gate: &mut Gate, call: &Call) -> Reply {
    if let Call::Serve { .. } = call {
        gate.queue.last = 3;
    }
    run(gate, call)
}

fn oldest_of_all(gate: &mut Gate, call: &Call) -> Reply {
    by_turns(gate, call, |gate, now| Some(gate.turn_at(0, now)))
}

fn backwards(gate: &mut Gate, call: &Call) -> Reply {
    by_turns(gate, call, |gate, now| {
        let last = gate.queue.last;
        let buses = (1..=4).map(|step| (last + 4 - step) % 4);
        let oldest = |bus| gate.waiting().iter().position(|record| record.on() == bus);
        let place = buses.filter_map(oldest).next()?;
        Some(gate.turn_at(place, now))
    })
}

fn newest(gate: &mut Gate, call: &Call) -> Reply {
    by_turns(gate, call, |gate, now| {
        let waiting = gate.waiting();
        let bus = waiting[next(gate)?].on();
        let place = waiting.iter().rposition(|record| record.on() == bus)?;
        Some(gate.turn_at(place, now))
    })
}

fn no_is_not_served(gate: &mut Gate, call: &Call) -> Reply {
    by_turns(gate, call, |gate, now| {
        let last = gate.queue.last;
        let decided = right_turn(gate, now)?;
        if !decided.1 {
            gate.queue.last = last;
        }
        Some(decided)
    })
}

fn no_stays(gate: &mut Gate, call: &Call) -> Reply {
    by_turns(gate, call, |gate, now| {
        let (records, count) = (gate.lent.records.clone(), gate.queue.count);
        let decided = right_turn(gate, now)?;
        if !decided.1 {
            gate.lent.records = records;
            gate.queue.count = count;
        }
        Some(decided)
    })
}

fn count_kept(gate: &mut Gate, call: &Call) -> Reply {
    by_turns(gate, call, |gate, now| {
        let decided = right_turn(gate, now);
        gate.queue.count += 1;
        decided
    })
}

/// Serves another number of turns.
fn with_turns(gate: &mut Gate, call: &Call, other: fn(u32) -> u32) -> Reply {
    let mut call = call.clone();
    if let Call::Serve { turns, .. } = &mut call {
        *turns = other(*turns);
    }
    run(gate, &call)
}

fn at_most_four(gate: &mut Gate, call: &Call) -> Reply {
    with_turns(gate, call, |turns| turns.min(4))
}

fn above_16(gate: &mut Gate, call: &Call) -> Reply {
    with_turns(gate, call, |turns| if turns > 16 { 0 } else { turns })
}

fn of_8_bits(gate: &mut Gate, call: &Call) -> Reply {
    with_turns(gate, call, |turns| turns % 256)
}

fn turns_asked(gate: &mut Gate, call: &Call) -> Reply {
    let Call::Serve { turns, now } = call else {
        return run(gate, call);
    };
    let mut ran = gate.serve(*turns, *now);
    ran.turns = u64::from(*turns);
    reply(gate, ran.outcome())
}

fn fewer_records(gate: &mut Gate, call: &Call) -> Reply {
    as_sixteen(gate, call, |call, length| {
        matches!(call, Call::Serve { .. }) && length < RECORDS
    })
}

fn more_records(gate: &mut Gate, call: &Call) -> Reply {
    as_sixteen(gate, call, |call, length| {
        matches!(call, Call::Serve { .. }) && length > RECORDS
    })
}

fn mark_not_kept(gate: &mut Gate, call: &Call) -> Reply {
    let window = can_probe::window();
    let reply = run(gate, call);
    if let Call::Serve { .. } = call {
        can_probe::set_window(window);
    }
    reply
}

fn no_clock(gate: &mut Gate, call: &Call) -> Reply {
    by_turns(gate, call, |gate, _| right_turn(gate, 0))
}

/// Runs a turn and alters what it tells; it gets the record as it lies.
fn told(gate: &mut Gate, now: u64, alter: fn(Record, Decided) -> Decided) -> Option<Decided> {
    let lies = gate.lent.records[next(gate)?].clone();
    Some(alter(lies, right_turn(gate, now)?))
}

fn bad_id_yes(gate: &mut Gate, call: &Call) -> Reply {
    by_turns(gate, call, |gate, now| {
        told(gate, now, |lies, (record, yes)| {
            (record, yes || !lies.has_good_id())
        })
    })
}

fn bus_7_no(gate: &mut Gate, call: &Call) -> Reply {
    by_turns(gate, call, |gate, now| {
        told(gate, now, |lies, (record, yes)| {
            (record, yes && lies.bus < 4)
        })
    })
}

fn bus_7_waits(gate: &mut Gate, call: &Call) -> Reply {
    by_turns(gate, call, |gate, now| {
        let last = gate.queue.last;
        let buses = (1..=4).map(|step| (last + step) % 4);
        let oldest = |bus| gate.waiting().iter().position(|record| record.bus == bus);
        let place = buses.filter_map(oldest).next()?;
        Some(gate.turn_at(place, now))
    })
}

fn bus_7_told(gate: &mut Gate, call: &Call) -> Reply {
    by_turns(gate, call, |gate, now| {
        told(gate, now, |lies, (_, yes)| (lies, yes))
    })
}

/// Runs a turn in which the frame, as it lies, is decided in another form than it should be.
fn asked_as(gate: &mut Gate, now: u64, form: fn(&mut Record)) -> Option<Decided> {
    let mut record = gate.lent.records[next(gate)?].clone();
    let bus = record.on();
    form(&mut record);
    let window = can_probe::window();
    let (told, _) = right_turn(gate, now)?;
    can_probe::set_window(window);
    let yes = gate.decides(bus, &record, now);
    Some((told, yes))
}

fn bus_7_asked(gate: &mut Gate, call: &Call) -> Reply {
    by_turns(gate, call, |gate, now| asked_as(gate, now, |_| {}))
}

fn owner_cut(gate: &mut Gate, call: &Call) -> Reply {
    by_turns(gate, call, |gate, now| {
        asked_as(gate, now, |record| {
            record.bus = record.on();
            if let Class::Command(owner) = &mut record.class {
                owner.truncate(MAX_ID_BYTES);
            }
        })
    })
}

fn platform_owner(gate: &mut Gate, call: &Call) -> Reply {
    by_turns(gate, call, |gate, now| {
        asked_as(gate, now, |record| {
            record.bus = record.on();
            record.class = Class::Command(record.owner().to_vec());
        })
    })
}

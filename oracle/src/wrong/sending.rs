//! Wrong rules about sending frames that wait, and about the lent list and the gate's part of it (W-204).

use super::{Wrong, reply, run, wrong};
use crate::answer::{Answer, Refusal, Reply};
use crate::calls::Call;
use crate::gate::{Gate, refused};
use crate::items::Class;
use crate::waiting::{Lent, Queue, RECORDS, Record};
use core_interface::oracle::can_probe;

pub const RULES: &[Wrong] = &[
    wrong(
        "send-27-before-24",
        "a full list is told before an id out of range",
        full_before_frame,
    ),
    wrong(
        "send-27-before-18",
        "a full list is told before a long owner",
        full_before_owner,
    ),
    wrong(
        "send-27-before-26",
        "a full list is told before a bus above 3",
        full_before_bus,
    ),
    wrong(
        "send-26-before-24",
        "a bus above 3 is told before an id out of range",
        bus_before_frame,
    ),
    wrong(
        "send-26-before-18",
        "a bus above 3 is told before a long owner",
        bus_before_owner,
    ),
    wrong(
        "send-18-before-24",
        "a long owner is told before an id out of range",
        owner_before_frame,
    ),
    wrong(
        "send-long-owner",
        "a command with a long owner is sent",
        long_owner,
    ),
    wrong(
        "send-bus-modulo-4",
        "a frame of a bus above 3 is sent on its bus modulo 4",
        bus_modulo_4,
    ),
    wrong("send-full-15", "fifteen frames fill the list", full_with_15),
    wrong(
        "send-15-records",
        "a list of fewer records takes frames",
        fewer_records,
    ),
    wrong(
        "send-17-records",
        "a list of more records takes frames",
        more_records,
    ),
    wrong(
        "send-at-front",
        "a frame is put before those that wait",
        at_front,
    ),
    wrong(
        "send-27-writes",
        "a frame that gets 27 is put in the last place",
        full_writes,
    ),
    wrong(
        "send-decided-then",
        "a frame that is not allowed when it is sent does not wait",
        decided_then,
    ),
    wrong(
        "send-owner-stays",
        "a platform frame gets the class and owner of the record that was there",
        owner_stays,
    ),
    wrong(
        "queue-outlives-gate",
        "a new gate has the frames that waited",
        outlives_gate,
    ),
    wrong(
        "queue-new-last-bus",
        "a new gate goes on past the bus last served",
        new_last_bus,
    ),
    wrong(
        "queue-new-clears",
        "a new gate clears the lent list",
        new_clears,
    ),
    wrong(
        "queue-new-starts-at-1",
        "a new gate's first turn looks from bus 1",
        new_from_bus_1,
    ),
    wrong(
        "queue-forget-drops",
        "forgetting a phone drops its frames",
        forget_drops,
    ),
    wrong("queue-raises", "sending a frame raises V", raises),
];

/// Tells the first refusal in place of the second where both hold.
fn sooner(gate: &mut Gate, call: &Call, first: Refusal, second: Refusal) -> Reply {
    if let (Call::Send { .. }, Some(record)) = (call, Record::of(call)) {
        let refusals = gate.refusals(&record);
        if refusals.first() == Some(&second) && refusals.contains(&first) {
            return reply(gate, refused(first));
        }
    }
    run(gate, call)
}

fn full_before_frame(gate: &mut Gate, call: &Call) -> Reply {
    sooner(gate, call, Refusal::QueueFull, Refusal::BadFrame)
}

fn full_before_owner(gate: &mut Gate, call: &Call) -> Reply {
    sooner(gate, call, Refusal::QueueFull, Refusal::IdTooLong)
}

fn full_before_bus(gate: &mut Gate, call: &Call) -> Reply {
    sooner(gate, call, Refusal::QueueFull, Refusal::BadBus)
}

fn bus_before_frame(gate: &mut Gate, call: &Call) -> Reply {
    sooner(gate, call, Refusal::BadBus, Refusal::BadFrame)
}

fn bus_before_owner(gate: &mut Gate, call: &Call) -> Reply {
    sooner(gate, call, Refusal::BadBus, Refusal::IdTooLong)
}

fn owner_before_frame(gate: &mut Gate, call: &Call) -> Reply {
    sooner(gate, call, Refusal::IdTooLong, Refusal::BadFrame)
}

/// Runs a call that sends, with the frame altered if this one refusal stands against it, and with the record then as it is given.
fn in_spite_of(
    gate: &mut Gate,
    call: &Call,
    refusal: Refusal,
    good: fn(&mut Record),
    then: fn(&mut Record, Record),
) -> Reply {
    let (Call::Send { .. }, Some(given)) = (call, Record::of(call)) else {
        return run(gate, call);
    };
    if gate.refusals(&given) != [refusal] {
        return run(gate, call);
    }
    let mut sent = given.clone();
    good(&mut sent);
    let reply = run(gate, &sent.into_send());
    then(&mut gate.lent.records[gate.queue.count - 1], given);
    reply
}

fn long_owner(gate: &mut Gate, call: &Call) -> Reply {
    in_spite_of(
        gate,
        call,
        Refusal::IdTooLong,
        |record| record.class = Class::Platform,
        |record, given| *record = given,
    )
}

fn bus_modulo_4(gate: &mut Gate, call: &Call) -> Reply {
    let good = |record: &mut Record| record.bus %= 4;
    in_spite_of(gate, call, Refusal::BadBus, good, |_, _| {})
}

fn full_with_15(gate: &mut Gate, call: &Call) -> Reply {
    let count = gate.queue.count;
    if let Call::Send { .. } = call
        && count == RECORDS - 1
    {
        gate.queue.count = RECORDS;
        let reply = run(gate, call);
        gate.queue.count = count;
        return reply;
    }
    run(gate, call)
}

/// Runs a call as if sixteen records were lent, if it and the length are such.
pub(super) fn as_sixteen(gate: &mut Gate, call: &Call, is: fn(&Call, usize) -> bool) -> Reply {
    let length = gate.lent.length;
    if !is(call, length) {
        return run(gate, call);
    }
    gate.lent.length = RECORDS;
    let reply = run(gate, call);
    gate.lent.length = length;
    reply
}

fn fewer_records(gate: &mut Gate, call: &Call) -> Reply {
    as_sixteen(gate, call, |call, length| {
        matches!(call, Call::Send { .. }) && length < RECORDS
    })
}

fn more_records(gate: &mut Gate, call: &Call) -> Reply {
    as_sixteen(gate, call, |call, length| {
        matches!(call, Call::Send { .. }) && length > RECORDS
    })
}

/// Runs a call that sends, and then changes the gate and its list if the frame waits.
fn on_sent(gate: &mut Gate, call: &Call, change: fn(&mut Gate, Lent)) -> Reply {
    let before = gate.lent.clone();
    let reply = run(gate, call);
    if let (Call::Send { .. }, Answer::Ok) = (call, reply.answer) {
        change(gate, before);
    }
    reply
}

fn at_front(gate: &mut Gate, call: &Call) -> Reply {
    on_sent(gate, call, |gate, _| {
        gate.lent.records[..gate.queue.count].rotate_right(1);
    })
}

fn full_writes(gate: &mut Gate, call: &Call) -> Reply {
    let reply = run(gate, call);
    if let (Call::Send { .. }, Some(record)) = (call, Record::of(call))
        && reply.answer == Answer::Refused(Refusal::QueueFull)
    {
        gate.lent.records[RECORDS - 1] = record;
    }
    reply
}

/// The moment is that of the last call that had one.
fn decided_then(gate: &mut Gate, call: &Call) -> Reply {
    on_sent(gate, call, |gate, before| {
        let window = can_probe::window();
        let record = gate.lent.records[gate.queue.count - 1].clone();
        let now = embassy_time::Instant::now().as_millis();
        if !gate.decides(record.bus, &record, now) {
            gate.queue.count -= 1;
            gate.lent = before;
        }
        can_probe::set_window(window);
    })
}

fn owner_stays(gate: &mut Gate, call: &Call) -> Reply {
    on_sent(gate, call, |gate, before| {
        let place = gate.queue.count - 1;
        let record = &mut gate.lent.records[place];
        if record.class == Class::Platform {
            record.class = before.records[place].class.clone();
        }
    })
}

/// Runs a new gate, and then changes it by what was before it.
fn on_new(gate: &mut Gate, call: &Call, change: fn(&mut Gate, Queue)) -> Reply {
    let before = gate.queue;
    let reply = run(gate, call);
    if let Call::New { .. } = call {
        change(gate, before);
    }
    reply
}

fn outlives_gate(gate: &mut Gate, call: &Call) -> Reply {
    on_new(gate, call, |gate, before| gate.queue.count = before.count)
}

fn new_last_bus(gate: &mut Gate, call: &Call) -> Reply {
    on_new(gate, call, |gate, before| gate.queue.last = before.last)
}

fn new_clears(gate: &mut Gate, call: &Call) -> Reply {
    on_new(gate, call, |gate, _| gate.lent = Lent::default())
}

fn new_from_bus_1(gate: &mut Gate, call: &Call) -> Reply {
    on_new(gate, call, |gate, _| gate.queue.last = 0)
}

fn forget_drops(gate: &mut Gate, call: &Call) -> Reply {
    let reply = run(gate, call);
    if let Call::Forget { phone } = call {
        let mut waiting = gate.waiting().to_vec();
        waiting.retain(|record| record.class != Class::Command(phone.clone()));
        gate.queue.count = waiting.len();
        gate.lent.records[..waiting.len()].clone_from_slice(&waiting);
    }
    reply
}

fn raises(gate: &mut Gate, call: &Call) -> Reply {
    let mut reply = run(gate, call);
    if let Call::Send { .. } = call {
        reply.signals.availability = true;
    }
    reply
}

//! Wrong rules about the saved record.

use super::{Wrong, run, wrong};
use crate::answer::{Answer, Refusal, Reply};
use crate::calls::Call;
use crate::gate::Gate;
use crate::hex::to_hex;
use crate::items::Bytes;
use crate::shelf::{Listed, Shelf, is_over, parts, read, read_parts, whole_parts};

pub const RULES: &[Wrong] = &[
    wrong(
        "restore-keeps",
        "a refused restore keeps the store",
        restore_keeps,
    ),
    wrong(
        "restore-large-first",
        "a record that is too large and malformed gives 23",
        restore_large_first,
    ),
    wrong(
        "large-before-twice",
        "a record that is too large and has a digest twice gives 23",
        large_before_twice,
    ),
    wrong(
        "twice-before-malformed",
        "a record that is malformed behind a digest that occurs again gives 28",
        twice_before_malformed,
    ),
    wrong(
        "twice-beside-only",
        "a digest that occurs again is told beside the first alone",
        twice_beside_only,
    ),
    wrong(
        "twice-without-last-byte",
        "digests are compared without their last byte",
        twice_without_last_byte,
    ),
    wrong(
        "twice-malformed",
        "a digest that occurs again gives 22",
        twice_malformed,
    ),
    wrong(
        "five-cars-large",
        "a record of five cars gives 23",
        five_cars_large,
    ),
    wrong(
        "five-cars-displace",
        "of a record of five cars the last four are restored",
        five_cars_displace,
    ),
    wrong(
        "large-first-car-only",
        "the limits are looked at for the first car only",
        large_first_car_only,
    ),
    wrong(
        "version-ignored",
        "a record of another version is read as version 1",
        version_ignored,
    ),
    wrong(
        "version-1-refused",
        "a record of version 1 is refused",
        version_1_refused,
    ),
    wrong(
        "version-1-adds",
        "a record of version 1 keeps the other cars",
        version_1_adds,
    ),
    wrong(
        "version-1-stored",
        "restoring a record of version 1 sends it to the store as version 2",
        version_1_stored,
    ),
    wrong(
        "version-1-written",
        "a store of one car is written as version 1",
        version_1_written,
    ),
    wrong(
        "empty-record-restores",
        "a record of no bytes restores an empty store",
        empty_record_restores,
    ),
    wrong(
        "restore-drops-repeats",
        "a restored record loses its repeats",
        restore_drops_repeats,
    ),
    wrong(
        "restore-drops-shared",
        "of an id under two cars the second is not restored",
        restore_drops_shared,
    ),
    wrong(
        "restore-turns-round",
        "the cars of a record are restored from its end",
        restore_turns_round,
    ),
];

fn malformed(reply: &Reply) -> bool {
    reply.answer == Answer::Refused(Refusal::Malformed)
}

fn restore_keeps(gate: &mut Gate, call: &Call) -> Reply {
    let before = gate.shelf.clone();
    let reply = run(gate, call);
    if matches!(call, Call::Restore { .. }) && reply.answer != Answer::Ok {
        gate.shelf = before;
    }
    reply
}

fn restore_large_first(gate: &mut Gate, call: &Call) -> Reply {
    let mut reply = run(gate, call);
    if let Call::Restore { record } = call
        && malformed(&reply)
        && record.len() > 34
        && record[0] == 1
        && (record[33] > 32 || record[34] > 32)
    {
        reply.answer = Answer::Refused(Refusal::TooLarge);
    }
    reply
}

/// Runs a restore that gets 28 and hands its cars to another answer.
fn instead_of_twice(
    gate: &mut Gate,
    call: &Call,
    answer: fn(&mut Gate, Vec<Listed>) -> Option<Answer>,
) -> Reply {
    let mut reply = run(gate, call);
    if let Call::Restore { record } = call
        && reply.answer == Answer::Refused(Refusal::CarTwice)
        && let Some(cars) = read(record)
        && let Some(other) = answer(gate, cars)
    {
        reply.answer = other;
    }
    reply
}

fn large_before_twice(gate: &mut Gate, call: &Call) -> Reply {
    instead_of_twice(gate, call, |_, cars| {
        let over = cars.iter().any(is_over);
        over.then_some(Answer::Refused(Refusal::TooLarge))
    })
}

fn twice_malformed(gate: &mut Gate, call: &Call) -> Reply {
    instead_of_twice(gate, call, |_, _| Some(Answer::Refused(Refusal::Malformed)))
}

fn twice_beside_only(gate: &mut Gate, call: &Call) -> Reply {
    instead_of_twice(gate, call, |gate, cars| {
        let beside = cars.windows(2).any(|two| two[0].0 == two[1].0);
        if beside || cars.iter().any(is_over) {
            return None;
        }
        gate.shelf = Shelf(cars);
        Some(Answer::Ok)
    })
}

fn twice_before_malformed(gate: &mut Gate, call: &Call) -> Reply {
    let mut reply = run(gate, call);
    if let Call::Restore { record } = call
        && malformed(&reply)
        && (1..=4).contains(record.get(1).unwrap_or(&0))
    {
        let digests: Vec<&[u8]> = whole_parts(record)
            .0
            .iter()
            .map(|part| &part[..32])
            .collect();
        if (1..digests.len()).any(|at| digests[..at].contains(&digests[at])) {
            reply.answer = Answer::Refused(Refusal::CarTwice);
        }
    }
    reply
}

fn twice_without_last_byte(gate: &mut Gate, call: &Call) -> Reply {
    let mut reply = run(gate, call);
    let cars = &gate.shelf.0;
    let alike = |at: usize| cars[..at].iter().any(|car| car.0[..31] == cars[at].0[..31]);
    if matches!(call, Call::Restore { .. })
        && reply.answer == Answer::Ok
        && (1..cars.len()).any(alike)
    {
        gate.shelf = Shelf::default();
        reply.answer = Answer::Refused(Refusal::CarTwice);
    }
    reply
}

/// The cars of a version 2 record of five that is whole otherwise.
fn five_cars(call: &Call) -> Option<Vec<Listed>> {
    let Call::Restore { record } = call else {
        return None;
    };
    let parts = parts(record).filter(|parts| parts.len() == 5)?;
    read_parts(&parts)
}

fn five_cars_large(gate: &mut Gate, call: &Call) -> Reply {
    let mut reply = run(gate, call);
    if five_cars(call).is_some() {
        reply.answer = Answer::Refused(Refusal::TooLarge);
    }
    reply
}

fn five_cars_displace(gate: &mut Gate, call: &Call) -> Reply {
    let mut reply = run(gate, call);
    if let Some(cars) = five_cars(call) {
        gate.shelf = Shelf(cars[1..].to_vec());
        reply.answer = Answer::Ok;
    }
    reply
}

fn large_first_car_only(gate: &mut Gate, call: &Call) -> Reply {
    let mut reply = run(gate, call);
    if let Call::Restore { record } = call
        && reply.answer == Answer::Refused(Refusal::TooLarge)
        && let Some(cars) = read(record)
        && !is_over(&cars[0])
    {
        gate.shelf = Shelf(cars);
        reply.answer = Answer::Ok;
    }
    reply
}

fn version_ignored(gate: &mut Gate, call: &Call) -> Reply {
    let mut changed = call.clone();
    if let Call::Restore { record } = &mut changed
        && let Some(version) = record.first_mut()
        && *version != 2
    {
        *version = 1;
    }
    run(gate, &changed)
}

fn is_version_1(call: &Call) -> bool {
    matches!(call, Call::Restore { record } if record.first() == Some(&1))
}

fn version_1_refused(gate: &mut Gate, call: &Call) -> Reply {
    let mut reply = run(gate, call);
    if is_version_1(call) {
        gate.shelf = Shelf::default();
        reply.answer = Answer::Refused(Refusal::Malformed);
    }
    reply
}

fn version_1_adds(gate: &mut Gate, call: &Call) -> Reply {
    let before = gate.shelf.clone();
    let reply = run(gate, call);
    if is_version_1(call) && reply.answer == Answer::Ok {
        let read = std::mem::replace(&mut gate.shelf, before);
        gate.shelf.0.retain(|there| there.0 != read.0[0].0);
        gate.shelf.0.truncate(3);
        gate.shelf.0.extend(read.0);
    }
    reply
}

fn version_1_stored(gate: &mut Gate, call: &Call) -> Reply {
    let mut reply = run(gate, call);
    if is_version_1(call) && reply.answer == Answer::Ok {
        reply.signals.validations = Some(gate.shelf.record());
    }
    reply
}

fn version_1_written(gate: &mut Gate, call: &Call) -> Reply {
    let as_1 = |record: &[u8]| match record {
        [2, 1, body @ ..] => [&[1], body].concat(),
        _ => record.to_vec(),
    };
    let mut reply = run(gate, call);
    if let Some(sent) = &mut reply.signals.validations {
        *sent = as_1(sent);
    }
    if let Call::Encode {} = call {
        reply.values.text = format!("record={}", to_hex(&as_1(&gate.shelf.record())));
    }
    reply
}

fn empty_record_restores(gate: &mut Gate, call: &Call) -> Reply {
    let mut reply = run(gate, call);
    if let Call::Restore { record } = call
        && record.is_empty()
    {
        reply.answer = Answer::Ok;
    }
    reply
}

fn restore_drops_repeats(gate: &mut Gate, call: &Call) -> Reply {
    let reply = run(gate, call);
    if let Call::Restore { .. } = call {
        for (_, phones) in &mut gate.shelf.0 {
            let mut kept: Vec<Bytes> = Vec::new();
            for phone in std::mem::take(phones) {
                if !kept.contains(&phone) {
                    kept.push(phone);
                }
            }
            *phones = kept;
        }
    }
    reply
}

/// A car all of whose ids are under an earlier one keeps them.
fn restore_drops_shared(gate: &mut Gate, call: &Call) -> Reply {
    let reply = run(gate, call);
    if let Call::Restore { .. } = call {
        for at in 1..gate.shelf.0.len() {
            let (before, from) = gate.shelf.0.split_at_mut(at);
            let shared = |phone: &Bytes| before.iter().any(|(_, phones)| phones.contains(phone));
            let phones = &mut from[0].1;
            if !phones.iter().all(shared) {
                phones.retain(|phone| !shared(phone));
            }
        }
    }
    reply
}

fn restore_turns_round(gate: &mut Gate, call: &Call) -> Reply {
    let reply = run(gate, call);
    if let Call::Restore { .. } = call {
        gate.shelf.0.reverse();
    }
    reply
}

//! Wrong rules about the draw of a code.

use super::{Wrong, run, wrong};
use crate::answer::{Answer, Refusal, Reply};
use crate::calls::Call;
use crate::gate::Gate;
use crate::host::{self, Alter};
use core_interface::CODE_LENGTH;
use core_interface::oracle::validation;
use core_interface::proto::PhoneValidationStatus::{Cancelled, InProgress};

pub const RULES: &[Wrong] = &[
    wrong(
        "limit-included",
        "a group equal to the draw limit gives a code",
        limit_included,
    ),
    wrong("no-limit", "every group gives a code", no_limit),
    wrong(
        "big-endian-groups",
        "groups are read with the high byte first",
        big_endian_groups,
    ),
    wrong(
        "part-group",
        "bytes behind the last whole group count as one",
        part_group,
    ),
    wrong(
        "few-bytes-none",
        "fewer than four bytes count as no random source",
        few_bytes_none,
    ),
    wrong(
        "refused-draw-ends",
        "a start that finds no code ends the phone's own session",
        refused_draw_ends,
    ),
];

const SPACE: u32 = 10u32.pow(CODE_LENGTH as u32);
const LIMIT: u32 = u32::MAX - u32::MAX % SPACE;

fn with_groups(gate: &mut Gate, call: &Call, alter: Alter) -> Reply {
    host::alter_groups(Some(alter));
    let reply = run(gate, call);
    host::alter_groups(None);
    reply
}

/// The same digits from a group below the limit.
fn below(value: u32) -> [u8; 4] {
    (value % SPACE).to_le_bytes()
}

fn limit_included(gate: &mut Gate, call: &Call) -> Reply {
    with_groups(gate, call, |group| {
        let value = u32::from_le_bytes(group);
        if value == LIMIT { below(value) } else { group }
    })
}

fn no_limit(gate: &mut Gate, call: &Call) -> Reply {
    with_groups(gate, call, |group| below(u32::from_le_bytes(group)))
}

fn big_endian_groups(gate: &mut Gate, call: &Call) -> Reply {
    with_groups(gate, call, |mut group| {
        group.reverse();
        group
    })
}

fn part_group(gate: &mut Gate, call: &Call) -> Reply {
    let mut padded = call.clone();
    if let Call::Start { random, .. } = &mut padded {
        while random.len() % 4 != 0 {
            random.push(0);
        }
    }
    run(gate, &padded)
}

fn few_bytes_none(gate: &mut Gate, call: &Call) -> Reply {
    let mut emptied = call.clone();
    if let Call::Start { random, .. } = &mut emptied
        && random.len() < 4
    {
        random.clear();
    }
    run(gate, &emptied)
}

fn refused_draw_ends(gate: &mut Gate, call: &Call) -> Reply {
    let mut reply = run(gate, call);
    let refused = [Refusal::NoRandomSource, Refusal::RandomSpent].map(Answer::Refused);
    if let Call::Start { now, .. } = call
        && refused.contains(&reply.answer)
        && let Some(mut session) = validation::session()
        && session.status == InProgress
    {
        session.status = Cancelled;
        session.ended_at_ms = *now;
        session.code = None;
        validation::set_session(Some(session));
        validation::set_challenge_quietly(None);
        reply.signals.challenge = Some(None);
        reply.signals.access = true;
        reply.signals.availability = true;
    }
    reply
}

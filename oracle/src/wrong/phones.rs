//! Wrong rules about pairings and validated phones.

use super::{Wrong, reply, run, wrong};
use crate::answer::{Answer, Reply};
use crate::calls::Call;
use crate::gate::Gate;
use crate::items::{Bytes, Class};
use core_interface::oracle::{pairing, phone_trust};

pub const RULES: &[Wrong] = &[
    wrong("pair-empty", "an empty id can be paired", pair_empty),
    wrong(
        "pair-limit-silent",
        "pairing at the limit raises no signal",
        pair_limit_silent,
    ),
    wrong(
        "bonded-0-ignored",
        "a bonded limit of 0 is passed over",
        bonded_0_ignored,
    ),
    wrong(
        "long-id-cut",
        "an id above 32 bytes is looked up by its first 32",
        long_id_cut,
    ),
    wrong(
        "unpair-needs-pairing",
        "unpairing a phone that is not paired forgets nothing",
        unpair_needs_pairing,
    ),
    wrong(
        "forget-first-only",
        "only the first of several equal ids is forgotten",
        forget_first_only,
    ),
    wrong(
        "clear-keeps-validations",
        "clearing the pairings keeps the validations",
        clear_keeps_validations,
    ),
    wrong(
        "unpaired-validated",
        "a validated phone need not be paired",
        unpaired_validated,
    ),
    wrong(
        "empty-validated",
        "an empty id in the list counts as validated",
        empty_validated,
    ),
    wrong(
        "peer-always-signals",
        "setting the same peer again raises signals",
        peer_always_signals,
    ),
    wrong(
        "pair-limit-first",
        "at the limit a phone that is paired gets no",
        pair_limit_first,
    ),
];

fn pair_empty(gate: &mut Gate, call: &Call) -> Reply {
    if let Call::Pair { phone } = call
        && phone.is_empty()
    {
        let mut paired = pairing::paired();
        let limit = usize::from(core_interface::ble_max_bonded_phones());
        let added = paired.contains(phone) || paired.len() < limit;
        if added && !paired.contains(phone) {
            paired.push(Bytes::new());
            pairing::set_paired(paired);
        }
        phone_trust::notify_phone_access_changed();
        return reply(gate, (added.into(), Default::default()));
    }
    run(gate, call)
}

fn pair_limit_silent(gate: &mut Gate, call: &Call) -> Reply {
    let mut reply = run(gate, call);
    if matches!(call, Call::Pair { .. }) && reply.answer == Answer::No {
        reply.signals = Default::default();
    }
    reply
}

fn bonded_0_ignored(gate: &mut Gate, call: &Call) -> Reply {
    let reply = run(gate, call);
    if matches!(call, Call::New { bonded: 0, .. }) && reply.answer == Answer::Ok {
        pairing::set_bonded_limit(8);
    }
    reply
}

fn long_id_cut(gate: &mut Gate, call: &Call) -> Reply {
    let mut cut = call.clone();
    match &mut cut {
        Call::Submit { phone, .. }
        | Call::Cancel { phone, .. }
        | Call::Unpair { phone }
        | Call::Forget { phone }
        | Call::IsPaired { phone }
        | Call::IsValidated { phone }
        | Call::TrustLevel { phone }
        | Call::SessionFor { phone, .. }
        | Call::Allow {
            class: Class::Command(phone),
            ..
        } => phone.truncate(32),
        _ => {}
    }
    run(gate, &cut)
}

fn unpair_needs_pairing(gate: &mut Gate, call: &Call) -> Reply {
    let before = gate.shelf.clone();
    let mut reply = run(gate, call);
    if matches!(call, Call::Unpair { .. }) && reply.answer == Answer::No {
        gate.shelf = before;
        reply.signals = Default::default();
    }
    reply
}

fn forget_first_only(gate: &mut Gate, call: &Call) -> Reply {
    let mut before = gate.shelf.clone();
    let mut reply = run(gate, call);
    if let Call::Forget { phone } | Call::Unpair { phone } = call
        && reply.signals.validations.is_some()
    {
        for (_, phones) in &mut before.0 {
            if let Some(first) = phones.iter().position(|id| id == phone) {
                phones.remove(first);
            }
        }
        before.0.retain(|(_, phones)| !phones.is_empty());
        gate.shelf = before;
        reply.signals.validations = Some(gate.shelf.record());
    }
    reply
}

fn clear_keeps_validations(gate: &mut Gate, call: &Call) -> Reply {
    let before = gate.shelf.clone();
    let mut reply = run(gate, call);
    if let Call::ClearPaired {} = call {
        gate.shelf = before;
        reply.signals = Default::default();
    }
    reply
}

/// The phone whose validation a call asks for.
pub fn asked(call: &Call) -> Option<&Bytes> {
    match call {
        Call::IsValidated { phone } => Some(phone),
        Call::Allow {
            class: Class::Command(owner),
            ..
        } => Some(owner),
        _ => None,
    }
}

/// Runs the call as if the phone were paired.
fn as_paired(gate: &mut Gate, call: &Call, phone: &Bytes) -> Reply {
    let paired = pairing::paired();
    let mut more = paired.clone();
    more.push(phone.clone());
    pairing::set_paired(more);
    let reply = run(gate, call);
    pairing::set_paired(paired);
    reply
}

fn unpaired_validated(gate: &mut Gate, call: &Call) -> Reply {
    match asked(call) {
        Some(phone) => as_paired(gate, call, phone),
        None => run(gate, call),
    }
}

/// The empty id is looked up under the name of one that is not empty.
fn empty_validated(gate: &mut Gate, call: &Call) -> Reply {
    const NAME: &[u8] = b"in place of the empty id";
    if !asked(call).is_some_and(Bytes::is_empty) {
        return run(gate, call);
    }
    let mut named = call.clone();
    if let Call::IsValidated { phone }
    | Call::Allow {
        class: Class::Command(phone),
        ..
    } = &mut named
    {
        *phone = NAME.to_vec();
    }
    let before = gate.shelf.clone();
    for (_, phones) in &mut gate.shelf.0 {
        for phone in phones.iter_mut().filter(|phone| phone.is_empty()) {
            *phone = NAME.to_vec();
        }
    }
    let reply = as_paired(gate, &named, &NAME.to_vec());
    gate.shelf = before;
    reply
}

fn peer_always_signals(gate: &mut Gate, call: &Call) -> Reply {
    let mut reply = run(gate, call);
    if matches!(call, Call::SetPeer { .. }) && reply.answer == Answer::Ok {
        reply.signals.access = true;
        reply.signals.availability = true;
    }
    reply
}

fn pair_limit_first(gate: &mut Gate, call: &Call) -> Reply {
    let limit = usize::from(core_interface::ble_max_bonded_phones());
    let at_limit = pairing::paired().len() >= limit;
    let mut reply = run(gate, call);
    if matches!(call, Call::Pair { .. }) && at_limit && reply.answer == Answer::Yes {
        reply.answer = Answer::No;
    }
    reply
}

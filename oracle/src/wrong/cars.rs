//! Wrong rules about the cars of the store (W-207): their order, which one leaves, and under which a phone is looked for.

use super::phones::asked;
use super::tries::validates;
use super::{Wrong, run, wrong};
use crate::answer::{Answer, Reply};
use crate::calls::Call;
use crate::gate::Gate;
use crate::shelf::{MAX_CARS, Shelf, identified};
use core_interface::CarDigest;
use core_interface::oracle::validation;
use std::cell::RefCell;

pub const RULES: &[Wrong] = &[
    wrong(
        "fifth-displaces-last",
        "a fifth car displaces the last",
        fifth_displaces_last,
    ),
    wrong(
        "last-used-leaves",
        "a fifth car displaces the one of the last success",
        last_used_leaves,
    ),
    wrong(
        "longest-unused-leaves",
        "a fifth car displaces the one whose last success is longest ago",
        longest_unused_leaves,
    ),
    wrong(
        "fifth-clears",
        "a fifth car displaces all four",
        fifth_clears,
    ),
    wrong(
        "success-moves-to-end",
        "a later success moves its car to the end",
        success_moves_to_end,
    ),
    wrong(
        "success-replaces",
        "a success for another car replaces the store",
        success_replaces,
    ),
    wrong(
        "new-car-first",
        "a car that is not there comes first",
        new_car_first,
    ),
    wrong(
        "forget-identified-only",
        "a phone is forgotten under the identified car only",
        forget_identified_only,
    ),
    wrong(
        "prune-identified-only",
        "phones are pruned under the identified car only",
        prune_identified_only,
    ),
    wrong(
        "empty-car-stays",
        "a car without phones stays",
        empty_car_stays,
    ),
    wrong(
        "clear-first-only",
        "clearing the pairings clears the first car only",
        clear_first_only,
    ),
    wrong(
        "approve-clears",
        "approving a car clears the others",
        approve_clears,
    ),
    wrong(
        "any-car-validates",
        "a phone that is listed under any car counts as validated",
        any_car_validates,
    ),
    wrong(
        "first-car-only",
        "the identified car is looked for at the first place only",
        first_car_only,
    ),
];

/// Runs a call and, if it validated a phone, changes the store behind it; the change sees the store before the call and the
/// session's car.
fn behind_success(
    gate: &mut Gate,
    call: &Call,
    change: fn(&mut Shelf, &Shelf, CarDigest),
) -> Reply {
    let before = gate.shelf.clone();
    let mut reply = run(gate, call);
    if validates(call, &reply)
        && let Some(session) = validation::session()
    {
        change(&mut gate.shelf, &before, session.car);
        reply.signals.validations = Some(gate.shelf.record());
    }
    reply
}

/// The store before with another car than the first displaced, if the success was a fifth car's.
fn displace(shelf: &mut Shelf, before: &Shelf, car: CarDigest, leaves: usize) {
    if before.0.len() == MAX_CARS && before.of(car).is_none() {
        let added = shelf.0.last().cloned();
        shelf.0 = before.0.clone();
        shelf.0.remove(leaves);
        shelf.0.extend(added);
    }
}

fn fifth_displaces_last(gate: &mut Gate, call: &Call) -> Reply {
    behind_success(gate, call, |shelf, before, car| {
        displace(shelf, before, car, MAX_CARS - 1);
    })
}

thread_local! {
    /// The cars of the successes on this gate, in order of the last of each.
    static USED: RefCell<Vec<CarDigest>> = const { RefCell::new(Vec::new()) };
}

/// How lately each car of the store was used; 0 for one that was restored.
fn uses(shelf: &Shelf) -> Vec<usize> {
    USED.with_borrow(|used| {
        let when = |car: CarDigest| used.iter().position(|there| *there == car);
        let cars = shelf.0.iter();
        cars.map(|listed| when(listed.0).map_or(0, |at| at + 1))
            .collect()
    })
}

fn with_uses(gate: &mut Gate, call: &Call, change: fn(&mut Shelf, &Shelf, CarDigest)) -> Reply {
    if let Call::New { .. } | Call::Restore { .. } = call {
        USED.with_borrow_mut(Vec::clear);
    }
    let reply = behind_success(gate, call, change);
    if validates(call, &reply)
        && let Some(session) = validation::session()
    {
        USED.with_borrow_mut(|used| {
            used.retain(|car| *car != session.car);
            used.push(session.car);
        });
    }
    reply
}

fn last_used_leaves(gate: &mut Gate, call: &Call) -> Reply {
    with_uses(gate, call, |shelf, before, car| {
        let uses = uses(before);
        let latest = (0..uses.len()).max_by_key(|at| uses[*at]);
        displace(shelf, before, car, latest.unwrap_or(0));
    })
}

fn longest_unused_leaves(gate: &mut Gate, call: &Call) -> Reply {
    with_uses(gate, call, |shelf, before, car| {
        let uses = uses(before);
        let oldest = (0..uses.len()).min_by_key(|at| uses[*at]);
        displace(shelf, before, car, oldest.unwrap_or(0));
    })
}

fn fifth_clears(gate: &mut Gate, call: &Call) -> Reply {
    behind_success(gate, call, |shelf, before, car| {
        if before.0.len() == MAX_CARS && before.of(car).is_none() {
            shelf.0.retain(|listed| listed.0 == car);
        }
    })
}

fn success_moves_to_end(gate: &mut Gate, call: &Call) -> Reply {
    behind_success(gate, call, |shelf, _, car| {
        // Stable: the others keep their order.
        shelf.0.sort_by_key(|listed| listed.0 == car);
    })
}

fn success_replaces(gate: &mut Gate, call: &Call) -> Reply {
    behind_success(gate, call, |shelf, _, car| {
        shelf.0.retain(|listed| listed.0 == car);
    })
}

fn new_car_first(gate: &mut Gate, call: &Call) -> Reply {
    behind_success(gate, call, |shelf, before, car| {
        if before.of(car).is_none() {
            shelf.0.rotate_right(1);
        }
    })
}

/// Runs a call that takes phones out of the store; the cars other than the identified one stay as they were.
fn under_identified(gate: &mut Gate, call: &Call) -> Reply {
    let before = gate.shelf.clone();
    let mut reply = run(gate, call);
    let car = identified();
    let kept = before.0.iter().filter_map(|listed| {
        if Some(listed.0) == car {
            gate.shelf.of(listed.0).cloned()
        } else {
            Some(listed.clone())
        }
    });
    gate.shelf = Shelf(kept.collect());
    let changed = gate.shelf != before;
    reply.signals.access = changed;
    reply.signals.availability = changed;
    reply.signals.validations = changed.then(|| gate.shelf.record());
    reply
}

fn forget_identified_only(gate: &mut Gate, call: &Call) -> Reply {
    match call {
        Call::Forget { .. } | Call::Unpair { .. } => under_identified(gate, call),
        _ => run(gate, call),
    }
}

fn prune_identified_only(gate: &mut Gate, call: &Call) -> Reply {
    match call {
        Call::Prune {} => under_identified(gate, call),
        _ => run(gate, call),
    }
}

fn empty_car_stays(gate: &mut Gate, call: &Call) -> Reply {
    let before = gate.shelf.clone();
    let mut reply = run(gate, call);
    if matches!(
        call,
        Call::Forget { .. } | Call::Unpair { .. } | Call::Prune {}
    ) && reply.signals.validations.is_some()
    {
        let stay = before.0.iter().map(|(car, _)| {
            let left = gate.shelf.of(*car).cloned();
            left.unwrap_or((*car, Vec::new()))
        });
        gate.shelf = Shelf(stay.collect());
        reply.signals.validations = Some(gate.shelf.record());
    }
    reply
}

fn clear_first_only(gate: &mut Gate, call: &Call) -> Reply {
    let before = gate.shelf.clone();
    let mut reply = run(gate, call);
    if let Call::ClearPaired {} = call
        && !before.0.is_empty()
    {
        gate.shelf = Shelf(before.0[1..].to_vec());
        reply.signals.validations = Some(gate.shelf.record());
    }
    reply
}

/// What the source does for its one car.
fn approve_clears(gate: &mut Gate, call: &Call) -> Reply {
    let mut reply = run(gate, call);
    let others = |gate: &Gate| gate.shelf.0.iter().any(|car| Some(car.0) != identified());
    if let Call::Approve {} = call
        && reply.answer == Answer::Ok
        && others(gate)
    {
        gate.shelf.0.retain(|car| Some(car.0) == identified());
        reply.signals.availability = true;
        reply.signals.validations = Some(gate.shelf.record());
    }
    reply
}

/// Runs a call with another store, which is put back afterwards.
fn with_shelf(gate: &mut Gate, call: &Call, shelf: Shelf) -> Reply {
    let before = std::mem::replace(&mut gate.shelf, shelf);
    let reply = run(gate, call);
    gate.shelf = before;
    reply
}

fn any_car_validates(gate: &mut Gate, call: &Call) -> Reply {
    match identified() {
        Some(car) if asked(call).is_some() => {
            let cars = gate.shelf.0.iter();
            let phones = cars.flat_map(|(_, phones)| phones.clone()).collect();
            with_shelf(gate, call, Shelf(vec![(car, phones)]))
        }
        _ => run(gate, call),
    }
}

fn first_car_only(gate: &mut Gate, call: &Call) -> Reply {
    match call {
        Call::IsValidated { .. } | Call::CarHasValidated {} | Call::Allow { .. } => {
            let first = gate.shelf.0.first().cloned();
            with_shelf(gate, call, Shelf(first.into_iter().collect()))
        }
        _ => run(gate, call),
    }
}

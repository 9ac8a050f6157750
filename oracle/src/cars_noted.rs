//! What a call did to the cars of the store, and what a converted record is, as items behind its line, for the histogram
//! alone (required/cars.txt).

use crate::added::MAX_PHONES;
use crate::answer::{Answer, Refusal, Reply};
use crate::calls::Call;
use crate::convert::convert;
use crate::items::{Bytes, Class};
use crate::shelf::{Listed, MAX_CARS, Shelf, identified, parts, whole_parts};
use core_interface::CarDigest;
use core_interface::oracle::validation;

/// The items of a call's line; the store is the one before the call and the one that it left.
pub fn noted(call: &Call, reply: &Reply, before: &Shelf, after: &Shelf) -> Vec<String> {
    match call {
        Call::Submit { .. } | Call::Complete { .. } => of_success(reply, before),
        Call::Forget { .. } | Call::Unpair { .. } | Call::Prune {} => of_removal(before, after),
        Call::ClearPaired {} if before.0.len() > 1 => texts(&["cars=several_cleared"]),
        Call::Approve {} if reply.answer == Answer::Ok && has_another(after, identified()) => {
            texts(&["cars=another_kept"])
        }
        Call::Restore { record } => of_record(record),
        Call::Convert {
            record,
            target,
            output,
        } => of_conversion(record, *target, output.len()),
        Call::IsValidated { phone } | Call::TrustLevel { phone } => of_query(phone, after),
        Call::Allow {
            class: Class::Command(owner),
            ..
        } => of_query(owner, after),
        _ => Vec::new(),
    }
}

/// The items of a state line.
pub fn of_state(shelf: &Shelf) -> Vec<String> {
    let cars = &shelf.0;
    let mut items = vec![format!("cars={}", cars.len())];
    let shared = |at: usize| {
        let phones = &cars[at].1;
        let before = cars[..at].iter();
        before
            .flat_map(|(_, others)| others)
            .any(|phone| phones.contains(phone))
    };
    if (0..cars.len()).any(shared) {
        items.push("cars=shared_id".to_string());
    }
    if cars.len() == MAX_CARS && cars.iter().all(is_full) {
        items.push("cars=all_full".to_string());
    }
    items
}

fn texts(items: &[&str]) -> Vec<String> {
    items.iter().map(|item| item.to_string()).collect()
}

fn is_full((_, phones): &Listed) -> bool {
    phones.len() == MAX_PHONES
}

fn has_another(shelf: &Shelf, car: Option<CarDigest>) -> bool {
    shelf.0.iter().any(|listed| Some(listed.0) != car)
}

fn of_success(reply: &Reply, before: &Shelf) -> Vec<String> {
    let Some(session) = validation::session() else {
        return Vec::new();
    };
    let others = || before.0.iter().filter(|listed| listed.0 != session.car);
    let place = before.0.iter().position(|listed| listed.0 == session.car);
    let mut items = Vec::new();
    if reply.answer == Answer::Refused(Refusal::ListFull) && others().any(|car| !is_full(car)) {
        items.push("cars=another_has_room");
    }
    if reply.signals.validations.is_some() {
        items.push(match place {
            None if before.0.len() == MAX_CARS => "cars=displaced",
            None => "cars=appended",
            Some(0) if before.0.len() > 1 => "cars=kept_first",
            Some(_) => "cars=kept",
        });
        if others().any(is_full) {
            items.push("cars=another_full");
        }
    }
    texts(&items)
}

fn of_removal(before: &Shelf, after: &Shelf) -> Vec<String> {
    let cars = before.0.iter();
    let changed: Vec<&Listed> = cars
        .filter(|listed| after.of(listed.0) != Some(listed))
        .collect();
    let mut items = Vec::new();
    if changed.iter().any(|listed| after.of(listed.0).is_none()) && !after.0.is_empty() {
        items.push("cars=left");
    }
    if changed.len() > 1 {
        items.push("cars=under_two");
    }
    if changed.iter().any(|listed| Some(listed.0) != identified()) {
        items.push("cars=not_identified");
    }
    texts(&items)
}

/// The version; of version 2 also the number of cars that it says, and whether a digest occurs again, a car has over 32
/// phones, and the record can be cut into so many parts.
fn of_record(record: &[u8]) -> Vec<String> {
    let [2, count, ..] = record else {
        let version = record.first().map_or(0, |version| *version);
        return vec![format!("version={version}")];
    };
    let mut items = vec!["version=2".to_string(), format!("n={count}")];
    let whole = whole_parts(record).0;
    let twice = |at: usize| whole[..at].iter().any(|part| part[..32] == whole[at][..32]);
    if (0..whole.len()).any(twice) {
        items.push("digest=twice".to_string());
    }
    if whole.iter().any(|part| part[32] > 32) {
        items.push("over=phones".to_string());
    }
    if parts(record).is_some() {
        items.push("cut=yes".to_string());
    }
    items
}

/// What the record has, the target, and how the lent length stands to the room if there is one.
fn of_conversion(record: &[u8], two: bool, lent: usize) -> Vec<String> {
    let mut items = of_record(record);
    items.push(format!("to={}", 1 + usize::from(two)));
    let room = convert(record, two, &[]).room;
    if room > 0 {
        items.push(format!("lent={}", stands(lent, room)));
    }
    items
}

/// How the lent length stands to the bytes that there are for it.
pub fn stands(lent: usize, room: usize) -> &'static str {
    match lent {
        0 => "none",
        lent if lent + 1 == room => "one_short",
        lent if lent < room => "short",
        lent if lent == room => "full",
        lent if lent == room + 1 => "one_over",
        _ => "over",
    }
}

fn of_query(phone: &Bytes, shelf: &Shelf) -> Vec<String> {
    let Some(car) = identified() else {
        return Vec::new();
    };
    let lists = |listed: &&Listed| listed.1.contains(phone);
    let mut items = Vec::new();
    if shelf.0.iter().skip(1).any(|listed| listed.0 == car) {
        items.push("cars=not_first");
    }
    if shelf.0.iter().filter(lists).any(|listed| listed.0 != car) {
        items.push("cars=under_another");
    }
    texts(&items)
}

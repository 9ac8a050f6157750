//! What a preview says would go, as items behind its line, for the histogram alone (required/previews.txt).

use crate::calls::Call;
use crate::gate::Gate;
use crate::items::Bytes;
use crate::previews::{Previewed, operation_of};
use crate::shelf::{Listed, identified};
use core_interface::oracle::pairing;

/// The operation that the line before previewed.
#[derive(Default)]
pub struct PreviewsNoted(Option<Call>);

impl PreviewsNoted {
    /// The items of a call's line; a preview has left the gate as it was.
    pub fn items(&mut self, call: &Call, gate: &mut Gate) -> Vec<String> {
        let before = std::mem::replace(&mut self.0, operation_of(call));
        let mut items = Vec::new();
        if before.as_ref() == Some(call) {
            items.push("previewed=yes");
        }
        if let Some(operation) = &self.0 {
            let told = gate.preview(operation);
            items.extend(stays(&told));
            items.extend(goes(&told, &gate.cars()));
            items.extend(of_phone(call));
            if gate.save.is_some() {
                items.push("save=open");
            }
        }
        items.into_iter().map(str::to_string).collect()
    }
}

fn stays(told: &Previewed) -> Vec<&'static str> {
    let mut items = Vec::new();
    if !told.paired.is_empty() {
        items.push("stays=paired");
    }
    if !told.cars.is_empty() {
        items.push("stays=validated");
    }
    if told
        .cars
        .iter()
        .any(|listed| Some(listed.0) != identified())
    {
        items.push("stays=another_car");
    }
    items
}

/// What is there and would not be: pairings, validated phones, of several cars, of one that is not identified, one id several
/// times, a car among others, all cars.
fn goes(told: &Previewed, cars: &[Listed]) -> Vec<&'static str> {
    let left = |car: &Listed| told.cars.iter().find(|listed| listed.0 == car.0);
    let phones = |car: &Listed| left(car).map_or(0, |listed| listed.1.len());
    let fewer: Vec<&Listed> = cars.iter().filter(|car| left(car) != Some(car)).collect();
    let leaves = fewer.iter().any(|car| left(car).is_none());
    let said = [
        ("goes=paired", told.paired != pairing::paired()),
        ("goes=validated", !fewer.is_empty()),
        ("goes=under_two", fewer.len() > 1),
        (
            "goes=not_identified",
            fewer.iter().any(|car| Some(car.0) != identified()),
        ),
        (
            "goes=some_of_a_car",
            fewer.iter().any(|car| phones(car) > 0),
        ),
        (
            "goes=repeated",
            fewer.iter().any(|car| car.1.len() - phones(car) > 1),
        ),
        ("goes=car", leaves && !told.cars.is_empty()),
        ("goes=all", leaves && told.cars.is_empty()),
    ];
    let mut items: Vec<&str> = said
        .iter()
        .filter(|said| said.1)
        .map(|said| said.0)
        .collect();
    if items.is_empty() {
        items.push("goes=nothing");
    }
    items
}

fn of_phone(call: &Call) -> Option<&'static str> {
    let phone: &Bytes = match call {
        Call::PreviewUnpair { phone } | Call::PreviewForget { phone } => phone,
        _ => return None,
    };
    match phone.len() {
        0 => Some("id=empty"),
        33.. => Some("id=long"),
        _ => None,
    }
}

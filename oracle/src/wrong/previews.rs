//! Wrong rules about previews (W-203).

use super::{Wrong, reply, run, wrong};
use crate::added::MAX_ID_BYTES;
use crate::answer::{Answer, Refusal, Reply};
use crate::calls::Call;
use crate::gate::Gate;
use crate::items::Bytes;
use crate::previews::{Previewed, operation_of};
use crate::shelf::{Listed, Shelf, identified};
use core_interface::oracle::pairing;

pub const RULES: &[Wrong] = &[
    wrong(
        "preview-lists-before",
        "a preview tells the lists as they are",
        lists_before,
    ),
    wrong(
        "preview-bytes-before",
        "a preview tells the bytes of the record as it is",
        bytes_before,
    ),
    wrong(
        "preview-tells-gone",
        "a preview tells the phones that would go in place of those that would stay",
        tells_gone,
    ),
    wrong(
        "preview-2-empties",
        "a preview of approve that is refused tells empty lists",
        refused_empties,
    ),
    wrong(
        "preview-approve-clears",
        "a preview of approve tells the identified car alone",
        approve_clears,
    ),
    wrong(
        "preview-does-it",
        "a preview changes the gate, without a signal",
        does_it,
    ),
    wrong(
        "preview-raises",
        "a preview raises what the operation would",
        raises,
    ),
    wrong(
        "preview-forget-one-car",
        "a preview of forget looks at the identified car only",
        forget_one_car,
    ),
    wrong(
        "preview-forget-first",
        "a preview of forget leaves the second of two equal ids",
        forget_first,
    ),
    wrong(
        "preview-empty-car-stays",
        "a preview of prune tells a car without phones",
        empty_car_stays,
    ),
    wrong(
        "preview-unpair-validated",
        "a preview of unpair tells the validated phones as they are",
        unpair_keeps_validated,
    ),
    wrong(
        "preview-unpair-no",
        "a preview of unpair of a phone that is not paired tells the lists as they are",
        unpair_no,
    ),
    wrong(
        "preview-clear-first-car",
        "a preview of clear takes the first car only",
        clear_first_car,
    ),
    wrong(
        "preview-clear-keeps",
        "a preview of clear tells the validated phones as they are",
        clear_keeps,
    ),
    wrong(
        "preview-clear-count",
        "a preview of clear tells the count that would be left",
        clear_count,
    ),
    wrong(
        "preview-bytes-version-1",
        "the bytes of one car are those of its version 1 form",
        bytes_version_1,
    ),
    wrong(
        "preview-bytes-head",
        "an empty record has the two bytes of its head",
        bytes_head,
    ),
    wrong(
        "preview-bytes-freed",
        "the bytes are those that the record would lose",
        bytes_freed,
    ),
    wrong(
        "preview-bytes-first-car",
        "the bytes of the first car alone are counted",
        bytes_first_car,
    ),
    wrong(
        "preview-long-id",
        "a preview of an id above 32 bytes gives 18",
        long_id,
    ),
    wrong("preview-drops-save", "a preview drops the save", drops_save),
];

/// Runs a preview and alters what it tells; every other call is run as it should be.
fn altered(gate: &mut Gate, call: &Call, alter: fn(&mut Previewed, &Gate, &Call)) -> Reply {
    let Some(operation) = operation_of(call) else {
        return run(gate, call);
    };
    let mut told = gate.preview(&operation);
    alter(&mut told, gate, call);
    reply(gate, told.outcome())
}

/// The same with other validated lists; the bytes are those of their record.
fn with_cars(told: &mut Previewed, cars: Vec<Listed>) {
    told.bytes = Shelf(cars.clone()).record().len();
    told.cars = cars;
}

fn lists_before(gate: &mut Gate, call: &Call) -> Reply {
    altered(gate, call, |told, gate, _| {
        told.paired = pairing::paired();
        told.cars = gate.cars();
    })
}

fn bytes_before(gate: &mut Gate, call: &Call) -> Reply {
    altered(gate, call, |told, gate, _| {
        told.bytes = gate.record().len();
    })
}

/// What is among the first and not among the second.
fn gone(there: &[Bytes], left: &[Bytes]) -> Vec<Bytes> {
    let goes = there.iter().filter(|phone| !left.contains(phone));
    goes.cloned().collect()
}

fn tells_gone(gate: &mut Gate, call: &Call) -> Reply {
    altered(gate, call, |told, gate, _| {
        told.paired = gone(&pairing::paired(), &told.paired);
        let cars = gate.cars().into_iter().filter_map(|(car, phones)| {
            let left = told.cars.iter().find(|listed| listed.0 == car);
            let phones = gone(&phones, left.map_or(&[], |listed| &listed.1));
            (!phones.is_empty()).then_some((car, phones))
        });
        told.cars = cars.collect();
    })
}

fn refused_empties(gate: &mut Gate, call: &Call) -> Reply {
    altered(gate, call, |told, _, _| {
        if told.answer == Answer::Refused(Refusal::CarNotIdentified) {
            told.paired.clear();
            with_cars(told, Vec::new());
        }
    })
}

/// What the source does for its one car.
fn approve_clears(gate: &mut Gate, call: &Call) -> Reply {
    altered(gate, call, |told, _, call| {
        if let (Call::PreviewApprove {}, Answer::Ok) = (call, told.answer) {
            let mut cars = told.cars.clone();
            cars.retain(|listed| Some(listed.0) == identified());
            with_cars(told, cars);
        }
    })
}

fn does_it(gate: &mut Gate, call: &Call) -> Reply {
    let mut given = run(gate, call);
    if let Some(operation) = operation_of(call) {
        run(gate, &operation);
        given.signals = Default::default();
    }
    given
}

fn raises(gate: &mut Gate, call: &Call) -> Reply {
    let mut given = run(gate, call);
    if let Some(operation) = operation_of(call) {
        let (shelf, paired) = (gate.shelf.clone(), pairing::paired());
        let approval = core_interface::oracle::can_access::approval();
        given.signals = run(gate, &operation).signals;
        gate.shelf = shelf;
        pairing::set_paired(paired);
        core_interface::restore_can_read_write_approval(approval);
        gate.take_signals();
    }
    given
}

fn forget_one_car(gate: &mut Gate, call: &Call) -> Reply {
    altered(gate, call, |told, gate, call| {
        if let Call::PreviewForget { .. } = call {
            let cars = gate.cars().into_iter().filter_map(|listed| {
                if Some(listed.0) == identified() {
                    told.cars.iter().find(|left| left.0 == listed.0).cloned()
                } else {
                    Some(listed)
                }
            });
            let cars = cars.collect();
            with_cars(told, cars);
        }
    })
}

fn forget_first(gate: &mut Gate, call: &Call) -> Reply {
    altered(gate, call, |told, gate, call| {
        if let Call::PreviewForget { phone } = call {
            let mut cars = gate.cars();
            for (_, phones) in &mut cars {
                if let Some(at) = phones.iter().position(|id| id == phone) {
                    phones.remove(at);
                }
            }
            cars.retain(|listed| !listed.1.is_empty());
            with_cars(told, cars);
        }
    })
}

fn empty_car_stays(gate: &mut Gate, call: &Call) -> Reply {
    altered(gate, call, |told, gate, call| {
        if let Call::PreviewPrune {} = call {
            let cars = gate.cars().into_iter().map(|(car, _)| {
                let left = told.cars.iter().find(|listed| listed.0 == car);
                left.cloned().unwrap_or((car, Vec::new()))
            });
            let cars = cars.collect();
            with_cars(told, cars);
        }
    })
}

fn unpair_keeps_validated(gate: &mut Gate, call: &Call) -> Reply {
    altered(gate, call, |told, gate, call| {
        if let Call::PreviewUnpair { .. } = call {
            with_cars(told, gate.cars());
        }
    })
}

fn unpair_no(gate: &mut Gate, call: &Call) -> Reply {
    altered(gate, call, |told, gate, _| {
        if told.answer == Answer::No {
            with_cars(told, gate.cars());
        }
    })
}

fn clear_first_car(gate: &mut Gate, call: &Call) -> Reply {
    altered(gate, call, |told, gate, call| {
        if let Call::PreviewClear {} = call {
            with_cars(told, gate.cars().into_iter().skip(1).collect());
        }
    })
}

fn clear_keeps(gate: &mut Gate, call: &Call) -> Reply {
    altered(gate, call, |told, gate, call| {
        if let Call::PreviewClear {} = call {
            with_cars(told, gate.cars());
        }
    })
}

fn clear_count(gate: &mut Gate, call: &Call) -> Reply {
    altered(gate, call, |told, _, call| {
        if let Call::PreviewClear {} = call {
            told.told = format!("count={}", told.paired.len());
        }
    })
}

fn bytes_version_1(gate: &mut Gate, call: &Call) -> Reply {
    altered(gate, call, |told, _, _| {
        if told.cars.len() == 1 {
            told.bytes -= 1;
        }
    })
}

fn bytes_head(gate: &mut Gate, call: &Call) -> Reply {
    altered(gate, call, |told, _, _| told.bytes = told.bytes.max(2))
}

fn bytes_freed(gate: &mut Gate, call: &Call) -> Reply {
    altered(gate, call, |told, gate, _| {
        told.bytes = gate.record().len() - told.bytes;
    })
}

fn bytes_first_car(gate: &mut Gate, call: &Call) -> Reply {
    altered(gate, call, |told, _, _| {
        let first = told.cars.first().cloned();
        told.bytes = Shelf(first.into_iter().collect()).record().len();
    })
}

fn long_id(gate: &mut Gate, call: &Call) -> Reply {
    altered(gate, call, |told, _, call| {
        if let Call::PreviewUnpair { phone } | Call::PreviewForget { phone } = call
            && phone.len() > MAX_ID_BYTES
        {
            told.answer = Answer::Refused(Refusal::IdTooLong);
        }
    })
}

fn drops_save(gate: &mut Gate, call: &Call) -> Reply {
    if operation_of(call).is_some() {
        gate.save = None;
    }
    run(gate, call)
}

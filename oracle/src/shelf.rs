//! W-207: the store of up to four cars stands beside the source, which holds one. The list that a call concerns is put
//! into the source before the call and taken back behind it (ADDED.md).

use crate::added::{MAX_ID_BYTES, MAX_PHONES};
use crate::answer::{Answer, Refusal, Signals, Values};
use crate::calls::Call;
use crate::convert::convert;
use crate::gate::{Gate, Outcome, done, plain, refused};
use crate::hex::to_hex;
use crate::items::Bytes;
use crate::previews::operation_of;
use core_interface::CarDigest;
use core_interface::oracle::{can_access, phone_trust, validation};

pub const MAX_CARS: usize = 4;
const DIGEST_BYTES: usize = 32;

/// A car and the phones that were validated for it.
pub type Listed = (CarDigest, Vec<Bytes>);

/// The cars in the order in which they came.
#[derive(Clone, Debug, Default, PartialEq, Eq)]
pub struct Shelf(pub Vec<Listed>);

impl Shelf {
    pub fn of(&self, car: CarDigest) -> Option<&Listed> {
        self.0.iter().find(|listed| listed.0 == car)
    }

    /// A car that is there keeps its place; another comes last, and a fifth displaces the first.
    fn put_back(&mut self, listed: Listed) {
        match self.0.iter_mut().find(|there| there.0 == listed.0) {
            Some(there) => *there = listed,
            None => self.0.push(listed),
        }
        if self.0.len() > MAX_CARS {
            self.0.remove(0);
        }
    }

    /// The record: 2, the number of cars, and for each what the source writes behind its version. For no car it is what the
    /// source writes for none.
    pub fn record(&self) -> Bytes {
        let mut record = written_by_source(None);
        if !self.0.is_empty() {
            record.extend([2, self.0.len() as u8]);
        }
        for listed in &self.0 {
            record.extend(&written_by_source(Some(listed))[1..]);
        }
        record
    }
}

/// What the source writes for a car, as version 1, or for none.
pub fn written_by_source(listed: Option<&Listed>) -> Bytes {
    let there = phone_trust::validations();
    phone_trust::set_validations(listed.cloned());
    let record = core_interface::encode_phone_validations();
    phone_trust::set_validations(there);
    record
}

/// Takes the source's list out of it.
fn take_list() -> Option<Listed> {
    let listed = phone_trust::validations();
    phone_trust::set_validations(None);
    listed
}

/// The car identified now.
pub fn identified() -> Option<CarDigest> {
    can_access::car().filter(|_| core_interface::is_car_fingerprint_confirmed())
}

/// Where the part of one car ends: 32 bytes, a count, and so many phones, each behind its length.
fn end_of_part(bytes: &[u8]) -> Option<usize> {
    let count = *bytes.get(DIGEST_BYTES)?;
    let mut end = DIGEST_BYTES + 1;
    for _ in 0..count {
        end += 1 + usize::from(*bytes.get(end)?);
    }
    (end <= bytes.len()).then_some(end)
}

/// The parts of a version 2 record that are whole, at most as many as it says, and what stands behind them.
pub fn whole_parts(record: &[u8]) -> (Vec<&[u8]>, &[u8]) {
    let [2, count, rest @ ..] = record else {
        return (Vec::new(), record);
    };
    let mut rest = rest;
    let mut parts = Vec::new();
    while parts.len() < usize::from(*count)
        && let Some(end) = end_of_part(rest)
    {
        parts.push(&rest[..end]);
        rest = &rest[end..];
    }
    (parts, rest)
}

/// The parts of a version 2 record, if it has as many as it says and nothing behind them.
pub fn parts(record: &[u8]) -> Option<Vec<&[u8]>> {
    let (parts, rest) = whole_parts(record);
    let says = usize::from(*record.get(1)?);
    (parts.len() == says && rest.is_empty()).then_some(parts)
}

/// The car of a version 1 record, as the source judges it.
fn read_by_source(record: &[u8]) -> Option<Listed> {
    core_interface::restore_phone_validations(record);
    take_list()
}

/// The cars of the parts of a version 2 record; the source judges each as a record of version 1.
pub fn read_parts(parts: &[&[u8]]) -> Option<Vec<Listed>> {
    let read = parts.iter().map(|part| {
        let record = [&[1], *part].concat();
        read_by_source(&record)
    });
    read.collect()
}

/// The cars of a record, whatever they are. A version 1 record goes to the source as it is, and so does one that cannot be
/// cut into 1 to 4 parts, which the source refuses.
pub fn read(record: &[u8]) -> Option<Vec<Listed>> {
    match parts(record) {
        Some(parts) if (1..=MAX_CARS).contains(&parts.len()) => read_parts(&parts),
        _ => read_by_source(record).map(|listed| vec![listed]),
    }
}

/// The cars of a record, or the first of 22, 28 and 23 over the whole of it.
pub fn judged(record: &[u8]) -> Result<Vec<Listed>, Refusal> {
    let cars = read(record).ok_or(Refusal::Malformed)?;
    if has_twice(&cars) {
        return Err(Refusal::CarTwice);
    }
    if cars.iter().any(is_over) {
        return Err(Refusal::TooLarge);
    }
    Ok(cars)
}

fn has_twice(cars: &[Listed]) -> bool {
    let again = |at: usize| cars[..at].iter().any(|before| before.0 == cars[at].0);
    (0..cars.len()).any(again)
}

/// Whether the car has over 32 phones or an id over 32 bytes.
pub fn is_over((_, phones): &Listed) -> bool {
    phones.len() > MAX_PHONES || phones.iter().any(|phone| phone.len() > MAX_ID_BYTES)
}

/// The version 1 form of a version 2 record that says one car; any other record as it is.
fn as_version_1(record: &[u8]) -> Bytes {
    match record {
        [2, 1, body @ ..] => [&[1], body].concat(),
        _ => record.to_vec(),
    }
}

/// The version 2 form of what the source writes.
fn as_version_2(record: &[u8]) -> Bytes {
    match record {
        [1, body @ ..] => [&[2, 1], body].concat(),
        _ => record.to_vec(),
    }
}

impl Gate {
    /// Runs a call with the lists that it concerns in the source. The bare source keeps its one list itself.
    pub(crate) fn run_with_lists(&mut self, call: &Call) -> Outcome {
        if let Some(operation) = operation_of(call) {
            return self.preview(&operation).outcome();
        }
        if let Some(outcome) = self.run_waiting(call) {
            return outcome;
        }
        match call {
            Call::Restore { record } if self.bare => restore_bare(&as_version_1(record)),
            Call::Restore { record } => self.restore(record),
            Call::Convert {
                record,
                target,
                output,
            } => convert(record, *target, output).outcome(),
            Call::Encode {} => {
                let record = to_hex(&self.record());
                (Answer::Ok, Values::text(format!("record={record}")))
            }
            Call::OpenSave {} => self.open_save(),
            Call::TakeSave { output } => self.take_save(output).outcome(),
            _ if self.bare => self.run_source(call),
            Call::Submit { .. } | Call::Complete { .. } => self.run_on_session_car(call),
            Call::Forget { .. } | Call::Prune {} => self.run_on_each(call, call),
            Call::Unpair { phone } => {
                let phone = phone.clone();
                self.run_on_each(call, &Call::Forget { phone })
            }
            Call::ClearPaired {} => {
                phone_trust::set_validations(self.shelf.0.first().cloned());
                self.shelf = Shelf::default();
                let outcome = self.run_source(call);
                assert_eq!(take_list(), None, "the source has cleared its list");
                outcome
            }
            _ => self.run_on_identified(call),
        }
    }

    /// The source sees the identified car's list and leaves it.
    fn run_on_identified(&mut self, call: &Call) -> Outcome {
        let listed = identified().and_then(|car| self.shelf.of(car).cloned());
        phone_trust::set_validations(listed.clone());
        let outcome = self.run_source(call);
        let is_new = matches!(call, Call::New { .. });
        let left = listed.filter(|_| !is_new);
        assert_eq!(take_list(), left, "{} leaves the list", call.name());
        outcome
    }

    /// The source sees the list of the session's car, and may add its phone.
    fn run_on_session_car(&mut self, call: &Call) -> Outcome {
        let session = validation::session();
        let listed = session.and_then(|session| self.shelf.of(session.car).cloned());
        phone_trust::set_validations(listed);
        let outcome = self.run_source(call);
        if let Some(listed) = take_list() {
            self.shelf.put_back(listed);
        }
        outcome
    }

    /// The source sees each list in turn, or none if there is none; those that it empties leave.
    fn run_on_each(&mut self, first: &Call, further: &Call) -> Outcome {
        let mut cars = std::mem::take(&mut self.shelf.0).into_iter();
        phone_trust::set_validations(cars.next());
        let outcome = self.run_source(first);
        self.shelf.0.extend(take_list());
        for listed in cars {
            phone_trust::set_validations(Some(listed));
            self.run_source(further);
            self.shelf.0.extend(take_list());
        }
        outcome
    }

    /// Each refusal empties the store. The signals are the source's.
    fn restore(&mut self, record: &[u8]) -> Outcome {
        let judged = judged(record);
        self.shelf = Shelf(judged.clone().unwrap_or_default());
        done(judged.map(|_| ()))
    }

    /// The cars of the store.
    pub fn cars(&self) -> Vec<Listed> {
        if self.bare {
            phone_trust::validations().into_iter().collect()
        } else {
            self.shelf.0.clone()
        }
    }

    pub(crate) fn record(&self) -> Bytes {
        if self.bare {
            as_version_2(&core_interface::encode_phone_validations())
        } else {
            self.shelf.record()
        }
    }

    /// Takes what the source's channels hold. S, wherever the source sent it, is the record of the store that is left.
    pub(crate) fn take_signals(&self) -> Signals {
        let mut signals = Signals::take();
        if let Some(sent) = &mut signals.validations {
            *sent = self.record();
        }
        signals
    }
}

/// 22 is the source's false. 23 empties a store that the source took although it is too large.
fn restore_bare(record: &[u8]) -> Outcome {
    if !core_interface::restore_phone_validations(record) {
        return refused(Refusal::Malformed);
    }
    let listed = phone_trust::validations().expect("the record was taken");
    if is_over(&listed) {
        phone_trust::set_validations(None);
        return refused(Refusal::TooLarge);
    }
    plain(Answer::Ok)
}

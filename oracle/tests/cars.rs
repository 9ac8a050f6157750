//! The shelf of W-207, held against the source without it, against a plain reading of records and against a plain store, and
//! the converter of W-208 against that reading. One test in one program, since the gate's statics are shared.

use core_interface::oracle::{pairing, validation};
use oracle::answer::{Answer, Refusal, Reply};
use oracle::calls::{Call, parse};
use oracle::gate::Gate;
use oracle::generate::{Options, script};
use oracle::replay::{self, replay};
use oracle::shelf::Listed;

#[test]
fn cars() {
    one_car_needs_no_shelf();
    records_and_stores_are_as_02_says();
}

const OPTIONS: Options = Options {
    counters: true,
    states: true,
    texts: false,
    one_car: false,
};

fn one_car_needs_no_shelf() {
    let one_car = Options {
        one_car: true,
        ..OPTIONS
    };
    let text = script(5, 20_000, one_car).lines.join("\n");
    let print = |bare| {
        let mut printed = Vec::new();
        let options = replay::Options {
            bare,
            ..Default::default()
        };
        assert!(replay(text.as_bytes(), &mut printed, &options).is_ok());
        String::from_utf8(printed).expect("text")
    };
    let (bare, shelved) = (print(true), print(false));
    for (bare, shelved) in bare.lines().zip(shelved.lines()) {
        assert_eq!(bare, shelved);
    }
    assert_eq!(bare.lines().count(), shelved.lines().count());
}

fn records_and_stores_are_as_02_says() {
    let mut gate = Gate::least();
    let mut cars: Vec<Listed> = Vec::new();
    let (mut read, mut converts) = (0, 0);
    for line in script(6, 40_000, OPTIONS).lines {
        let call = parse(&line).expect("a call").expect("no comment");
        if let Call::State {} = call {
            continue;
        }
        let reply = gate.perform(&call);
        change(&mut cars, &call, &reply);
        assert_eq!(gate.cars(), cars, "{line}");
        let record = written(&cars);
        if let Some(sent) = &reply.signals.validations {
            assert_eq!(*sent, record, "{line}");
        }
        match &call {
            Call::Restore { .. } => read += 1,
            Call::Convert {
                record,
                target,
                output,
            } => {
                converts += 1;
                assert_eq!(reply.to_string(), converted(record, *target, output));
            }
            _ => {}
        }
    }
    assert!(read > 500 && converts > 500);
}

/// What the converter gives: it changes the head alone.
fn converted(record: &[u8], two: bool, output: &[u8]) -> String {
    let target = judged(record).and_then(|_| match (record, two) {
        ([1, body @ ..], true) => Ok([&[2, 1], body].concat()),
        ([2, 1, body @ ..], false) => Ok([&[1], body].concat()),
        ([2, ..], false) => Err(Refusal::ManyCars),
        _ => Ok(record.to_vec()),
    });
    let mut lent = output.to_vec();
    let (answer, room) = match &target {
        Ok(target) if target.len() > lent.len() => {
            (Answer::Refused(Refusal::ShortOutput), target.len())
        }
        Ok(target) => {
            lent[..target.len()].copy_from_slice(target);
            (Answer::Ok, target.len())
        }
        Err(refusal) => (Answer::Refused(*refusal), 0),
    };
    let lent: String = lent.iter().map(|byte| format!("{byte:02x}")).collect();
    format!("answer={answer} room={room} output={lent} signals=none")
}

/// What a call does to a store of up to four cars.
fn change(cars: &mut Vec<Listed>, call: &Call, reply: &Reply) {
    let before = cars.clone();
    match call {
        Call::New { .. } | Call::ClearPaired {} => cars.clear(),
        Call::Submit { .. } | Call::Complete { .. } if reply.signals.validations.is_some() => {
            let session = validation::session().expect("it has ended");
            match cars.iter_mut().find(|listed| listed.0 == session.car) {
                Some((_, phones)) if phones.contains(&session.phone) => {}
                Some((_, phones)) => phones.push(session.phone),
                None => cars.push((session.car, vec![session.phone])),
            }
            if cars.len() == 5 {
                cars.remove(0);
            }
        }
        Call::Forget { phone } | Call::Unpair { phone } => keep(cars, |id| id != phone),
        Call::Prune {} => {
            let paired = pairing::paired();
            keep(cars, |id| paired.contains(id));
        }
        Call::Restore { record } => {
            let judged = judged(record);
            *cars = judged.clone().unwrap_or_default();
            let answer = judged.map_or_else(Answer::Refused, |_| Answer::Ok);
            assert_eq!(reply.answer, answer, "{record:?}");
            if record[..].starts_with(&[2]) && reply.answer == Answer::Ok {
                assert_eq!(written(cars), *record);
            }
        }
        _ => {}
    }
    let stores = match call {
        Call::Submit { .. } | Call::Complete { .. } => return,
        Call::New { .. } | Call::Restore { .. } => false,
        _ => *cars != before,
    };
    assert_eq!(reply.signals.validations.is_some(), stores, "{call}");
}

fn keep(cars: &mut Vec<Listed>, kept: impl Fn(&Vec<u8>) -> bool) {
    for (_, phones) in cars.iter_mut() {
        phones.retain(&kept);
    }
    cars.retain(|(_, phones)| !phones.is_empty());
}

fn written(cars: &[Listed]) -> Vec<u8> {
    let mut out = Vec::new();
    if !cars.is_empty() {
        out.extend([2, cars.len() as u8]);
    }
    for (car, phones) in cars {
        out.extend(car);
        out.push(phones.len() as u8);
        for phone in phones {
            out.push(phone.len() as u8);
            out.extend(phone);
        }
    }
    out
}

/// 22, 28, 23 or the cars.
fn judged(record: &[u8]) -> Result<Vec<Listed>, Refusal> {
    let cars = read(record).ok_or(Refusal::Malformed)?;
    for (at, (car, _)) in cars.iter().enumerate() {
        if cars[at + 1..].iter().any(|other| other.0 == *car) {
            return Err(Refusal::CarTwice);
        }
    }
    let large = |(_, phones): &Listed| phones.len() > 32 || phones.iter().any(|id| id.len() > 32);
    if cars.iter().any(large) {
        return Err(Refusal::TooLarge);
    }
    Ok(cars)
}

/// Reads a record of either version, whatever its limits, byte by byte.
fn read(record: &[u8]) -> Option<Vec<Listed>> {
    let mut bytes = record.iter().copied();
    let count = match bytes.next()? {
        1 => 1,
        2 => bytes.next().filter(|count| (1..=4).contains(count))?,
        _ => return None,
    };
    let mut cars = Vec::new();
    for _ in 0..count {
        let car = take(&mut bytes, 32)?.try_into().ok()?;
        let mut phones = Vec::new();
        for _ in 0..bytes.next().filter(|count| *count > 0)? {
            let length = bytes.next().filter(|length| *length > 0)?;
            phones.push(take(&mut bytes, length.into())?);
        }
        cars.push((car, phones));
    }
    bytes.next().is_none().then_some(cars)
}

fn take(bytes: &mut impl Iterator<Item = u8>, count: usize) -> Option<Vec<u8>> {
    let taken: Vec<u8> = bytes.take(count).collect();
    (taken.len() == count).then_some(taken)
}

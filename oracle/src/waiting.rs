//! W-204: frames that wait, which the source keeps in a channel for each bus. Here they lie in records of the script's host, who
//! lends the first of them, and the gate has how many wait and which bus was served last. Each frame is decided by the source.

use crate::added::{MAX_ID_BYTES, can_id};
use crate::answer::{Answer, Refusal, Values};
use crate::calls::Call;
use crate::gate::{Gate, Outcome, plain, refused};
use crate::hex::to_hex;
use crate::items::{Class, IdKind, IdNumber, yes_no};

/// How many records a list must have for frames to be taken and served.
pub const RECORDS: usize = 16;
/// How many records the host has.
pub const PLACES: usize = 17;
const BUSES: u8 = core_interface::MAX_CAN_BUSES as u8;

/// A frame with its class. A command's owner is kept whole, also if it is too long for an id.
#[derive(Clone, Debug, PartialEq, Eq)]
pub struct Record {
    pub bus: u8,
    pub kind: IdKind,
    pub id: IdNumber,
    pub dlc: u8,
    pub data: [u8; 8],
    pub class: Class,
}

/// What a record is before it is set.
impl Default for Record {
    fn default() -> Self {
        Self {
            bus: 0,
            kind: IdKind::Std,
            id: IdNumber(0),
            dlc: 0,
            data: [0; 8],
            class: Class::Platform,
        }
    }
}

impl Record {
    /// The record of a `send_can_frame` or `set_record` line.
    pub fn of(call: &Call) -> Option<Self> {
        let (Call::Send {
            frame_bus,
            kind,
            id,
            dlc,
            data,
            class,
        }
        | Call::SetRecord {
            frame_bus,
            kind,
            id,
            dlc,
            data,
            class,
            ..
        }) = call
        else {
            return None;
        };
        Some(Self {
            bus: *frame_bus,
            kind: *kind,
            id: *id,
            dlc: *dlc,
            data: *data,
            class: class.clone(),
        })
    }

    pub fn into_send(self) -> Call {
        Call::Send {
            frame_bus: self.bus,
            kind: self.kind,
            id: self.id,
            dlc: self.dlc,
            data: self.data,
            class: self.class,
        }
    }

    /// The bus that the frame waits on.
    pub fn on(&self) -> u8 {
        self.bus % BUSES
    }

    /// None of a platform frame.
    pub fn owner(&self) -> &[u8] {
        match &self.class {
            Class::Platform => &[],
            Class::Command(owner) => owner,
        }
    }

    pub fn has_good_id(&self) -> bool {
        can_id(self.kind, self.id).is_some()
    }

    pub fn has_long_owner(&self) -> bool {
        self.owner().len() > MAX_ID_BYTES
    }

    fn show_frame(&self) -> String {
        format!(
            "{}/{}/{:x}/{}/{}",
            self.bus,
            self.kind.name(),
            self.id.0,
            self.dlc,
            to_hex(&self.data)
        )
    }

    /// An owner that is too long shows as many bytes as an id may have.
    fn show(&self) -> String {
        let owner = self.owner();
        let owner = &owner[..owner.len().min(MAX_ID_BYTES)];
        let class = self.class.name();
        format!("{}/{class}/{}", self.show_frame(), to_hex(owner))
    }
}

/// The records of the script's host, and how many of them it lends.
#[derive(Clone, Debug, PartialEq, Eq)]
pub struct Lent {
    pub records: Vec<Record>,
    pub length: usize,
}

impl Default for Lent {
    fn default() -> Self {
        Self {
            records: vec![Record::default(); PLACES],
            length: RECORDS,
        }
    }
}

/// What the gate keeps of waiting frames: how many records wait, from the first place on, and the bus that was served last.
#[derive(Clone, Copy, Debug, PartialEq, Eq)]
pub struct Queue {
    pub count: usize,
    pub last: u8,
}

/// The first turn of a new gate looks from bus 0.
impl Default for Queue {
    fn default() -> Self {
        Self {
            count: 0,
            last: BUSES - 1,
        }
    }
}

/// What a run tells: the turns that it took, and each frame, as it was decided, with its yes or no.
pub struct Ran {
    pub turns: u64,
    pub decided: Vec<Decided>,
}

pub type Decided = (Record, bool);

impl Ran {
    pub fn of(decided: Vec<Decided>) -> Self {
        Self {
            turns: decided.len() as u64,
            decided,
        }
    }

    pub fn outcome(&self) -> Outcome {
        let decided = self.decided.iter();
        let frames: Vec<String> = decided
            .map(|(record, yes)| format!("{}/{}", record.show_frame(), yes_no(*yes)))
            .collect();
        let text = format!("turns={} frames={}", self.turns, frames.join(","));
        (Answer::Ok, Values::text(text))
    }
}

/// The place of the oldest frame of the next bus that has one, past the bus that was served last.
pub fn next_place(waiting: &[Record], last: u8) -> Option<usize> {
    let buses = (1..=BUSES).map(|step| (last + step) % BUSES);
    let oldest = |bus| waiting.iter().position(|record| record.on() == bus);
    buses.filter_map(oldest).next()
}

impl Gate {
    /// Runs a line of W-204; `None` for any other.
    pub(crate) fn run_waiting(&mut self, call: &Call) -> Option<Outcome> {
        let record = Record::of(call);
        Some(match (call, record) {
            (Call::Send { .. }, Some(record)) => self.send(record),
            (Call::Serve { turns, now }, _) => self.serve(*turns, *now).outcome(),
            (Call::SetList { length }, _) => {
                self.lent.length = length.0 as usize;
                plain(Answer::Ok)
            }
            (Call::SetRecord { place, .. }, Some(record)) => {
                self.lent.records[place.0 as usize] = record;
                plain(Answer::Ok)
            }
            (Call::LentList {}, _) => self.show_lent(),
            _ => return None,
        })
    }

    /// Every check of send that refuses the frame, in their order.
    pub(crate) fn refusals(&self, record: &Record) -> Vec<Refusal> {
        let full = self.queue.count == RECORDS || self.lent.length != RECORDS;
        let no_bus = core_interface::can_tx_channel(record.bus).is_none();
        let checks = [
            (!record.has_good_id(), Refusal::BadFrame),
            (record.has_long_owner(), Refusal::IdTooLong),
            (no_bus, Refusal::BadBus),
            (full, Refusal::QueueFull),
        ];
        let refuse = checks.into_iter().filter(|(refuses, _)| *refuses);
        refuse.map(|(_, refusal)| refusal).collect()
    }

    fn send(&mut self, record: Record) -> Outcome {
        if let Some(refusal) = self.refusals(&record).first() {
            return refused(*refusal);
        }
        self.lent.records[self.queue.count] = record;
        self.queue.count += 1;
        plain(Answer::Ok)
    }

    /// As many turns as are asked for and as frames wait; none on a list of another length.
    pub(crate) fn serve(&mut self, turns: u32, now: u64) -> Ran {
        let taken = if self.lent.length == RECORDS {
            self.queue.count.min(turns as usize)
        } else {
            0
        };
        Ran::of((0..taken).map(|_| self.turn(now)).collect())
    }

    pub(crate) fn waiting(&self) -> &[Record] {
        &self.lent.records[..self.queue.count]
    }

    fn turn(&mut self, now: u64) -> Decided {
        let place = next_place(self.waiting(), self.queue.last).expect("a frame waits");
        self.turn_at(place, now)
    }

    /// Decides the frame at a place, under its bus modulo 4, and takes it out of those that wait.
    pub(crate) fn turn_at(&mut self, place: usize, now: u64) -> Decided {
        let mut record = self.lent.records[place].clone();
        record.bus = record.on();
        let yes = self.decides(record.bus, &record, now);
        self.close_up(place);
        self.queue.last = record.bus;
        (record, yes)
    }

    /// The source's answer for a frame on this bus, with whatever it leaves in the gate. A number that is no id is refused.
    pub(crate) fn decides(&mut self, bus: u8, record: &Record, now: u64) -> bool {
        let asked = self.run_with_lists(&Call::Allow {
            bus,
            frame_bus: record.bus,
            kind: record.kind,
            id: record.id,
            dlc: record.dlc,
            data: record.data,
            class: record.class.clone(),
            now,
        });
        asked.0 == Answer::Yes
    }

    /// The frames behind the place move one forward. The place that gets free keeps what it held.
    fn close_up(&mut self, place: usize) {
        for behind in place + 1..self.queue.count {
            self.lent.records[behind - 1] = self.lent.records[behind].clone();
        }
        self.queue.count -= 1;
    }

    fn show_lent(&self) -> Outcome {
        let length = self.lent.length;
        let records = self.lent.records[..length].iter();
        let records: Vec<String> = records.map(Record::show).collect();
        let text = format!("length={length} records={}", records.join(","));
        (Answer::Ok, Values::text(text))
    }

    /// The end of the state line.
    pub(crate) fn show_queue(&self) -> String {
        format!("waiting={} last_bus={}", self.queue.count, self.queue.last)
    }
}

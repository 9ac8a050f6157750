//! W-208: the converter of records, which the source does not have. It is no call of the gate and leaves it as it is.

use crate::answer::{Answer, Refusal, Signals, Values};
use crate::gate::Outcome;
use crate::hex::to_hex;
use crate::items::Bytes;
use crate::shelf::{Shelf, judged, written_by_source};
use core_interface::oracle::phone_trust;

/// What a conversion gives; `output` is the lent memory afterwards.
pub struct Converted {
    pub answer: Answer,
    pub room: usize,
    pub output: Bytes,
}

impl Converted {
    /// A refusal, which leaves the lent memory as it was.
    pub fn refused(refusal: Refusal, room: usize, output: &[u8]) -> Self {
        Self {
            answer: Answer::Refused(refusal),
            room,
            output: output.to_vec(),
        }
    }

    /// The record at the front of the lent memory, or 30.
    pub fn written(record: &[u8], output: &[u8]) -> Self {
        let Some(past) = output.get(record.len()..) else {
            return Self::refused(Refusal::ShortOutput, record.len(), output);
        };
        Self {
            answer: Answer::Ok,
            room: record.len(),
            output: [record, past].concat(),
        }
    }

    /// Room and memory stand behind every answer.
    pub fn outcome(&self) -> Outcome {
        let output = to_hex(&self.output);
        let text = format!("room={} output={output}", self.room);
        (self.answer, Values::text(text))
    }
}

/// A yes, `two`, picks target 2. What the source holds and sends meanwhile is put back and dropped.
pub fn convert(record: &[u8], two: bool, output: &[u8]) -> Converted {
    let there = phone_trust::validations();
    let target = target_of(record, two);
    phone_trust::set_validations(there);
    Signals::take();
    match target {
        Ok(target) => Converted::written(&target, output),
        Err(refusal) => Converted::refused(refusal, 0, output),
    }
}

/// The record of the target version, as the source writes each of its cars, or the first of 22, 28, 23 and 29.
fn target_of(record: &[u8], two: bool) -> Result<Bytes, Refusal> {
    let cars = judged(record)?;
    if two {
        return Ok(Shelf(cars).record());
    }
    match &cars[..] {
        [listed] => Ok(written_by_source(Some(listed))),
        _ => Err(Refusal::ManyCars),
    }
}

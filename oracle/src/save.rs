//! W-209: a save, which the source does not have. It is the record of the store as it was when the save was opened, handed out
//! in pieces.

use crate::answer::{Answer, Refusal, Values};
use crate::gate::{Gate, Outcome, plain};
use crate::hex::to_hex;
use crate::items::{Bytes, yes_no};

/// The record as at opening, and how many of its bytes were handed out.
#[derive(Clone, Debug, PartialEq, Eq)]
pub struct Save {
    pub record: Bytes,
    pub at: usize,
}

impl Save {
    /// The bytes that were not handed out.
    pub fn rest(&self) -> &[u8] {
        &self.record[self.at..]
    }
}

/// What a take gives: how many bytes were handed out and whether none is left over, or 31; `output` is the lent memory
/// afterwards.
pub struct Taken {
    pub told: Option<(usize, bool)>,
    pub output: Bytes,
}

impl Taken {
    /// The memory stands behind every answer.
    pub fn outcome(&self) -> Outcome {
        let output = to_hex(&self.output);
        match self.told {
            Some((taken, end)) => {
                let text = format!("taken={taken} end={} output={output}", yes_no(end));
                (Answer::Ok, Values::text(text))
            }
            None => {
                let answer = Answer::Refused(Refusal::NoSave);
                (answer, Values::text(format!("output={output}")))
            }
        }
    }
}

impl Gate {
    /// Fixes the record of this moment. A save that is open is dropped.
    pub(crate) fn open_save(&mut self) -> Outcome {
        let record = self.record();
        self.save = Some(Save { record, at: 0 });
        plain(Answer::Ok)
    }

    /// Hands out as many of the next bytes as the lent memory holds. The take that leaves none over tells the end, and the save
    /// is open no more.
    pub(crate) fn take_save(&mut self, lent: &[u8]) -> Taken {
        let mut output = lent.to_vec();
        let Some(save) = &mut self.save else {
            return Taken { told: None, output };
        };
        let taken = save.rest().len().min(lent.len());
        output[..taken].copy_from_slice(&save.rest()[..taken]);
        save.at += taken;
        let end = save.rest().is_empty();
        if end {
            self.save = None;
        }
        Taken {
            told: Some((taken, end)),
            output,
        }
    }

    /// The end of the state line.
    pub(crate) fn show_save(&self) -> String {
        match &self.save {
            Some(save) => format!("save={} at={}", to_hex(&save.record), save.at),
            None => "save=none".to_string(),
        }
    }
}

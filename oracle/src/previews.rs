//! W-203: previews, which the source does not have. The source runs the operation itself; what it told is kept, and the gate is
//! put back as it was.

use crate::answer::{Answer, Signals, Values};
use crate::calls::Call;
use crate::gate::{Gate, Outcome};
use crate::items::Bytes;
use crate::shelf::{Listed, Shelf};
use crate::state::show_lists;
use core_interface::CarDigest;
use core_interface::oracle::{can_access, pairing, phone_trust};

/// The operation that a call previews.
pub fn operation_of(call: &Call) -> Option<Call> {
    match call {
        Call::PreviewUnpair { phone } => Some(Call::Unpair {
            phone: phone.clone(),
        }),
        Call::PreviewClear {} => Some(Call::ClearPaired {}),
        Call::PreviewForget { phone } => Some(Call::Forget {
            phone: phone.clone(),
        }),
        Call::PreviewPrune {} => Some(Call::Prune {}),
        Call::PreviewApprove {} => Some(Call::Approve {}),
        _ => None,
    }
}

/// What a preview tells: the operation's answer with its values, and of the gate that it would leave the lists and how many
/// bytes the record has.
pub struct Previewed {
    pub answer: Answer,
    pub told: String,
    pub paired: Vec<Bytes>,
    pub cars: Vec<Listed>,
    pub bytes: usize,
}

impl Previewed {
    /// Lists and bytes stand behind every answer.
    pub fn outcome(&self) -> Outcome {
        let lists = show_lists(&self.paired, &self.cars);
        let mut text = format!("{lists} record_bytes={}", self.bytes);
        if !self.told.is_empty() {
            text = format!("{} {text}", self.told);
        }
        (self.answer, Values::text(text))
    }
}

/// What the five operations may change.
struct Kept {
    paired: Vec<Bytes>,
    /// The source's own list, which it has without a shelf.
    listed: Option<Listed>,
    shelf: Shelf,
    approval: Option<CarDigest>,
}

impl Kept {
    fn of(gate: &Gate) -> Self {
        Self {
            paired: pairing::paired(),
            listed: phone_trust::validations(),
            shelf: gate.shelf.clone(),
            approval: can_access::approval(),
        }
    }

    fn put_back(self, gate: &mut Gate) {
        pairing::set_paired(self.paired);
        phone_trust::set_validations(self.listed);
        gate.shelf = self.shelf;
        core_interface::restore_can_read_write_approval(self.approval);
    }
}

impl Gate {
    /// What the operation would give; it raises nothing and leaves the gate as it is.
    pub(crate) fn preview(&mut self, operation: &Call) -> Previewed {
        let before = self.show_state();
        let kept = Kept::of(self);
        let (answer, values) = self.run_with_lists(operation);
        let previewed = Previewed {
            answer,
            told: values.text,
            paired: pairing::paired(),
            cars: self.cars(),
            bytes: self.record().len(),
        };
        kept.put_back(self);
        Signals::take();
        assert_eq!(self.show_state(), before, "a preview keeps the gate");
        previewed
    }
}

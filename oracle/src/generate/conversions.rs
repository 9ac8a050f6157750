//! Lines of the converter (W-208), which is no call of the gate.

use super::Generator;
use crate::answer::Answer;
use crate::calls::Call;
use crate::convert::convert;
use crate::items::Bytes;

/// How many bytes a record and the lent memory may have together, for a line below 10,240 bytes.
const MOST_BYTES: usize = 5_090;

/// The most that is lent.
pub(super) const LONGEST_LENT: u64 = 4_400;

impl Generator {
    /// Some conversions; what comes out of one is sometimes converted back.
    pub(super) fn conversions(&mut self) {
        for _ in 0..1 + self.random.below(3) {
            let call = self.conversion();
            self.emit(call.clone());
            let Call::Convert {
                record,
                target,
                output,
            } = call
            else {
                return;
            };
            let given = convert(&record, target, &output);
            if given.answer == Answer::Ok && self.random.flip() {
                let back = given.output[..given.room].to_vec();
                let call = self.conversion_of(back, record[0] == 2);
                self.emit(call);
            }
        }
    }

    /// A record of any kind. Those of one car are common, since they alone go both ways, and large ones are not rare.
    pub(super) fn conversion(&mut self) -> Call {
        let record = match self.random.below(12) {
            0..=2 => self.record_of_one_car(),
            3 => self.record_too_large(),
            _ => self.record(),
        };
        let target = self.random.flip();
        self.conversion_of(record, target)
    }

    /// The lent length stands around the room, or is any. A refused record needs none; then it stands around what version 1
    /// would have.
    fn conversion_of(&mut self, record: Bytes, target: bool) -> Call {
        let room = match convert(&record, target, &[]).room {
            0 => record.len().saturating_sub(1),
            room => room,
        };
        let any = self.random.below(LONGEST_LENT + 1) as usize;
        let less = room.saturating_sub(1);
        let lengths = [0, less, less, room, room, room, room + 1, room + 20, any];
        let most = MOST_BYTES.saturating_sub(record.len());
        let length = self.random.pick(&lengths).min(most);
        Call::Convert {
            record,
            target,
            output: self.random.bytes(length),
        }
    }
}

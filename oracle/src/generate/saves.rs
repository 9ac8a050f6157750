//! Saves (W-209): opened, taken in pieces, with other calls between.

use super::Generator;
use super::conversions::LONGEST_LENT;
use crate::calls::Call;
use crate::items::MethodKind;

impl Generator {
    /// A save and some takes. Mostly it is taken to its end, and sometimes once more behind that.
    pub(super) fn saves(&mut self) {
        match self.random.below(16) {
            0 | 1 => {
                self.emit(Call::ClearPaired {});
            }
            2 => {
                let record = self.longest_record();
                self.emit(Call::Restore { record });
            }
            _ => {}
        }
        self.emit(Call::OpenSave {});
        for _ in 0..self.random.below(6) {
            self.between_takes();
            let call = self.take();
            self.emit(call);
        }
        if self.random.chance(3, 4) {
            self.take_to_the_end();
        }
        if self.random.chance(1, 3) {
            let call = self.take();
            self.emit(call);
        }
    }

    /// Takes in a few pieces that leave nothing over.
    fn take_to_the_end(&mut self) {
        let pieces = 1 + self.random.below(3) as usize;
        for piece in 0..pieces {
            let Some(save) = &self.gate.save else {
                return;
            };
            let length = save.rest().len().div_ceil(pieces - piece);
            let output = self.random.bytes(length);
            self.emit(Call::TakeSave { output });
            self.noise();
        }
    }

    /// Lends no byte, one, around as many as are left, or any number.
    pub(super) fn take(&mut self) -> Call {
        let rest = self.gate.save.as_ref().map_or(0, |save| save.rest().len());
        let less = rest.saturating_sub(1);
        let any = self.random.below(LONGEST_LENT + 1) as usize;
        let lengths = [
            0,
            0,
            1,
            1,
            2,
            16,
            16,
            rest / 2,
            less,
            rest,
            rest,
            rest + 1,
            rest + 20,
            any,
        ];
        let length = self.random.pick(&lengths);
        Call::TakeSave {
            output: self.random.bytes(length),
        }
    }

    /// Something that may change the store while a save is open; sometimes another save is opened.
    fn between_takes(&mut self) {
        let phone = self.listed_phone();
        match self.random.below(24) {
            0..=2 => {
                let phone = self.phone();
                self.emit(Call::Pair { phone });
            }
            3..=7 => {
                let kind = self.random.pick(&[MethodKind::Code, MethodKind::Action]);
                if let Some(phone) = self.begin(kind) {
                    self.finish_session(&phone);
                }
            }
            8..=9 => {
                self.emit(Call::Forget { phone });
            }
            10 => {
                self.emit(Call::Unpair { phone });
            }
            11 => {
                self.emit(Call::Prune {});
            }
            12 => {
                self.emit(Call::ClearPaired {});
            }
            13..=14 => {
                let record = self.record();
                self.emit(Call::Restore { record });
            }
            15 => {
                self.emit(Call::Approve {});
            }
            16 => {
                self.emit(Call::Encode {});
            }
            17..=18 => {
                self.emit(Call::OpenSave {});
            }
            19..=20 => self.any_call(),
            _ => {}
        }
    }
}

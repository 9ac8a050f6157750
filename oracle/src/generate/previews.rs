//! Previews (W-203), mostly of something that there is, and often with the operation behind them.

use super::Generator;
use crate::calls::Call;
use crate::items::Bytes;
use crate::previews::operation_of;
use core_interface::oracle::pairing;

impl Generator {
    pub(super) fn previews(&mut self) {
        match self.random.below(8) {
            0 => {
                let record = self.longest_record();
                self.emit(Call::Restore { record });
            }
            1..=3 => {
                let record = self.record();
                self.emit(Call::Restore { record });
            }
            _ => {}
        }
        for _ in 0..2 + self.random.below(3) {
            let call = self.preview();
            self.emit(call.clone());
            if let Some(operation) = operation_of(&call)
                && self.random.chance(2, 5)
            {
                self.emit(operation);
            }
        }
    }

    /// Any of the five, of a phone that is listed or paired, or of any. An empty id that is listed is rare, so it is taken.
    pub(super) fn preview(&mut self) -> Call {
        let cars = &self.gate.shelf.0;
        let empty = cars.iter().any(|car| car.1.contains(&Bytes::new()));
        let listed = self.listed_phone();
        let paired = self.known_phone(pairing::paired());
        let any = self.phone();
        let phone = if empty {
            Bytes::new()
        } else {
            self.random.pick(&[listed.clone(), listed, paired, any])
        };
        let same = phone.clone();
        self.random.pick(&[
            Call::PreviewUnpair { phone },
            Call::PreviewForget { phone: same },
            Call::PreviewClear {},
            Call::PreviewPrune {},
            Call::PreviewApprove {},
        ])
    }
}

//! Pairings, validated phones and what they may send.

use super::Generator;
use super::pools::filler;
use crate::calls::Call;
use crate::items::MethodKind;
use core_interface::oracle::pairing;

impl Generator {
    /// A list of 31 or 32 phones for the car, and sessions of phones that it holds or not.
    pub(super) fn full_list(&mut self) {
        if !core_interface::is_car_fingerprint_confirmed() {
            self.emit(Call::ConfirmPlatform {});
            self.emit(Call::Fingerprint {
                fingerprint: b"VIN1".to_vec(),
            });
        }
        let count = self.random.pick(&[32, 32, 32, 31]);
        let mut phones: Vec<_> = (0..count).map(filler).collect();
        if self.random.chance(1, 4) {
            // One id twice: places are counted, not phones.
            phones[usize::from(count) - 1] = filler(0);
        }
        let record = self.record_with(phones);
        self.emit(Call::Restore { record });
        if self.random.chance(1, 6) {
            // The full list is now another car's.
            self.emit(Call::Fingerprint {
                fingerprint: b"VIN4".to_vec(),
            });
        }
        let kind = self.random.pick(&[MethodKind::Code, MethodKind::Action]);
        let Some(phone) = self.begin(kind) else {
            return;
        };
        for _ in 0..2 {
            self.finish_session(&phone);
            if self.random.flip() {
                let gone = filler(self.random.below(32) as u8);
                self.emit(Call::Forget { phone: gone });
            }
        }
        self.finish_session(&phone);
    }

    /// Frames of validated phones and others, mostly while read-write.
    pub(super) fn commands(&mut self) {
        if core_interface::is_can_read_only() && self.random.chance(4, 5) {
            self.make_ready();
        }
        if core_interface::is_car_fingerprint_confirmed() && self.random.flip() {
            let phone = self.short_phone();
            self.emit(Call::Pair {
                phone: phone.clone(),
            });
            if !phone.is_empty() {
                let record = self.record_with(vec![phone]);
                self.emit(Call::Restore { record });
            }
        }
        for _ in 0..1 + self.random.below(5) {
            let call = self.allow();
            self.emit(call);
            self.noise();
        }
        let phone = self.phone();
        self.emit(Call::TrustLevel {
            phone: phone.clone(),
        });
        self.emit(Call::IsValidated { phone });
        self.emit(Call::CarHasValidated {});
    }

    /// Pairings come and go, up to the limit.
    pub(super) fn phones(&mut self) {
        let many = self.random.pick(&[0, 0, 0, 3, 9, 33]);
        for n in 0..many {
            self.emit(Call::Pair { phone: filler(n) });
        }
        for _ in 0..1 + self.random.below(6) {
            let phone = self.phone();
            let call = match self.random.below(20) {
                0..=8 => Call::Pair { phone },
                9..=13 => Call::Unpair { phone },
                14..=15 => Call::Forget { phone },
                16 => Call::Prune {},
                17 => Call::ClearPaired {},
                18 => Call::ListPaired {},
                _ => Call::TrustLevel { phone },
            };
            self.emit(call);
        }
        if !pairing::paired().is_empty() {
            self.emit(Call::PairedCount {});
        }
    }

    /// The store is written, restored, pruned.
    pub(super) fn records(&mut self) {
        for _ in 0..1 + self.random.below(4) {
            let record = self.record();
            self.emit(Call::Restore { record });
            if !self.gate.shelf.0.is_empty() && self.random.flip() {
                self.emit(Call::Encode {});
                let phone = self.phone();
                let change = self.random.pick(&[
                    Call::Prune {},
                    Call::Forget {
                        phone: phone.clone(),
                    },
                    Call::Unpair { phone },
                    Call::Approve {},
                ]);
                self.emit(change);
            }
        }
    }
}

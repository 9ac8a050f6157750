//! Wrong codes over several sessions, so that what starts, ends and successes leave of the gate's tries is seen (W-206).

use super::Generator;
use crate::calls::Call;
use crate::items::{Bytes, MethodKind};
use core_interface::oracle::validation;

impl Generator {
    /// Some wrong codes, an end of some kind, another session of this phone or another, and so on.
    pub(super) fn guess_on(&mut self, mut phone: Bytes) {
        for _ in 0..2 + self.random.below(4) {
            for _ in 0..self.random.pick(&[0, 1, 1, 1, 2]) {
                if self.runs(&phone) {
                    self.type_wrong(&phone);
                }
            }
            self.end_or_not(&phone);
            let other = self.short_phone();
            phone = self.random.pick(&[phone.clone(), phone, other]);
            let kind = self.random.pick(&[
                MethodKind::Code,
                MethodKind::Code,
                MethodKind::Code,
                MethodKind::Action,
            ]);
            if !self.begin_as(phone.clone(), kind) {
                continue;
            }
            if kind == MethodKind::Action && self.random.flip() {
                self.finish_session(&phone);
            }
        }
    }

    /// The session is cancelled, times out, is lost, succeeds or goes on.
    fn end_or_not(&mut self, phone: &Bytes) {
        match self.random.below(8) {
            0 | 1 => {
                let now = self.now;
                self.emit(Call::Cancel {
                    phone: phone.clone(),
                    now,
                });
            }
            2 | 3 => {
                let deadline =
                    validation::session().map_or(self.now, |session| session.deadline_ms);
                self.go_to(deadline);
                self.emit(Call::Tick { now: deadline });
            }
            4 => self.lose(phone),
            5 => self.type_right(phone),
            _ => {}
        }
        self.look_at_session();
    }
}

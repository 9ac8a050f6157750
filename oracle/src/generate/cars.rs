//! Cars that come and go, so that the store's order, its four places and the phones under each car are seen (W-207).

use super::Generator;
use crate::added::ungrouped;
use crate::calls::Call;
use crate::items::{Bytes, MethodKind};
use crate::shelf::identified;
use core_interface::oracle::validation::{self, SessionView};
use core_interface::proto::PhoneValidationStatus;
use core_interface::{CarDigest, ValidationKind};

/// How many digests are remembered.
const SEEN: usize = 12;

/// How many calls were chosen for a script of one car, and how many of these were left out of it.
#[derive(Clone, Copy, Default)]
pub struct Share {
    pub chosen: usize,
    pub left_out: usize,
}

/// What the bare source cannot show: successes and approvals for another car than the stored one, and records of several.
#[derive(Clone, Copy, Default)]
pub struct OneCar {
    pub successes: Share,
    pub approvals: Share,
    pub records: Share,
}

impl Generator {
    /// One of seven cars.
    pub(super) fn one_car_of_seven(&mut self) -> Bytes {
        let others = if self.options.one_car { 1 } else { 24 };
        let number = match self.random.below(16 + others) {
            0..=15 => b'1',
            n => b'2' + ((n - 16) % 6) as u8,
        };
        vec![b'V', b'I', b'N', number]
    }

    /// Remembers the digest of the identified car.
    pub(super) fn remember_car(&mut self) {
        if let Some(car) = identified()
            && !self.seen.contains(&car)
        {
            self.seen.push(car);
            if self.seen.len() > SEEN {
                self.seen.remove(0);
            }
        }
    }

    /// The device goes from car to car, and in most of them a phone is validated.
    pub(super) fn tour(&mut self) {
        for _ in 0..2 + self.random.below(6) {
            if !core_interface::is_car_identity_confirmed() {
                self.emit(Call::ConfirmPlatform {});
            }
            let fingerprint = self.one_car_of_seven();
            self.emit(Call::Fingerprint { fingerprint });
            let kind = self.random.pick(&[MethodKind::Code, MethodKind::Action]);
            if let Some(phone) = self.begin(kind) {
                self.finish_session(&phone);
            }
            self.look_at_cars();
        }
    }

    /// Queries and changes of the store.
    fn look_at_cars(&mut self) {
        for _ in 0..self.random.below(3) {
            let listed = self.listed_phone();
            let any = self.phone();
            let phone = self.random.pick(&[listed.clone(), listed, any]);
            let command = self.command_of(phone.clone());
            let record = self.gate.shelf.record();
            let preview = self.preview();
            let call = self.random.pick(&[
                preview.clone(),
                preview,
                Call::Encode {},
                Call::IsValidated {
                    phone: phone.clone(),
                },
                Call::IsValidated {
                    phone: phone.clone(),
                },
                Call::CarHasValidated {},
                Call::TrustLevel {
                    phone: phone.clone(),
                },
                command,
                Call::Pair {
                    phone: phone.clone(),
                },
                Call::Pair {
                    phone: phone.clone(),
                },
                Call::Forget {
                    phone: phone.clone(),
                },
                Call::Unpair { phone },
                Call::Approve {},
                Call::Prune {},
                Call::Restore { record },
            ]);
            self.emit(call);
        }
    }

    /// A phone that is listed under some car.
    pub(super) fn listed_phone(&mut self) -> Bytes {
        let cars = self.gate.shelf.0.iter();
        let listed: Vec<Bytes> = cars.flat_map(|(_, phones)| phones.clone()).collect();
        self.known_phone(listed)
    }

    /// Whether the bare source, which has one car, would give something else. Counts what was chosen and what is left out.
    pub(super) fn leaves_out_car(&mut self, call: &Call) -> bool {
        let session = validation::session();
        let (share, leaves_out) = match call {
            Call::Restore { record } => {
                let several = matches!(record[..], [2, 2..=4, ..]);
                (&mut self.one_car.records, several)
            }
            Call::Approve {} | Call::PreviewApprove {} => {
                let another = identified().is_some_and(|car| holds_another(&self.gate, car));
                (&mut self.one_car.approvals, another)
            }
            Call::Submit { .. } | Call::Complete { .. } => {
                let Some(session) = session.filter(|session| may_succeed(session, call)) else {
                    return false;
                };
                let another = holds_another(&self.gate, session.car);
                (&mut self.one_car.successes, another)
            }
            _ => return false,
        };
        share.chosen += 1;
        share.left_out += usize::from(leaves_out);
        leaves_out
    }
}

fn holds_another(gate: &crate::gate::Gate, car: CarDigest) -> bool {
    gate.shelf.0.iter().any(|listed| listed.0 != car)
}

/// Whether a call ends the session well, unless a tick ends it first.
fn may_succeed(session: &SessionView, call: &Call) -> bool {
    if session.status != PhoneValidationStatus::InProgress {
        return false;
    }
    match call {
        Call::Submit { phone, code, .. } => {
            let typed = std::str::from_utf8(code).map(ungrouped);
            let right = typed.is_ok_and(|typed| {
                let typed = typed.trim().as_bytes();
                session.code.is_some_and(|code| code[..] == *typed)
            });
            session.phone == *phone && right
        }
        Call::Complete {
            session: number, ..
        } => session.id == *number && session.method.kind == ValidationKind::InCarAction,
        _ => false,
    }
}

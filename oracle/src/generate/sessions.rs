//! Sessions, brought to each of their ends.

use super::Generator;
use crate::calls::Call;
use crate::items::{Bytes, Method, MethodKind};
use core_interface::VALIDATION_RESULT_KEEP_MS;
use core_interface::oracle::validation;
use core_interface::proto::PhoneValidationStatus;

impl Generator {
    /// Mostly what a method needs to start.
    fn prepare(&mut self, method: &Method) {
        let identified = core_interface::is_car_fingerprint_confirmed();
        if !identified && self.random.chance(9, 10) {
            self.emit(Call::ConfirmPlatform {});
            let fingerprint = self.fingerprint();
            self.emit(Call::Fingerprint { fingerprint });
        }
        let locked = method.needs_approval && core_interface::is_can_read_only();
        if locked && self.random.chance(9, 10) {
            self.make_ready();
        }
        let methods = &self.gate.settings.methods;
        let place = methods.iter().position(|m| m.id == method.id);
        let place = place.expect("a method of the gate") as u32;
        if !crate::host::is_available(place as usize) && self.random.chance(3, 4) {
            self.emit(Call::NoteAvailable { place, on: true });
        }
        if !crate::host::can_continue(place as usize) && self.random.chance(9, 10) {
            self.emit(Call::NoteContinue { place, on: true });
        }
        self.end_what_hinders();
    }

    /// Waits for the end of a cooldown, and ends a session of another phone.
    fn end_what_hinders(&mut self) {
        let until = validation::cooldown_until_ms();
        if self.now < until && self.random.chance(3, 4) {
            let moment = self
                .random
                .pick(&[until, until, until - 1, until.saturating_add(1)]);
            self.go_to(moment);
        }
        if let Some(session) = validation::session()
            && session.status == PhoneValidationStatus::InProgress
            && self.random.chance(3, 4)
        {
            let now = self.now;
            self.emit(Call::Cancel {
                phone: session.phone,
                now,
            });
        }
    }

    /// Starts a session with a method of this kind. Returns its phone, if it runs.
    pub(super) fn begin(&mut self, kind: MethodKind) -> Option<Bytes> {
        let phone = self.short_phone();
        self.begin_as(phone.clone(), kind).then_some(phone)
    }

    /// Starts a session of this phone. Returns whether it runs.
    pub(super) fn begin_as(&mut self, phone: Bytes, kind: MethodKind) -> bool {
        let Some(method) = self.method_of(kind) else {
            return false;
        };
        self.prepare(&method);
        if self.random.flip() {
            self.emit(Call::Pair {
                phone: phone.clone(),
            });
        }
        if self.random.chance(1, 4) {
            self.emit(Call::SetPeer {
                phone: Some(phone.clone()),
            });
        }
        let random = if self.random.chance(1, 10) {
            self.lent_random()
        } else {
            self.good_random()
        };
        let now = self.now;
        self.emit(Call::Start {
            phone: phone.clone(),
            method: method.id,
            now,
            random,
        });
        self.runs(&phone)
    }

    pub(super) fn runs(&self, phone: &Bytes) -> bool {
        validation::session().is_some_and(|session| {
            session.status == PhoneValidationStatus::InProgress && session.phone == *phone
        })
    }

    /// Starts of every method as the gate happens to be, some methods being unavailable.
    pub(super) fn refused_starts(&mut self) {
        for _ in 0..self.random.below(3) {
            let place = self.place();
            self.emit(Call::NoteAvailable { place, on: false });
        }
        if self.random.flip() {
            self.emit(Call::SetReadOnly { enabled: true });
        }
        for _ in 0..2 + self.random.below(4) {
            let mut call = self.start();
            if let Call::Start { random, .. } = &mut call
                && self.random.chance(1, 3)
            {
                random.clear();
            }
            self.emit(call);
        }
        self.emit(Call::Methods {});
    }

    /// A code entry session to one of its ends.
    pub(super) fn code_session(&mut self) {
        let Some(phone) = self.begin(MethodKind::Code) else {
            return self.any_call();
        };
        self.noise();
        match self.random.below(20) {
            0..=3 => self.type_right(&phone),
            4..=6 => self.fail(&phone),
            7..=10 => self.guess_on(phone),
            11 => self.type_wrong_then_right(&phone),
            12..=13 => self.type_at_the_end(&phone),
            14 => self.start_again(&phone),
            15..=16 => self.lose(&phone),
            17 => self.be_another(&phone),
            _ => {
                let now = self.moment();
                self.emit(Call::Cancel { phone, now });
            }
        }
        self.look_at_session();
    }

    pub(super) fn type_right(&mut self, phone: &Bytes) {
        let code = self.right_code();
        let now = self.now;
        self.emit(Call::Submit {
            phone: phone.clone(),
            code,
            now,
        });
    }

    pub(super) fn type_wrong(&mut self, phone: &Bytes) {
        let code = self.wrong_code();
        let now = self.now;
        self.emit(Call::Submit {
            phone: phone.clone(),
            code,
            now,
        });
    }

    /// Wrong codes to the last try, and starts around the end of the cooldown.
    fn fail(&mut self, phone: &Bytes) {
        while self.runs(phone) && !self.is_full() {
            if self.random.chance(1, 12) {
                // The clock goes back, also behind an earlier failure.
                let back = self.random.pick(&[1, 1_000, 31_000, 100_000_000]);
                self.go_to(self.now.saturating_sub(back));
            }
            self.type_wrong(phone);
            if self.random.chance(1, 8) {
                self.any_call();
            }
        }
        let method = self.method_id();
        if self.random.chance(1, 8) {
            self.emit(Call::RevokePlatform {});
        }
        for _ in 0..self.random.below(4) {
            let now = self.beside_cooldown();
            let random = self.good_random();
            let phone = self.short_phone();
            self.emit(Call::Start {
                phone,
                method: method.clone(),
                now,
                random,
            });
        }
    }

    fn beside_cooldown(&mut self) -> u64 {
        let until = validation::cooldown_until_ms();
        self.beside(until)
    }

    fn type_wrong_then_right(&mut self, phone: &Bytes) {
        for _ in 0..1 + self.random.below(3) {
            if self.runs(phone) {
                self.type_wrong(phone);
                self.noise();
            }
        }
        self.type_right(phone);
    }

    /// A code or a tick around the deadline.
    fn type_at_the_end(&mut self, phone: &Bytes) {
        let Some(session) = validation::session() else {
            return;
        };
        let moment = self.beside(session.deadline_ms);
        self.go_to(moment);
        match self.random.below(4) {
            0 => self.type_right(phone),
            1 => self.type_wrong(phone),
            2 => {
                let code = self.no_text();
                let now = self.now;
                self.emit(Call::Submit {
                    phone: phone.clone(),
                    code,
                    now,
                });
            }
            _ => {
                let now = self.now;
                self.emit(Call::Tick { now });
            }
        }
    }

    /// A running session is replaced by its own phone, and refused to another, also when it has lapsed.
    fn start_again(&mut self, phone: &Bytes) {
        let deadline = validation::session().map_or(0, |session| session.deadline_ms);
        for _ in 0..1 + self.random.below(3) {
            let other = self.short_phone();
            let phone = self.random.pick(&[phone.clone(), other]);
            let method = self.method_id();
            let random = self.lent_random();
            let late = self.beside(deadline);
            let now = self.random.pick(&[self.now, self.now, late]);
            self.emit(Call::Start {
                phone,
                method,
                now,
                random,
            });
        }
    }

    /// Something that a session does not survive, and a call that ticks.
    pub(super) fn lose(&mut self, phone: &Bytes) {
        let place = validation::session().and_then(|session| {
            let methods = validation::methods();
            methods.iter().position(|m| m.id == session.method.id)
        });
        let place = place.unwrap_or(0) as u32;
        match self.random.below(6) {
            0 => self.emit(Call::RevokePlatform {}),
            1 => self.emit(Call::Fingerprint {
                fingerprint: b"VIN3".to_vec(),
            }),
            2 => self.emit(Call::SetReadOnly { enabled: true }),
            3 => self.emit(Call::NoteLogging { on: true }),
            4 => self.emit(Call::NoteContinue { place, on: false }),
            _ => self.emit(Call::RevokeApproval {}),
        };
        let other = self.short_phone();
        let phone = self.random.pick(&[phone.clone(), other]);
        let code = self.typed();
        let number = validation::session().map_or(1, |session| session.id);
        let now = self.moment();
        let next = self.random.pick(&[
            Call::Tick { now },
            Call::Submit { phone, code, now },
            Call::Complete {
                session: number,
                now,
            },
        ]);
        self.emit(next);
    }

    /// Other phones than the session's try.
    fn be_another(&mut self, phone: &Bytes) {
        let mut other = phone.clone();
        other.push(0);
        let code = self.right_code();
        let now = self.now;
        self.emit(Call::Submit {
            phone: other.clone(),
            code,
            now,
        });
        self.emit(Call::Cancel { phone: other, now });
        self.type_right(phone);
    }

    /// Queries about the session, and about what its phone may do.
    pub(super) fn look_at_session(&mut self) {
        let own = validation::session().map_or(Bytes::new(), |session| session.phone);
        for _ in 0..self.random.below(4) {
            let any = self.phone();
            let phone = self.random.pick(&[own.clone(), own.clone(), any]);
            let now = self.moment();
            let kept = self.end_of_keeping();
            let command = self.command_of(phone.clone());
            let query = self.random.pick(&[
                Call::SessionFor {
                    phone: phone.clone(),
                    now,
                },
                Call::SessionFor {
                    phone: phone.clone(),
                    now: kept,
                },
                Call::IsValidated {
                    phone: phone.clone(),
                },
                Call::TrustLevel { phone },
                Call::PhoneAccess { now },
                Call::PhoneAccess { now: kept },
                Call::Challenge {},
                Call::Encode {},
                Call::Peer {},
                command,
            ]);
            self.emit(query);
        }
    }

    /// A moment around the one from which an ended session is not shown.
    fn end_of_keeping(&mut self) -> u64 {
        let ended = validation::session().map_or(0, |session| session.ended_at_ms);
        self.beside(ended.saturating_add(VALIDATION_RESULT_KEEP_MS))
    }

    /// An in-car session to one of its ends.
    pub(super) fn action_session(&mut self) {
        let Some(phone) = self.begin(MethodKind::Action) else {
            return self.any_call();
        };
        self.noise();
        let number = validation::session().map_or(1, |session| session.id);
        match self.random.below(8) {
            0..=3 => {
                let now = self.now;
                self.emit(Call::Complete {
                    session: number,
                    now,
                });
            }
            4 => self.type_right(&phone),
            5 => self.type_at_the_end(&phone),
            6 => self.lose(&phone),
            _ => {
                let call = self.complete();
                self.emit(call);
            }
        }
        self.look_at_session();
    }

    /// What ends the session well.
    pub(super) fn finish_session(&mut self, phone: &Bytes) {
        let Some(session) = validation::session() else {
            return;
        };
        let now = self.now;
        if session.code.is_some() && self.random.chance(1, 5) {
            self.type_wrong(phone);
        } else if session.code.is_some() {
            self.type_right(phone);
        } else {
            self.emit(Call::Complete {
                session: session.id,
                now,
            });
        }
    }
}

//! One call of any kind, with arguments from the pools.

use super::Generator;
use crate::calls::Call;
use crate::items::{Bytes, Class, ProbeFrame, Several};
use core_interface::oracle::{can_probe, validation};

impl Generator {
    /// A call of any kind. Calls that undo much are rare.
    pub(super) fn any_call(&mut self) {
        let call = match self.random.below(107) {
            0..=18 => self.query(),
            19..=20 => self.preview(),
            21 => Call::OpenSave {},
            22..=23 => self.take(),
            24 => self.conversion(),
            25..=31 => self.start(),
            32..=38 => self.submit(),
            39..=41 => self.cancel(),
            42..=45 => self.complete(),
            46..=49 => Call::Tick { now: self.moment() },
            50..=53 => Call::Pair {
                phone: self.phone(),
            },
            54..=55 => Call::Unpair {
                phone: self.phone(),
            },
            56..=57 => Call::Forget {
                phone: self.phone(),
            },
            58 => Call::Prune {},
            59..=61 => Call::Restore {
                record: self.record(),
            },
            62..=63 => Call::Approve {},
            64 => self.restore_approval(),
            65..=66 => Call::DevUnlock {
                unlocked: self.random.chance(3, 4),
            },
            67..=68 => self.any_fingerprint(),
            69..=70 => Call::SetReadOnly {
                enabled: self.random.chance(1, 4),
            },
            71..=74 => self.set_peer(),
            75..=77 => self.open_probe(),
            78 => Call::CloseProbe {},
            79..=84 => self.allow(),
            85..=87 => Call::Heard {
                bus: self.bus(),
                now: self.moment(),
            },
            88..=90 => Call::NoteAvailable {
                place: self.place(),
                on: self.random.flip(),
            },
            91..=92 => Call::NoteContinue {
                place: self.place(),
                on: self.random.chance(3, 4),
            },
            93..=94 => Call::NoteLogging {
                on: self.random.chance(1, 3),
            },
            95..=96 => Call::NoteFd {
                bus: self.bus(),
                on: self.random.chance(1, 3),
            },
            97 => self.note_platform(),
            98..=99 => self.rare_call(),
            100..=102 => self.frame_to_send().into_send(),
            103 => self.serve(),
            104 => self.set_record(),
            105 => self.set_list(),
            _ => Call::LentList {},
        };
        self.emit(call);
    }

    /// While the platform is unconfirmed, lengths that are refused are common.
    fn any_fingerprint(&mut self) -> Call {
        let refused = !core_interface::is_car_identity_confirmed() && self.random.chance(1, 3);
        Call::Fingerprint {
            fingerprint: if refused {
                vec![0x5A; self.random.pick(&[0, 4_097])]
            } else {
                self.fingerprint()
            },
        }
    }

    /// Another platform number, and mostly a call that shows it.
    fn note_platform(&mut self) -> Call {
        let number = self.random.pick(&[0, 1, 0xDEAD_BEEF, u32::MAX]);
        self.emit(Call::NotePlatform { number });
        self.random.pick(&[
            Call::PlatformId {},
            Call::Fingerprint {
                fingerprint: b"VIN1".to_vec(),
            },
            Call::Approve {},
        ])
    }

    fn rare_call(&mut self) -> Call {
        let set_counters = self.options.counters && self.random.chance(1, 4);
        if set_counters {
            return self.set_counters();
        }
        self.random.pick(&[
            Call::ClearPaired {},
            Call::RevokeApproval {},
            Call::Production {},
            Call::ConfirmPlatform {},
            Call::ConfirmPlatform {},
            Call::RevokePlatform {},
        ])
    }

    /// Counters near the place where they wrap, or as they are.
    pub(super) fn set_counters(&mut self) -> Call {
        let (next_session, relocks) = (validation::next_id(), can_probe::relocks());
        Call::SetCounters {
            next_session: self
                .random
                .pick(&[u32::MAX, u32::MAX - 1, 0, 1, next_session]),
            relocks: self
                .random
                .pick(&[u32::MAX, u32::MAX - 1, relocks, relocks]),
        }
    }

    pub(super) fn start(&mut self) -> Call {
        Call::Start {
            phone: self.phone(),
            method: self.method_id(),
            now: self.moment(),
            random: self.lent_random(),
        }
    }

    pub(super) fn submit(&mut self) -> Call {
        Call::Submit {
            phone: self.phone(),
            code: self.typed(),
            now: self.moment(),
        }
    }

    fn cancel(&mut self) -> Call {
        Call::Cancel {
            phone: self.phone(),
            now: self.moment(),
        }
    }

    pub(super) fn complete(&mut self) -> Call {
        let running = validation::session().map_or(1, |session| session.id);
        Call::Complete {
            session: self.random.pick(&[
                running,
                running,
                running,
                running.wrapping_sub(1),
                0,
                u32::MAX,
            ]),
            now: self.moment(),
        }
    }

    fn restore_approval(&mut self) -> Call {
        let car = self.car();
        Call::RestoreApproval {
            car: self.random.pick(&[Some(car), Some(car), None]),
        }
    }

    fn set_peer(&mut self) -> Call {
        let phone: Option<Bytes> = if self.random.chance(1, 5) {
            None
        } else {
            Some(self.phone())
        };
        Call::SetPeer { phone }
    }

    pub(super) fn open_probe(&mut self) -> Call {
        let count = self.random.pick(&[0, 1, 2, 2, 3, 4, 4, 5]);
        let mut frames: Vec<ProbeFrame> = (0..count).map(|_| self.probe_frame()).collect();
        if count > 1 && self.random.chance(1, 3) {
            frames[1] = frames[0];
        }
        if count > 0 && self.random.chance(1, 10) {
            frames[0] = self.bad_frame();
        }
        self.probe = frames.clone();
        Call::OpenProbe {
            bus: self.bus(),
            now: self.moment(),
            frame: Several(frames),
        }
    }

    /// A command frame of this phone, mostly on its own bus.
    pub(super) fn command_of(&mut self, owner: Bytes) -> Call {
        let frame = self.probe_frame();
        let frame_bus = self.random.pick(&[0, 0, 0, 0, 1]);
        Call::Allow {
            bus: 0,
            frame_bus,
            kind: frame.kind,
            id: frame.id,
            dlc: 8,
            data: frame.data,
            class: Class::Command(owner),
            now: self.now,
        }
    }

    pub(super) fn allow(&mut self) -> Call {
        let bus = self.bus();
        let frame = match self.random.below(12) {
            0 => self.bad_frame(),
            1..=3 => self.probe_frame(),
            _ if self.probe.is_empty() => self.probe_frame(),
            _ => {
                let declared = self.probe.clone();
                self.random.pick(&declared)
            }
        };
        let class = if self.random.flip() {
            Class::Platform
        } else {
            Class::Command(self.phone())
        };
        let other = self.bus();
        Call::Allow {
            bus,
            frame_bus: self.random.pick(&[bus, bus, bus, other]),
            kind: frame.kind,
            id: frame.id,
            dlc: self.random.pick(&[8, 8, 8, 8, 8, 0, 7, 9, 255]),
            data: frame.data,
            class,
            now: self.moment(),
        }
    }
}

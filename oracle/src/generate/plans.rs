//! Short plans that lead deep: a car in read-write, sessions of each kind to each end, full lists, probe windows.

use super::Generator;
use crate::calls::Call;
use crate::items::MethodKind;

impl Generator {
    /// One plan, or a few calls of any kind.
    pub(super) fn plan(&mut self) {
        match self.random.below(123) {
            0..=8 => self.make_ready(),
            9..=35 => self.code_session(),
            36..=46 => self.action_session(),
            47..=52 => self.full_list(),
            53..=63 => self.probe_windows(),
            64..=69 => self.commands(),
            70..=74 => self.phones(),
            75..=76 if self.options.counters => self.wrapping_counters(),
            75..=81 => self.records(),
            82..=83 => self.another_car(),
            84..=88 => self.tour(),
            89..=90 => self.logging_and_locks(),
            91 => self.fd_bus(),
            92..=93 => self.refused_starts(),
            94..=99 => self.conversions(),
            100..=105 => self.saves(),
            106..=110 => self.previews(),
            111..=116 => self.waiting_frames(),
            _ => {
                for _ in 0..1 + self.random.below(8) {
                    self.any_call();
                }
            }
        }
    }

    /// The car is identified, approved and read-write.
    pub(super) fn make_ready(&mut self) {
        self.emit(Call::NoteLogging { on: false });
        self.emit(Call::ConfirmPlatform {});
        let fingerprint = self.fingerprint();
        self.emit(Call::Fingerprint { fingerprint });
        self.noise();
        self.emit(Call::Approve {});
        if !self.random.chance(1, 8) {
            self.emit(Call::DevUnlock { unlocked: true });
        }
        self.emit(Call::SetReadOnly { enabled: false });
    }

    /// The device moves to another car, with or without an approval for it.
    pub(super) fn another_car(&mut self) {
        self.emit(Call::RevokePlatform {});
        self.emit(Call::ConfirmPlatform {});
        let fingerprint = self.fingerprint();
        self.emit(Call::Fingerprint { fingerprint });
        self.emit(Call::ReadOnlyReason {});
        self.emit(Call::Approval {});
        if self.random.flip() {
            self.emit(Call::Approve {});
        }
        self.emit(Call::SetReadOnly { enabled: false });
    }

    /// Sessions and relocks around the place where their counters wrap.
    pub(super) fn wrapping_counters(&mut self) {
        let call = self.set_counters();
        self.emit(call);
        if self.random.flip() {
            self.one_window();
            self.emit(Call::SetReadOnly { enabled: true });
            let bus = 0;
            self.send_probe_frame(bus);
        }
        for _ in 0..3 {
            let kind = self.random.pick(&[MethodKind::Code, MethodKind::Action]);
            if let Some(phone) = self.begin(kind) {
                self.finish_session(&phone);
            }
        }
    }

    /// Unlocking while logging, a production build, a dev lock that is set back.
    fn logging_and_locks(&mut self) {
        self.make_ready();
        let calls = [
            Call::NoteLogging { on: true },
            Call::NoteLogging { on: false },
            Call::SetReadOnly { enabled: false },
            Call::SetReadOnly { enabled: true },
            Call::DevUnlock { unlocked: false },
            Call::DevUnlock { unlocked: true },
            Call::RevokeApproval {},
            Call::Approve {},
            Call::Production {},
            Call::RevokePlatform {},
            Call::ConfirmPlatform {},
        ];
        for _ in 0..2 + self.random.below(6) {
            let call = self.random.pick(&calls);
            self.emit(call);
            let query = self.random.pick(&[
                Call::IsReadOnly {},
                Call::ReadOnlyReason {},
                Call::ReadOnlyReason {},
                Call::AccessState {},
                Call::IsLogging {},
                Call::HasDevLock {},
                Call::IsDevUnlocked {},
                Call::Approval {},
            ]);
            self.emit(query);
        }
    }
}

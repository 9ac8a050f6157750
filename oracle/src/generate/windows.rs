//! Probe windows: opened, used, disturbed and closed.

use super::Generator;
use super::clock::TWO_TO_32;
use crate::calls::Call;
use crate::items::{Class, ProbeFrame};
use core_interface::oracle::can_probe;

impl Generator {
    /// Windows are opened, used and closed.
    pub(super) fn probe_windows(&mut self) {
        self.ready_for_probe();
        for _ in 0..1 + self.random.below(4) {
            self.one_window();
        }
    }

    /// Mostly the platform is known and the car is not.
    pub(super) fn ready_for_probe(&mut self) {
        if core_interface::is_car_fingerprint_confirmed() {
            self.emit(Call::RevokePlatform {});
        }
        if !core_interface::is_car_identity_confirmed() && self.random.chance(9, 10) {
            self.emit(Call::ConfirmPlatform {});
        }
        if core_interface::is_can_logging() && self.random.chance(4, 5) {
            self.emit(Call::NoteLogging { on: false });
        }
    }

    /// Mostly a window on the bus that is returned.
    pub(super) fn open_window(&mut self) -> u8 {
        if can_probe::window().is_some() && self.random.chance(4, 5) {
            self.emit(Call::CloseProbe {});
        }
        let bus = self.random.pick(&[0, 0, 1, 3]);
        if core_interface::is_can_fd_bus(bus) && self.random.chance(2, 3) {
            self.emit(Call::NoteFd { bus, on: false });
        }
        self.hear(bus);
        let now = self.now.saturating_add_signed(self.since_heard());
        self.go_to(now);
        let mut call = self.open_probe();
        if let Call::OpenProbe {
            bus: on, now: at, ..
        } = &mut call
        {
            (*on, *at) = (bus, now);
        }
        self.emit(call);
        bus
    }

    pub(super) fn one_window(&mut self) {
        let bus = self.open_window();
        if self.random.chance(1, 8) {
            self.send_whole_probe(bus);
        }
        for _ in 0..self.random.below(8) {
            match self.random.below(12) {
                0 => self.any_call(),
                1 => {
                    let disturb = self.random.pick(&[
                        Call::SetReadOnly { enabled: true },
                        Call::SetReadOnly { enabled: false },
                        Call::NoteLogging { on: true },
                        Call::NoteLogging { on: false },
                        Call::NoteFd { bus, on: true },
                    ]);
                    self.emit(disturb);
                    let back = self.random.flip();
                    if back {
                        self.emit(Call::NoteLogging { on: false });
                    }
                }
                2..=3 => {
                    let now = self.window_moment();
                    self.emit(Call::IsBusListenOnly { bus, now });
                }
                _ => self.send_probe_frame(bus),
            }
        }
    }

    /// Mostly a frame on the bus now, and sometimes a later one before it. Moments whose mark is the source's "never" are
    /// rare, since openings behind them are left out.
    fn hear(&mut self, bus: u8) {
        if self.now % TWO_TO_32 == TWO_TO_32 - 1 && self.random.chance(9, 10) {
            self.go_to(self.now - 1);
        }
        let now = self.now;
        if self.random.chance(1, 10) {
            let later = now.saturating_add(self.random.pick(&[1, 500, 1_001, TWO_TO_32]));
            self.emit(Call::Heard { bus, now: later });
        }
        if self.random.chance(9, 10) {
            self.emit(Call::Heard { bus, now });
        }
    }

    /// How long before the opening the bus was heard, or how long after it.
    fn since_heard(&mut self) -> i64 {
        let around = TWO_TO_32 as i64;
        let late = self.random.pick(&[around - 1, around + 1_001]);
        let before = self.random.pick(&[-1, -1, -999, -1_001, -around - 1]);
        self.random
            .pick(&[0, 0, 0, 0, 1, 500, 999, 1_000, 1_000, 1_001, late, before])
    }

    /// Every declared frame, in order.
    fn send_whole_probe(&mut self, bus: u8) {
        let now = self.now;
        for frame in self.probe.clone() {
            self.emit(Call::Allow {
                bus,
                frame_bus: bus,
                kind: frame.kind,
                id: frame.id,
                dlc: 8,
                data: frame.data,
                class: Class::Platform,
                now,
            });
        }
    }

    /// An FD bus: no probe, and read-only whatever the rest says.
    pub(super) fn fd_bus(&mut self) {
        let bus = self.bus();
        self.emit(Call::NoteFd { bus, on: true });
        for _ in 0..1 + self.random.below(4) {
            let asked = self.random.pick(&[bus, bus, 0]);
            let now = self.now;
            let allow = self.allow();
            let open = self.open_probe();
            let call = self.random.pick(&[
                Call::IsFdBus { bus: asked },
                Call::IsBusReadOnly { bus: asked },
                Call::IsBusListenOnly { bus: asked, now },
                allow,
                open,
            ]);
            self.emit(call);
        }
        if self.random.chance(3, 4) {
            self.emit(Call::NoteFd { bus, on: false });
        }
    }

    /// A moment around the opening or the end of the window.
    pub(super) fn window_moment(&mut self) -> u64 {
        let opened = can_probe::window().map_or(self.now, |window| window.opened_at_ms);
        let step = self
            .random
            .pick(&[0, 1, 50, 5_998, 5_999, 5_999, 6_000, 6_000, 6_001]);
        if self.random.chance(1, 6) {
            opened.saturating_sub(step)
        } else {
            opened.saturating_add(step)
        }
    }

    /// A declared frame, mostly as declared.
    pub(super) fn send_probe_frame(&mut self, bus: u8) {
        let frame: ProbeFrame = if self.probe.is_empty() || self.random.chance(1, 6) {
            self.probe_frame()
        } else {
            let declared = self.probe.clone();
            self.random.pick(&declared)
        };
        let now = self.window_moment();
        let owner = self.phone();
        let class = if self.random.chance(1, 8) {
            Class::Command(owner)
        } else {
            Class::Platform
        };
        let frame_bus = self.random.pick(&[bus, bus, bus, bus, bus, 2]);
        let dlc = self.random.pick(&[8, 8, 8, 8, 8, 7]);
        self.emit(Call::Allow {
            bus,
            frame_bus,
            kind: frame.kind,
            id: frame.id,
            dlc,
            data: frame.data,
            class,
            now,
        });
    }
}

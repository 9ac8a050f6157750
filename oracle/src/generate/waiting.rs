//! Frames that wait (W-204): sent, altered by the host and served, with other calls between.

use super::Generator;
use super::pools::{longest, too_long};
use crate::calls::Call;
use crate::items::{Class, ProbeFrame, UpTo};
use crate::waiting::{RECORDS, Record};
use core_interface::oracle::can_probe;

impl Generator {
    /// Frames are sent and served in a few runs. Mostly the bike is in read-write, or a probe window is open.
    pub(super) fn waiting_frames(&mut self) {
        self.lend_sixteen();
        match self.random.below(8) {
            0..=3 => self.ready_for_commands(),
            4..=6 => {
                self.ready_for_probe();
                self.open_window();
            }
            _ => {}
        }
        for _ in 0..1 + self.random.below(3) {
            self.send_some();
            self.between_runs();
            let call = self.serve();
            self.emit(call);
            if self.random.chance(1, 4) {
                self.emit(Call::LentList {});
            }
        }
    }

    fn lend_sixteen(&mut self) {
        if self.gate.lent.length != RECORDS && self.random.chance(9, 10) {
            let length = UpTo(RECORDS as u32);
            self.emit(Call::SetList { length });
        }
    }

    /// Read-write, and phones that are paired and often validated, one of them with an id of 32 bytes.
    fn ready_for_commands(&mut self) {
        if core_interface::is_can_read_only() {
            self.make_ready();
        }
        let phones = vec![longest(), vec![0xA1]];
        for phone in phones.clone() {
            self.emit(Call::Pair { phone });
        }
        if self.random.flip() {
            let record = self.record_with(phones);
            self.emit(Call::Restore { record });
        }
    }

    /// Up to more frames than there are places, on any bus or on each in turn.
    fn send_some(&mut self) {
        let count = self.random.pick(&[1, 2, 3, 4, 4, 6, 8, 8, 12, 17, 20, 24]);
        let in_turn = self.random.chance(1, 3);
        for n in 0..count {
            let mut record = self.frame_to_send();
            if in_turn {
                record.bus = n % 4;
            }
            self.emit(record.into_send());
            match self.random.below(24) {
                0 => self.alter(),
                1..=2 => {
                    let call = self.serve();
                    self.emit(call);
                }
                _ => {}
            }
        }
    }

    /// Any frame, mostly one that can be sent. While a window is open it is often one of its probe.
    pub(super) fn frame_to_send(&mut self) -> Record {
        let bus = can_probe::window().map(|window| window.probe.bus_id);
        match self.random.below(12) {
            0 => self.frame_with_faults(),
            1..=6 if bus.is_some() && !self.probe.is_empty() => {
                let declared = self.probe.clone();
                let frame = self.random.pick(&declared);
                record_of(bus.unwrap_or(0), frame, Class::Platform)
            }
            _ => self.any_frame(),
        }
    }

    fn any_frame(&mut self) -> Record {
        let bus = self.random.below(4) as u8;
        let frame = self.probe_frame();
        let listed = self.listed_phone();
        let any = self.short_phone();
        let owner = self.random.pick(&[listed.clone(), listed, longest(), any]);
        let class = self.random.pick(&[Class::Platform, Class::Command(owner)]);
        let dlc = self.random.pick(&[8, 8, 8, 8, 8, 0, 7, 9, 255]);
        Record {
            dlc,
            ..record_of(bus, frame, class)
        }
    }

    /// An id out of range, a long owner, a bus above 3, or several of them.
    fn frame_with_faults(&mut self) -> Record {
        let mut record = self.any_frame();
        let faults = 1 + self.random.below(7);
        if faults & 1 != 0 {
            let frame = self.bad_frame();
            (record.kind, record.id) = (frame.kind, frame.id);
        }
        if faults & 2 != 0 {
            record.class = Class::Command(too_long());
        }
        if faults & 4 != 0 {
            record.bus = self.random.pick(&[4, 7, 255]);
        }
        record
    }

    /// Turns around the number of frames that wait, and any other number. While a window is open the moment is mostly one at
    /// which it matters.
    pub(super) fn serve(&mut self) -> Call {
        let count = self.gate.queue.count as u32;
        let turns = match self.random.below(4) {
            0 => self
                .random
                .pick(&[count.saturating_sub(1), count, count + 1]),
            1 => self.random.pick(&[0, 17, 256, 65_536, u32::MAX]),
            _ => self.random.pick(&[1, 1, 2, 3, 4, 4, 5, 16, 16]),
        };
        let now = if can_probe::window().is_some() && self.random.chance(3, 4) {
            self.window_moment()
        } else {
            self.moment()
        };
        Call::Serve { turns, now }
    }

    /// What the host or other calls do while frames wait.
    fn between_runs(&mut self) {
        for _ in 0..self.random.below(4) {
            match self.random.below(16) {
                0..=3 => self.alter(),
                4..=6 => self.lend_another_length(),
                7..=12 => {
                    let call = self.change_of_policy();
                    self.emit(call);
                }
                13 => {
                    self.emit(Call::LentList {});
                }
                14 => self.any_call(),
                _ => {
                    let call = self.serve();
                    self.emit(call);
                }
            }
        }
    }

    fn alter(&mut self) {
        let call = self.set_record();
        self.emit(call);
    }

    /// A record, mostly one that waits. It is another, or the same but for its bus or its owner.
    pub(super) fn set_record(&mut self) -> Call {
        let count = self.gate.queue.count as u64;
        let place = if count > 0 && self.random.chance(4, 5) {
            self.random.below(count)
        } else {
            self.random.below(17)
        };
        let mut record = if self.random.flip() {
            self.frame_to_send()
        } else {
            self.gate.lent.records[place as usize].clone()
        };
        if self.random.flip() {
            let more = self.random.pick(&[4, 4, 4, 128, 248]);
            record.bus = record.bus.wrapping_add(more);
        }
        if self.random.chance(1, 3) {
            record.class = Class::Command(too_long());
        }
        Call::SetRecord {
            place: UpTo(place as u32),
            frame_bus: record.bus,
            kind: record.kind,
            id: record.id,
            dlc: record.dlc,
            data: record.data,
            class: record.class,
        }
    }

    /// Any length. Sixteen are common.
    pub(super) fn set_list(&mut self) -> Call {
        Call::SetList {
            length: UpTo(self.random.pick(&[16, 16, 16, 0, 1, 8, 15, 17])),
        }
    }

    /// Frames meet a list of another length, mostly for a while only.
    fn lend_another_length(&mut self) {
        let length = UpTo(self.random.pick(&[0, 1, 15, 15, 17, 17]));
        self.emit(Call::SetList { length });
        for _ in 0..1 + self.random.below(3) {
            let call = match self.random.below(5) {
                0 => self.frame_to_send().into_send(),
                1 => self.frame_with_faults().into_send(),
                2..=3 => self.serve(),
                _ => Call::LentList {},
            };
            self.emit(call);
        }
        self.lend_sixteen();
    }

    /// Something that may change what is allowed.
    fn change_of_policy(&mut self) -> Call {
        let phone = self.listed_phone();
        let bus = self.random.below(4) as u8;
        let record = self.record_with(vec![longest(), phone.clone(), vec![0xA1]]);
        let on = self.random.flip();
        self.random.pick(&[
            Call::Forget {
                phone: phone.clone(),
            },
            Call::Unpair { phone },
            Call::ClearPaired {},
            Call::Restore {
                record: record.clone(),
            },
            Call::Restore { record },
            Call::Approve {},
            Call::RevokeApproval {},
            Call::DevUnlock { unlocked: on },
            Call::SetReadOnly { enabled: true },
            Call::SetReadOnly { enabled: false },
            Call::SetReadOnly { enabled: false },
            Call::NoteLogging { on },
            Call::NoteLogging { on: false },
            Call::NoteFd { bus, on },
            Call::RevokePlatform {},
            Call::CloseProbe {},
        ])
    }
}

/// A record of eight bytes.
fn record_of(bus: u8, frame: ProbeFrame, class: Class) -> Record {
    Record {
        bus,
        kind: frame.kind,
        id: frame.id,
        dlc: 8,
        data: frame.data,
        class,
    }
}

//! Small pools, so that calls meet one another: phones, methods, fingerprints, frames.

use super::Generator;
use crate::calls::Call;
use crate::items::{Bytes, IdKind, IdNumber, Method, MethodKind, ProbeFrame};
use core_interface::oracle::{can_access, pairing, validation};

/// An id of 32 bytes.
const LONGEST: [u8; 32] = *b"0123456789abcdefghijklmnopqrstuv";

/// The `n`th of the ids that fill lists.
pub fn filler(n: u8) -> Bytes {
    vec![0xF0, n]
}

pub fn longest() -> Bytes {
    LONGEST.to_vec()
}

/// The longest id that is accepted, with one byte more.
pub fn too_long() -> Bytes {
    let mut id = longest();
    id.push(0);
    id
}

impl Generator {
    pub(super) fn phone(&mut self) -> Bytes {
        match self.random.below(24) {
            0 => Vec::new(),
            1 => longest(),
            2 => too_long(),
            3 => vec![0x77; 33],
            4 => vec![0xA1, 0],
            5 => filler(self.random.below(4) as u8),
            6 | 7 => self.known_phone(pairing::paired()),
            8 | 9 => self.listed_phone(),
            10..=13 => match validation::session() {
                Some(session) => session.phone,
                None => vec![0xA1],
            },
            14..=19 => vec![0xA1],
            20..=22 => vec![0xB2, 0xB3, 0xB4, 0xB5, 0xB6, 0xB7],
            _ => vec![0xC1],
        }
    }

    /// A phone whose id is at most 32 bytes long.
    pub(super) fn short_phone(&mut self) -> Bytes {
        loop {
            let phone = self.phone();
            if phone.len() <= 32 {
                return phone;
            }
        }
    }

    pub(super) fn known_phone(&mut self, from: Vec<Bytes>) -> Bytes {
        if from.is_empty() {
            vec![0xA1]
        } else {
            self.random.pick(&from)
        }
    }

    pub(super) fn method(&mut self) -> Method {
        let ids: [&[u8]; 7] = [
            b"k",
            b"key",
            b"cluster_code",
            b"door",
            b"!",
            &LONGEST,
            b"~~~",
        ];
        Method {
            id: self.random.pick(&ids).to_vec(),
            kind: self
                .random
                .pick(&[MethodKind::Code, MethodKind::Code, MethodKind::Action]),
            needs_approval: self.random.flip(),
        }
    }

    /// An id that a method may not have.
    pub(super) fn bad_method_id(&mut self) -> Bytes {
        let long = too_long();
        self.random.pick(&[
            b"".to_vec(),
            b"a b".to_vec(),
            b"a\x7f".to_vec(),
            vec![0xC3, 0xA4],
            long,
        ])
    }

    /// The id of a method of the gate, or now and then of none.
    pub(super) fn method_id(&mut self) -> Bytes {
        let methods: Vec<Bytes> = self
            .gate
            .settings
            .methods
            .iter()
            .map(|m| m.id.clone())
            .collect();
        if methods.is_empty() || self.random.chance(1, 12) {
            let long = too_long();
            return self.random.pick(&[
                b"none".to_vec(),
                Vec::new(),
                vec![0xFF],
                b"ke".to_vec(),
                long,
            ]);
        }
        self.random.pick(&methods)
    }

    /// The id of a method of one kind, if the gate has one that can start.
    pub(super) fn method_of(&mut self, kind: MethodKind) -> Option<Method> {
        let methods = &self.gate.settings.methods;
        let fit: Vec<Method> = methods
            .iter()
            .enumerate()
            .filter(|(place, method)| {
                method.kind == kind && methods[..*place].iter().all(|m| m.id != method.id)
            })
            .map(|(_, method)| method.clone())
            .collect();
        if fit.is_empty() {
            return None;
        }
        Some(self.random.pick(&fit))
    }

    /// Bytes that identify a car: a few cars, lengths around the ends of a SHA-256 block, and lengths that are refused.
    pub(super) fn fingerprint(&mut self) -> Bytes {
        if self.options.one_car && self.random.chance(9, 10) {
            return self.one_car_of_seven();
        }
        match self.random.below(60) {
            0..=44 => self.one_car_of_seven(),
            45..=47 => Vec::new(),
            48 => vec![0x5A; 4_096],
            49 => vec![0x5A; 4_097],
            50 => vec![0x5A; 5_000],
            51 => vec![0x01; 25],
            52 => vec![0x01; 26],
            53 => vec![0x01; 34],
            54 => vec![0x01; 89],
            55 => vec![0x01; 90],
            _ => {
                let length = self.random.below(200) as usize;
                self.random.bytes(length)
            }
        }
    }

    pub(super) fn bus(&mut self) -> u8 {
        self.random.pick(&[0, 0, 0, 0, 1, 1, 2, 3, 3, 4, 255])
    }

    pub(super) fn data(&mut self) -> [u8; 8] {
        self.random.pick(&[
            [2, 0x1A, 0x90, 0, 0, 0, 0, 0],
            [2, 0x1A, 0x90, 0, 0, 0, 0, 1],
            [0x30, 0, 0, 0, 0, 0, 0, 0],
            [0; 8],
        ])
    }

    pub(super) fn probe_frame(&mut self) -> ProbeFrame {
        let (kind, id) = self.random.pick(&[
            (IdKind::Std, 0x7DF),
            (IdKind::Std, 0x7DF),
            (IdKind::Ext, 0x7DF),
            (IdKind::Std, 0x7FF),
            (IdKind::Ext, 0x18DA_10F1),
            (IdKind::Ext, 0x1FFF_FFFF),
        ]);
        ProbeFrame {
            kind,
            id: IdNumber(id),
            data: self.data(),
        }
    }

    /// A frame with an id that is out of range.
    pub(super) fn bad_frame(&mut self) -> ProbeFrame {
        let (kind, id) = self.random.pick(&[
            (IdKind::Std, 0x800),
            (IdKind::Std, 0x1_07DF),
            (IdKind::Std, u32::MAX),
            (IdKind::Ext, 0x2000_0000),
            (IdKind::Ext, u32::MAX),
        ]);
        ProbeFrame {
            kind,
            id: IdNumber(id),
            data: self.data(),
        }
    }

    /// A car that was seen, or another.
    pub(super) fn car(&mut self) -> [u8; 32] {
        if let Some(car) = can_access::car()
            && self.options.one_car
            && self.random.chance(9, 10)
        {
            return car;
        }
        let known = [can_access::car(), can_access::approval(), Some([0x11; 32])];
        let known: Vec<[u8; 32]> = known.into_iter().flatten().collect();
        let listed = self.gate.shelf.0.iter().map(|listed| listed.0);
        let seen = listed.chain(self.seen.iter().copied());
        let seen: Vec<[u8; 32]> = seen.collect();
        if seen.is_empty() || self.options.one_car || self.random.flip() {
            self.random.pick(&known)
        } else {
            self.random.pick(&seen)
        }
    }

    pub(super) fn place(&mut self) -> u32 {
        match self.random.below(10) {
            0 => 8,
            1 => u32::MAX,
            _ => {
                let count = self.gate.settings.methods.len() as u64;
                self.random.below(count + 1) as u32
            }
        }
    }

    /// Any query.
    pub(super) fn query(&mut self) -> Call {
        let phone = self.phone();
        let now = self.moment();
        let bus = self.bus();
        self.random.pick(&[
            Call::IsReadOnly {},
            Call::ReadOnlyReason {},
            Call::IsPlatformConfirmed {},
            Call::IsFingerprintConfirmed {},
            Call::Approval {},
            Call::HasDevLock {},
            Call::IsDevUnlocked {},
            Call::AccessState {},
            Call::PlatformId {},
            Call::IsLogging {},
            Call::IsFdBus { bus },
            Call::IsBusReadOnly { bus },
            Call::IsBusListenOnly { bus, now },
            Call::IsPaired {
                phone: phone.clone(),
            },
            Call::PairedCount {},
            Call::ListPaired {},
            Call::BondedLimit {},
            Call::IsValidated {
                phone: phone.clone(),
            },
            Call::CarHasValidated {},
            Call::TrustLevel {
                phone: phone.clone(),
            },
            Call::Peer {},
            Call::PhoneAccess { now },
            Call::Methods {},
            Call::SessionFor { phone, now },
            Call::Challenge {},
            Call::Encode {},
        ])
    }
}

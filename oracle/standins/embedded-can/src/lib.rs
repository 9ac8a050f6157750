//! Stand-in for `embedded_can`: CAN identifiers. A number out of range gives no identifier.

#![no_std]

/// An 11-bit identifier.
#[derive(Clone, Copy, Debug, PartialEq, Eq)]
pub struct StandardId(u16);

impl StandardId {
    pub const fn new(raw: u16) -> Option<Self> {
        if raw <= 0x7FF { Some(Self(raw)) } else { None }
    }

    pub const fn as_raw(&self) -> u16 {
        self.0
    }
}

/// A 29-bit identifier.
#[derive(Clone, Copy, Debug, PartialEq, Eq)]
pub struct ExtendedId(u32);

impl ExtendedId {
    pub const fn new(raw: u32) -> Option<Self> {
        if raw <= 0x1FFF_FFFF {
            Some(Self(raw))
        } else {
            None
        }
    }

    pub const fn as_raw(&self) -> u32 {
        self.0
    }
}

/// Either kind. Two identifiers of different kinds are never equal.
#[derive(Clone, Copy, Debug, PartialEq, Eq)]
pub enum Id {
    Standard(StandardId),
    Extended(ExtendedId),
}

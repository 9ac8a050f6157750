//! The `key=value` items of a script line, and how each kind of value is read and written.

use crate::hex::{from_hex, to_hex};
use std::fmt::Write;

/// The items of a line are not those that its call takes.
#[derive(Debug, PartialEq, Eq)]
pub struct BadItems;

/// The items of one line that are not yet read.
pub struct Items<'a> {
    items: Vec<(&'a str, &'a str)>,
}

impl<'a> Items<'a> {
    pub fn split(parts: impl Iterator<Item = &'a str>) -> Result<Self, BadItems> {
        let items: Option<Vec<_>> = parts.map(|part| part.split_once('=')).collect();
        Ok(Self {
            items: items.ok_or(BadItems)?,
        })
    }

    /// The values of every item with this key, in their order.
    fn all(&mut self, key: &str) -> Vec<&'a str> {
        let mut values = Vec::new();
        self.items.retain(|&(k, value)| {
            if k == key {
                values.push(value);
            }
            k != key
        });
        values
    }

    /// The value of an item that stands exactly once.
    fn one(&mut self, key: &str) -> Result<&'a str, BadItems> {
        match self.all(key)[..] {
            [value] => Ok(value),
            _ => Err(BadItems),
        }
    }

    /// Nothing may be left over.
    pub fn done(self) -> Result<(), BadItems> {
        if self.items.is_empty() {
            Ok(())
        } else {
            Err(BadItems)
        }
    }
}

/// A value that is one or more items of a line.
pub trait Item: Sized {
    fn read(items: &mut Items, key: &str) -> Result<Self, BadItems>;
    fn write(&self, key: &str, out: &mut String);
}

/// A value that is one item.
trait Single: Sized {
    fn parse(text: &str) -> Option<Self>;
    fn show(&self) -> String;

    /// The same of an item with this key, which may allow other forms.
    fn parse_at(_key: &str, text: &str) -> Option<Self> {
        Self::parse(text)
    }
}

impl<T: Single> Item for T {
    fn read(items: &mut Items, key: &str) -> Result<Self, BadItems> {
        T::parse_at(key, items.one(key)?).ok_or(BadItems)
    }

    fn write(&self, key: &str, out: &mut String) {
        put(out, key, &self.show());
    }
}

fn put(out: &mut String, key: &str, value: &str) {
    write!(out, " {key}={value}").expect("a string takes any text");
}

/// Decimal digits and nothing else.
fn decimal(text: &str) -> Option<u64> {
    if text.is_empty() || !text.bytes().all(|b| b.is_ascii_digit()) {
        return None;
    }
    text.parse().ok()
}

macro_rules! numbers {
    ($($type:ty)*) => {
        $(impl Single for $type {
            fn parse(text: &str) -> Option<Self> {
                decimal(text)?.try_into().ok()
            }

            fn show(&self) -> String {
                self.to_string()
            }
        })*
    };
}

numbers! { u8 u32 u64 }

/// A number that is at most `MOST`.
#[derive(Clone, Copy, Debug, PartialEq, Eq)]
pub struct UpTo<const MOST: u32>(pub u32);

impl<const MOST: u32> Single for UpTo<MOST> {
    fn parse(text: &str) -> Option<Self> {
        let number = u32::parse(text)?;
        (number <= MOST).then_some(Self(number))
    }

    fn show(&self) -> String {
        self.0.to_string()
    }
}

pub fn yes_no(yes: bool) -> &'static str {
    if yes { "yes" } else { "no" }
}

impl Single for bool {
    fn parse(text: &str) -> Option<Self> {
        match text {
            "yes" => Some(true),
            "no" => Some(false),
            _ => None,
        }
    }

    fn show(&self) -> String {
        yes_no(*self).to_string()
    }
}

/// Any bytes.
pub type Bytes = Vec<u8>;

/// The keys whose bytes may also be an apostrophe and then the bytes as they are.
pub const TEXT_KEYS: [&str; 4] = ["phone", "method", "code", "owner"];

impl Single for Bytes {
    fn parse(text: &str) -> Option<Self> {
        from_hex(text)
    }

    fn parse_at(key: &str, text: &str) -> Option<Self> {
        match text.strip_prefix('\'') {
            // A character is a byte of the line.
            Some(rest) if TEXT_KEYS.contains(&key) => {
                rest.chars().map(|c| c.try_into().ok()).collect()
            }
            _ => Self::parse(text),
        }
    }

    fn show(&self) -> String {
        to_hex(self)
    }
}

impl<const N: usize> Single for [u8; N] {
    fn parse(text: &str) -> Option<Self> {
        from_hex(text)?.try_into().ok()
    }

    fn show(&self) -> String {
        to_hex(self)
    }
}

/// A value or `none`.
impl<T: Single> Single for Option<T> {
    fn parse(text: &str) -> Option<Self> {
        if text == "none" {
            Some(None)
        } else {
            T::parse(text).map(Some)
        }
    }

    fn parse_at(key: &str, text: &str) -> Option<Self> {
        if text == "none" {
            Some(None)
        } else {
            T::parse_at(key, text).map(Some)
        }
    }

    fn show(&self) -> String {
        match self {
            Some(value) => value.show(),
            None => "none".to_string(),
        }
    }
}

/// The number of a CAN id, in or out of range.
#[derive(Clone, Copy, Debug, PartialEq, Eq)]
pub struct IdNumber(pub u32);

impl Single for IdNumber {
    fn parse(text: &str) -> Option<Self> {
        if text.is_empty() || !text.bytes().all(|b| b.is_ascii_hexdigit()) {
            return None;
        }
        u32::from_str_radix(text, 16).ok().map(Self)
    }

    fn show(&self) -> String {
        format!("{:x}", self.0)
    }
}

/// Standard or extended.
#[derive(Clone, Copy, Debug, PartialEq, Eq)]
pub enum IdKind {
    Std,
    Ext,
}

impl Single for IdKind {
    fn parse(text: &str) -> Option<Self> {
        match text {
            "std" => Some(Self::Std),
            "ext" => Some(Self::Ext),
            _ => None,
        }
    }

    fn show(&self) -> String {
        self.name().to_string()
    }
}

impl IdKind {
    pub fn name(self) -> &'static str {
        match self {
            Self::Std => "std",
            Self::Ext => "ext",
        }
    }
}

/// A frame that a probe may send, written `KIND/ID/DATA`.
#[derive(Clone, Copy, Debug, PartialEq, Eq)]
pub struct ProbeFrame {
    pub kind: IdKind,
    pub id: IdNumber,
    pub data: [u8; 8],
}

impl Single for ProbeFrame {
    fn parse(text: &str) -> Option<Self> {
        let parts: Vec<&str> = text.split('/').collect();
        let [kind, id, data] = parts[..] else {
            return None;
        };
        Some(Self {
            kind: IdKind::parse(kind)?,
            id: IdNumber::parse(id)?,
            data: Single::parse(data)?,
        })
    }

    fn show(&self) -> String {
        format!(
            "{}/{}/{}",
            self.kind.show(),
            self.id.show(),
            self.data.show()
        )
    }
}

/// Code entry or in-car action.
#[derive(Clone, Copy, Debug, PartialEq, Eq)]
pub enum MethodKind {
    Code,
    Action,
}

impl Single for MethodKind {
    fn parse(text: &str) -> Option<Self> {
        match text {
            "code" => Some(Self::Code),
            "action" => Some(Self::Action),
            _ => None,
        }
    }

    fn show(&self) -> String {
        self.name().to_string()
    }
}

impl MethodKind {
    pub fn name(self) -> &'static str {
        match self {
            Self::Code => "code",
            Self::Action => "action",
        }
    }
}

/// A method of a new gate, written `ID/KIND/APPROVAL`.
#[derive(Clone, Debug, PartialEq, Eq)]
pub struct Method {
    pub id: Bytes,
    pub kind: MethodKind,
    pub needs_approval: bool,
}

impl Single for Method {
    fn parse(text: &str) -> Option<Self> {
        let parts: Vec<&str> = text.split('/').collect();
        let [id, kind, approval] = parts[..] else {
            return None;
        };
        Some(Self {
            id: Single::parse_at("method", id)?,
            kind: MethodKind::parse(kind)?,
            needs_approval: Single::parse(approval)?,
        })
    }

    fn show(&self) -> String {
        format!(
            "{}/{}/{}",
            to_hex(&self.id),
            self.kind.name(),
            yes_no(self.needs_approval)
        )
    }
}

/// Items of one key that may stand any number of times.
#[derive(Clone, Debug, PartialEq, Eq)]
pub struct Several<T>(pub Vec<T>);

impl<T: Single> Item for Several<T> {
    fn read(items: &mut Items, key: &str) -> Result<Self, BadItems> {
        let values: Option<Vec<T>> = items.all(key).into_iter().map(T::parse).collect();
        values.map(Self).ok_or(BadItems)
    }

    fn write(&self, key: &str, out: &mut String) {
        for value in &self.0 {
            put(out, key, &value.show());
        }
    }
}

/// A frame's class; a command also has an `owner` item.
#[derive(Clone, Debug, PartialEq, Eq)]
pub enum Class {
    Platform,
    Command(Bytes),
}

impl Item for Class {
    fn read(items: &mut Items, key: &str) -> Result<Self, BadItems> {
        match items.one(key)? {
            "platform" => Ok(Self::Platform),
            "command" => Ok(Self::Command(Item::read(items, "owner")?)),
            _ => Err(BadItems),
        }
    }

    fn write(&self, key: &str, out: &mut String) {
        put(out, key, self.name());
        if let Self::Command(owner) = self {
            put(out, "owner", &to_hex(owner));
        }
    }
}

impl Class {
    pub fn name(&self) -> &'static str {
        match self {
            Self::Platform => "platform",
            Self::Command(_) => "command",
        }
    }
}

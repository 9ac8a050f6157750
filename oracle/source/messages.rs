// Stand-in for the protocol messages that the source's build generates: the messages and fields that the compiled
// files use, in the shape that the generator gives them (optional fields, enums as i32). Field numbers and encoding are
// left out, since the wire format is not compared. The numbers of the enums are this file's own; the oracle turns
// them back into names.

use alloc::collections::BTreeMap;
use alloc::string::String;
use alloc::vec::Vec;

#[derive(Clone, Copy, Debug, PartialEq, Eq)]
#[repr(i32)]
pub enum CanReadWriteApproval {
    Unspecified = 0,
    NotApproved = 1,
    AwaitingCar = 2,
    Approved = 3,
    OtherCar = 4,
}

#[derive(Clone, Debug, Default, PartialEq)]
pub struct CanAccessState {
    pub platform_confirmed: Option<bool>,
    pub car_identity_confirmed: Option<bool>,
    pub approval: Option<i32>,
    pub dev_lock_available: Option<bool>,
    pub dev_unlocked: Option<bool>,
    pub logging: Option<bool>,
    pub read_only: Option<bool>,
}

#[derive(Clone, Copy, Debug, PartialEq, Eq)]
#[repr(i32)]
pub enum PhoneTrustLevel {
    Unspecified = 0,
    NotBonded = 1,
    Bonded = 2,
    Validated = 3,
}

#[derive(Clone, Debug, Default, PartialEq)]
pub struct PhoneAccessState {
    pub trust: Option<i32>,
    pub car_has_validated_phone: Option<bool>,
    pub validation: Option<PhoneValidationSession>,
}

#[derive(Clone, Copy, Debug, PartialEq, Eq)]
#[repr(i32)]
pub enum PhoneValidationStatus {
    Unspecified = 0,
    InProgress = 1,
    Succeeded = 2,
    Failed = 3,
    Cancelled = 4,
    TimedOut = 5,
}

#[derive(Clone, Copy, Debug, PartialEq, Eq)]
#[repr(i32)]
pub enum PhoneValidationMethodKind {
    Unspecified = 0,
    CodeEntry = 1,
    InCarAction = 2,
}

#[derive(Clone, Debug, Default, PartialEq)]
pub struct PhoneValidationSession {
    pub method_id: String,
    pub kind: i32,
    pub status: i32,
    pub code_length: u32,
    pub attempts_left: u32,
    pub expires_in_s: u32,
    pub cooldown_s: u32,
}

#[derive(Clone, Debug, Default, PartialEq)]
pub struct PhoneValidationMethod {
    pub method_id: String,
    pub kind: i32,
    pub needs_approval: bool,
    pub available: bool,
}

#[derive(Clone, Debug, Default, PartialEq)]
pub struct PhoneValidationMethods {
    pub methods: Vec<PhoneValidationMethod>,
}

#[derive(Clone, Copy, Debug, PartialEq, Eq)]
#[repr(i32)]
pub enum PhoneValidationRefusalReason {
    Unspecified = 0,
    UnknownMethod = 1,
    NeedsApproval = 2,
    MethodNotAvailableNow = 3,
    CarNotIdentified = 4,
    OtherPhoneValidating = 5,
    CoolingDown = 6,
    NoSession = 7,
    NotCodeEntry = 8,
    NoRandomSource = 9,
}

#[derive(Clone, Debug, Default, PartialEq)]
pub struct PhoneValidationRefusal {
    pub reason: i32,
    pub cooldown_s: u32,
}

pub mod system_command_result {
    #[derive(Clone, Debug, PartialEq)]
    pub enum Result {
        ValidationRefusal(super::PhoneValidationRefusal),
        ValidationSession(super::PhoneValidationSession),
    }
}

#[derive(Clone, Copy, Debug, PartialEq, Eq)]
#[repr(i32)]
pub enum CommandAvailabilityState {
    Unspecified = 0,
    Available = 1,
    Unavailable = 2,
    Unsupported = 3,
}

#[derive(Clone, Debug, Default, PartialEq)]
pub struct CommandAvailability {
    pub basic: BTreeMap<u32, i32>,
    pub advanced: BTreeMap<u32, i32>,
}

#[derive(Clone, Debug, Default, PartialEq)]
pub struct SystemState {
    pub can_access: Option<CanAccessState>,
    pub phone_access: Option<PhoneAccessState>,
    pub mqtt_client_id: Option<String>,
    pub command_availability: Option<CommandAvailability>,
    /// Stands for the fields that the compiled files leave at their default.
    pub other: (),
}

#[derive(Clone, Debug, Default, PartialEq)]
pub struct VehicleState {}

#[derive(Clone, Debug, Default, PartialEq)]
pub struct StateUpdate {
    pub system_state: Option<SystemState>,
    pub vehicle_state: Option<VehicleState>,
}

#[derive(Clone, Debug, Default, PartialEq)]
pub struct DeviceToApp {
    pub timestamp_ms: u64,
    pub platform_id: u32,
    pub payload: Option<device_to_app::Payload>,
}

pub mod device_to_app {
    #[derive(Clone, Debug, PartialEq)]
    pub enum Payload {
        StateUpdate(super::StateUpdate),
    }
}

/// Only queued by channels that the oracle does not use.
pub struct AppToDevice;
pub struct SystemCommand;
pub struct CommandResponse;

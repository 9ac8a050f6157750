//! The calls of a script: one table for reading, writing and naming them.

use crate::items::{
    BadItems, Bytes, Class, IdKind, IdNumber, Item, Items, Method, ProbeFrame, Several, UpTo,
};
use std::fmt;

/// Why a line is no call.
#[derive(Clone, Copy, Debug, PartialEq, Eq)]
pub enum LineError {
    UnknownCall,
    BadItems,
    LineTooLong,
}

impl From<BadItems> for LineError {
    fn from(_: BadItems) -> Self {
        Self::BadItems
    }
}

impl LineError {
    pub fn name(self) -> &'static str {
        match self {
            Self::UnknownCall => "unknown_call",
            Self::BadItems => "bad_items",
            Self::LineTooLong => "line_too_long",
        }
    }
}

macro_rules! calls {
    ($($variant:ident $name:literal { $($key:ident: $type:ty),* })*) => {
        #[derive(Clone, Debug, PartialEq, Eq)]
        pub enum Call {
            $($variant { $($key: $type),* }),*
        }

        impl Call {
            pub fn name(&self) -> &'static str {
                match self {
                    $(Self::$variant { .. } => $name),*
                }
            }

            fn is_known(name: &str) -> bool {
                matches!(name, $($name)|*)
            }

            #[allow(unused_mut)]
            fn read(name: &str, mut items: Items) -> Result<Self, LineError> {
                let call = match name {
                    $($name => Self::$variant {
                        $($key: Item::read(&mut items, stringify!($key))?),*
                    },)*
                    _ => return Err(LineError::UnknownCall),
                };
                items.done()?;
                Ok(call)
            }
        }

        impl fmt::Display for Call {
            fn fmt(&self, f: &mut fmt::Formatter) -> fmt::Result {
                let mut out = self.name().to_string();
                match self {
                    $(Self::$variant { $($key),* } => {
                        $($key.write(stringify!($key), &mut out);)*
                    })*
                }
                f.write_str(&out)
            }
        }
    };
}

calls! {
    New "new" {
        digits: u32, tries: u32, session: u32, cooldown: u32, keep: u32, bonded: u32, method: Several<Method>
    }
    Start "start_validation" { phone: Bytes, method: Bytes, now: u64, random: Bytes }
    Submit "submit_validation_code" { phone: Bytes, code: Bytes, now: u64 }
    Cancel "cancel_validation" { phone: Bytes, now: u64 }
    Complete "complete_validation_action_at" { session: u32, now: u64 }
    Tick "tick_validation" { now: u64 }
    Pair "add_paired_phone" { phone: Bytes }
    Unpair "remove_paired_phone" { phone: Bytes }
    ClearPaired "clear_paired_phones" {}
    Forget "forget_phone_validation" { phone: Bytes }
    Prune "prune_phone_validations" {}
    Restore "restore_phone_validations" { record: Bytes }
    OpenSave "open_phone_validations_save" {}
    TakeSave "take_phone_validations_save" { output: Bytes }
    Approve "approve_can_read_write" {}
    RevokeApproval "revoke_can_read_write_approval" {}
    RestoreApproval "restore_can_read_write_approval" { car: Option<[u8; 32]> }
    DevUnlock "set_can_dev_write_unlocked" { unlocked: bool }
    Production "declare_production_build" {}
    ConfirmPlatform "confirm_car_identity" {}
    RevokePlatform "revoke_car_identity" {}
    Fingerprint "confirm_car_fingerprint" { fingerprint: Bytes }
    SetReadOnly "set_can_read_only" { enabled: bool }
    SetPeer "set_ble_peer" { phone: Option<Bytes> }
    OpenProbe "open_identity_probe" { bus: u8, now: u64, frame: Several<ProbeFrame> }
    CloseProbe "close_identity_probe" {}
    Allow "allow_can_tx" {
        bus: u8, frame_bus: u8, kind: IdKind, id: IdNumber, dlc: u8, data: [u8; 8], class: Class, now: u64
    }
    Send "send_can_frame" {
        frame_bus: u8, kind: IdKind, id: IdNumber, dlc: u8, data: [u8; 8], class: Class
    }
    Serve "serve_can_frames" { turns: u32, now: u64 }
    Heard "heard_can_frame" { bus: u8, now: u64 }
    NotePlatform "note_platform_id" { number: u32 }
    NoteLogging "note_can_logging" { on: bool }
    NoteFd "note_can_fd_bus" { bus: u8, on: bool }
    NoteAvailable "note_method_available" { place: u32, on: bool }
    NoteContinue "note_method_can_continue" { place: u32, on: bool }

    IsReadOnly "is_can_read_only" {}
    ReadOnlyReason "can_read_only_reason" {}
    IsPlatformConfirmed "is_car_identity_confirmed" {}
    IsFingerprintConfirmed "is_car_fingerprint_confirmed" {}
    Approval "can_read_write_approval" {}
    HasDevLock "has_can_dev_write_lock" {}
    IsDevUnlocked "is_can_dev_write_unlocked" {}
    AccessState "can_access_state" {}
    PlatformId "platform_id" {}
    IsLogging "is_can_logging" {}
    IsFdBus "is_can_fd_bus" { bus: u8 }
    IsBusReadOnly "is_can_bus_read_only" { bus: u8 }
    IsBusListenOnly "is_can_bus_listen_only" { bus: u8, now: u64 }
    IsPaired "is_phone_paired" { phone: Bytes }
    PairedCount "paired_phone_count" {}
    ListPaired "list_paired_phones" {}
    BondedLimit "ble_max_bonded_phones" {}
    IsValidated "is_phone_validated" { phone: Bytes }
    CarHasValidated "car_has_validated_phone" {}
    TrustLevel "phone_trust_level" { phone: Bytes }
    Peer "ble_peer" {}
    PhoneAccess "phone_access_state" { now: u64 }
    Methods "validation_methods" {}
    SessionFor "session_for" { phone: Bytes, now: u64 }
    Challenge "current_validation_challenge" {}
    Encode "encode_phone_validations" {}
    PreviewUnpair "preview_remove_paired_phone" { phone: Bytes }
    PreviewClear "preview_clear_paired_phones" {}
    PreviewForget "preview_forget_phone_validation" { phone: Bytes }
    PreviewPrune "preview_prune_phone_validations" {}
    PreviewApprove "preview_approve_can_read_write" {}

    Convert "convert_phone_validations" { record: Bytes, target: bool, output: Bytes }
    SetCounters "set_counters" { next_session: u32, relocks: u32 }
    SetList "set_list" { length: UpTo<17> }
    SetRecord "set_record" {
        place: UpTo<16>, frame_bus: u8, kind: IdKind, id: IdNumber, dlc: u8, data: [u8; 8], class: Class
    }
    LentList "lent_list" {}
    State "state" {}
}

/// Reads one line; `None` for a blank line or a comment.
pub fn parse(line: &str) -> Result<Option<Call>, LineError> {
    if line.is_empty() || line.starts_with('#') {
        return Ok(None);
    }
    let mut parts = line.split(' ');
    let name = parts.next().unwrap_or_default();
    if !Call::is_known(name) {
        return Err(LineError::UnknownCall);
    }
    Call::read(name, Items::split(parts)?).map(Some)
}

//! The calls that change nothing.

use crate::answer::{Answer, SessionReply, Values, kind_from, show_challenge};
use crate::calls::Call;
use crate::gate::{Gate, Outcome, finish, plain};
use crate::hex::{self, to_hex};
use crate::items::yes_no;
use core_interface::oracle::{phone_trust, validation};
use core_interface::proto::{CanReadWriteApproval, PhoneTrustLevel};

/// The source's texts, in its order: 1 to 7.
const REASONS: [&str; 7] = [
    "CAN logging is active",
    "the car platform is not recognised yet",
    "the car is not identified yet",
    "control was approved for a different car",
    "control is not approved for this car",
    "the developer write lock is locked",
    "the vehicle has not enabled control",
];

impl Gate {
    pub(crate) fn query(&self, call: &Call) -> Outcome {
        match call {
            Call::IsReadOnly {} => plain(core_interface::is_can_read_only()),
            Call::ReadOnlyReason {} => found(format!("reason={}", reason())),
            Call::IsPlatformConfirmed {} => plain(core_interface::is_car_identity_confirmed()),
            Call::IsFingerprintConfirmed {} => {
                plain(core_interface::is_car_fingerprint_confirmed())
            }
            Call::Approval {} => {
                let approval = core_interface::can_read_write_approval();
                found(format!("approval={}", approval_name(approval as i32)))
            }
            Call::HasDevLock {} => plain(core_interface::has_can_dev_write_lock()),
            Call::IsDevUnlocked {} => plain(core_interface::is_can_dev_write_unlocked()),
            Call::AccessState {} => found(access_state()),
            Call::PlatformId {} => found(format!("number={}", core_interface::platform_id())),
            Call::IsLogging {} => plain(core_interface::is_can_logging()),
            Call::IsFdBus { bus } => plain(core_interface::is_can_fd_bus(*bus)),
            Call::IsBusReadOnly { bus } => plain(core_interface::is_can_bus_read_only(*bus)),
            Call::IsBusListenOnly { bus, now } => {
                embassy_time::set_clock_ms(*now);
                plain(core_interface::is_can_bus_listen_only(*bus))
            }
            Call::IsPaired { phone } => plain(finish(core_interface::is_phone_paired(phone))),
            Call::PairedCount {} => {
                let count = finish(core_interface::paired_phone_count());
                found(format!("count={count}"))
            }
            Call::ListPaired {} => {
                let phones = finish(core_interface::list_paired_phones());
                let list = hex::list(&phones);
                found(format!("count={} phones={list}", phones.len()))
            }
            Call::BondedLimit {} => {
                found(format!("count={}", core_interface::ble_max_bonded_phones()))
            }
            Call::IsValidated { phone } => plain(core_interface::is_phone_validated(phone)),
            Call::CarHasValidated {} => plain(core_interface::car_has_validated_phone()),
            Call::TrustLevel { phone } => {
                let trust = core_interface::phone_trust_level(phone);
                found(format!("trust={}", trust_name(trust as i32)))
            }
            Call::Peer {} => peer(),
            Call::PhoneAccess { now } => phone_access(*now),
            Call::Methods {} => methods(),
            Call::SessionFor { phone, now } => match validation::session_for(phone, *now) {
                Some(session) => (Answer::Ok, Values::session(session.into())),
                None => plain(Answer::None),
            },
            Call::Challenge {} => challenge(),
            _ => panic!("{} is no query", call.name()),
        }
    }
}

fn found(text: String) -> Outcome {
    (Answer::Ok, Values::text(text))
}

/// 0 for none.
fn reason() -> usize {
    match core_interface::can_read_only_reason() {
        Some(text) => {
            let at = REASONS.iter().position(|reason| *reason == text);
            1 + at.expect("the source gives one of its seven texts")
        }
        None => 0,
    }
}

pub fn approval_name(number: i32) -> &'static str {
    [
        (CanReadWriteApproval::NotApproved, "not_approved"),
        (CanReadWriteApproval::AwaitingCar, "awaiting_car"),
        (CanReadWriteApproval::Approved, "approved"),
        (CanReadWriteApproval::OtherCar, "other_car"),
    ]
    .into_iter()
    .find(|(approval, _)| *approval as i32 == number)
    .expect("the source gives one of the four")
    .1
}

pub fn trust_name(number: i32) -> &'static str {
    [
        (PhoneTrustLevel::NotBonded, "not_bonded"),
        (PhoneTrustLevel::Bonded, "bonded"),
        (PhoneTrustLevel::Validated, "validated"),
    ]
    .into_iter()
    .find(|(trust, _)| *trust as i32 == number)
    .expect("the source gives one of the three")
    .1
}

/// The source always fills these fields in.
fn given<T>(field: Option<T>) -> T {
    field.expect("the source sets the field")
}

fn access_state() -> String {
    let state = core_interface::can_access_state();
    format!(
        "platform={} car={} approval={} dev_lock={} dev_unlocked={} logging={} read_only={}",
        yes_no(given(state.platform_confirmed)),
        yes_no(given(state.car_identity_confirmed)),
        approval_name(given(state.approval)),
        yes_no(given(state.dev_lock_available)),
        yes_no(given(state.dev_unlocked)),
        yes_no(given(state.logging)),
        yes_no(given(state.read_only))
    )
}

fn peer() -> Outcome {
    match phone_trust::ble_peer() {
        Some(peer) => {
            let validated = yes_no(phone_trust::is_ble_peer_validated());
            found(format!("peer={} validated={validated}", to_hex(&peer)))
        }
        None => plain(Answer::None),
    }
}

fn phone_access(now: u64) -> Outcome {
    let Some(state) = core_interface::phone_access_state(now) else {
        return plain(Answer::None);
    };
    let trust = trust_name(given(state.trust));
    let car_has_validated = yes_no(given(state.car_has_validated_phone));
    let mut text = format!("trust={trust} car_has_validated={car_has_validated}");
    let session = state.validation.map(SessionReply::from);
    if session.is_none() {
        text.push_str(" session=none");
    }
    (Answer::Ok, Values { text, session })
}

fn methods() -> Outcome {
    let methods = validation::validation_methods().methods;
    let shown: Vec<String> = methods
        .iter()
        .map(|method| {
            format!(
                "{}/{}/{}/{}",
                to_hex(method.method_id.as_bytes()),
                kind_from(method.kind).name(),
                yes_no(method.needs_approval),
                yes_no(method.available)
            )
        })
        .collect();
    found(format!("count={} methods={}", shown.len(), shown.join(",")))
}

fn challenge() -> Outcome {
    match core_interface::current_validation_challenge() {
        Some(challenge) => {
            let (session, place, code) = show_challenge(&challenge);
            found(format!("session={session} method={place} code={code}"))
        }
        None => plain(Answer::None),
    }
}

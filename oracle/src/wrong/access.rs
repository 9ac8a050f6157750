//! Wrong rules about the car, its approval and the locks.

use super::{Wrong, run, wrong};
use crate::answer::{Answer, Reply};
use crate::calls::Call;
use crate::gate::Gate;
use core_interface::oracle::{can, can_access, can_probe};

pub const RULES: &[Wrong] = &[
    wrong(
        "relock-not-counted",
        "set read-only counts no relock",
        relock_not_counted,
    ),
    wrong(
        "revoke-not-counted",
        "revoking the platform counts no relock",
        revoke_not_counted,
    ),
    wrong(
        "unlock-counted",
        "asking for read-write counts a relock",
        unlock_counted,
    ),
    wrong(
        "unlock-kept",
        "an unlock that is refused keeps an older one",
        unlock_kept,
    ),
    wrong(
        "revoke-keeps-car",
        "revoking the platform keeps the car",
        revoke_keeps_car,
    ),
    wrong(
        "platform-big-endian",
        "the platform number enters the digest with the high byte first",
        platform_big_endian,
    ),
    wrong(
        "dev-lock-in-production",
        "production builds still set the dev lock",
        dev_lock_in_production,
    ),
    wrong(
        "restored-approval-stored",
        "restoring an approval sends it to the store",
        restored_approval_stored,
    ),
    wrong(
        "logging-relocks",
        "the logging note also sets the vehicle's flag and raises signals",
        logging_relocks,
    ),
    wrong(
        "fingerprint-no-first",
        "a fingerprint that is too long gets no while the platform is unconfirmed",
        fingerprint_no_first,
    ),
    wrong(
        "reason-order",
        "an unknown platform is named before logging",
        reason_order,
    ),
    wrong(
        "revoke-keeps-flag",
        "revoking the platform keeps the vehicle's unlock",
        revoke_keeps_flag,
    ),
];

fn relock_not_counted(gate: &mut Gate, call: &Call) -> Reply {
    let relocks = can_probe::relocks();
    let reply = run(gate, call);
    if let Call::SetReadOnly { .. } = call {
        can_probe::set_relocks(relocks);
    }
    reply
}

fn revoke_not_counted(gate: &mut Gate, call: &Call) -> Reply {
    let relocks = can_probe::relocks();
    let reply = run(gate, call);
    if let Call::RevokePlatform {} = call {
        can_probe::set_relocks(relocks);
    }
    reply
}

fn unlock_counted(gate: &mut Gate, call: &Call) -> Reply {
    if let Call::SetReadOnly { enabled: false } = call {
        can_probe::set_relocks(can_probe::relocks().wrapping_add(1));
    }
    run(gate, call)
}

fn unlock_kept(gate: &mut Gate, call: &Call) -> Reply {
    let was_read_only = can::vehicle_read_only();
    let mut reply = run(gate, call);
    if let Call::SetReadOnly { enabled: false } = call
        && !was_read_only
        && can::vehicle_read_only()
    {
        can::set_vehicle_read_only(false);
        let read_only = core_interface::is_can_read_only();
        reply.answer = read_only.into();
        reply.signals.read_only = Some(read_only);
    }
    reply
}

fn revoke_keeps_car(gate: &mut Gate, call: &Call) -> Reply {
    let car = can_access::car();
    let reply = run(gate, call);
    if let Call::RevokePlatform {} = call {
        can_access::set_car(car);
    }
    reply
}

fn platform_big_endian(gate: &mut Gate, call: &Call) -> Reply {
    let Call::Fingerprint { .. } = call else {
        return run(gate, call);
    };
    let number = core_interface::platform_id();
    core_interface::init(number.swap_bytes());
    let reply = run(gate, call);
    core_interface::init(number);
    reply
}

fn dev_lock_in_production(gate: &mut Gate, call: &Call) -> Reply {
    let mut reply = run(gate, call);
    if let Call::DevUnlock { unlocked } = call
        && reply.answer != Answer::Ok
    {
        can_access::set_dev_unlocked(*unlocked);
        reply.answer = Answer::Ok;
        reply.signals.access = true;
        reply.signals.read_only = Some(core_interface::is_can_read_only());
    }
    reply
}

fn restored_approval_stored(gate: &mut Gate, call: &Call) -> Reply {
    let mut reply = run(gate, call);
    if let Call::RestoreApproval { car } = call {
        reply.signals.approval = Some(*car);
    }
    reply
}

fn logging_relocks(gate: &mut Gate, call: &Call) -> Reply {
    let was_logging = core_interface::is_can_logging();
    let mut reply = run(gate, call);
    if let Call::NoteLogging { on } = call
        && *on != was_logging
    {
        if *on {
            can::set_vehicle_read_only(true);
        }
        reply.signals.access = true;
        reply.signals.read_only = Some(core_interface::is_can_read_only());
    }
    reply
}

fn fingerprint_no_first(gate: &mut Gate, call: &Call) -> Reply {
    let mut reply = run(gate, call);
    if matches!(call, Call::Fingerprint { .. }) && !core_interface::is_car_identity_confirmed() {
        reply.answer = Answer::No;
    }
    reply
}

fn reason_order(gate: &mut Gate, call: &Call) -> Reply {
    let mut reply = run(gate, call);
    if matches!(call, Call::ReadOnlyReason {})
        && core_interface::is_can_logging()
        && !core_interface::is_car_identity_confirmed()
    {
        reply.values.text = "reason=2".to_string();
    }
    reply
}

fn revoke_keeps_flag(gate: &mut Gate, call: &Call) -> Reply {
    let flag = can::vehicle_read_only();
    let reply = run(gate, call);
    if let Call::RevokePlatform {} = call {
        can::set_vehicle_read_only(flag);
    }
    reply
}

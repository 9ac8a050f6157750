//! The whole state, read from the source's statics.

use crate::answer::status_name;
use crate::gate::Gate;
use crate::hex::{self, to_hex};
use crate::host;
use crate::items::{Bytes, yes_no};
use crate::shelf::Listed;
use core_interface::oracle::can_probe::WindowView;
use core_interface::oracle::validation::SessionView;
use core_interface::oracle::{can, can_access, can_probe, pairing, phone_trust, validation};
use core_interface::{CarDigest, ValidationMethod};
use embedded_can::Id;

/// Everything but the settings, as the source has it.
pub fn show_statics() -> String {
    let marks = can_probe::marks().map(|mark| mark.to_string());
    let parts = [
        show_access(),
        show_phones(phone_trust::validations().as_slice()),
        show_session(),
        show_probe(&marks.join(",")),
    ];
    parts.join(" ")
}

impl Gate {
    /// The state line; its marks are W-201's, its tries W-206's, its cars W-207's, its save W-209's, its waiting
    /// frames W-204's.
    pub fn show_state(&self) -> String {
        let parts = [
            self.show_settings(),
            show_access(),
            show_phones(&self.cars()),
            show_session(),
            format!("tries_left={}", self.tries),
            show_probe(&self.marks.show()),
            self.show_save(),
            self.show_queue(),
        ];
        parts.join(" ")
    }

    fn show_settings(&self) -> String {
        let s = &self.settings;
        let methods: Vec<String> = s.methods.iter().enumerate().map(show_method).collect();
        format!(
            "digits={} tries={} session_ms={} cooldown_ms={} keep_ms={} bonded={} methods={}",
            s.digits,
            s.tries,
            s.session_ms,
            s.cooldown_ms,
            s.keep_ms,
            core_interface::ble_max_bonded_phones(),
            methods.join(",")
        )
    }
}

fn show_method((place, method): (usize, &crate::items::Method)) -> String {
    format!(
        "{}/{}/{}/{}/{}",
        to_hex(&method.id),
        method.kind.name(),
        yes_no(method.needs_approval),
        yes_no(host::is_available(place)),
        yes_no(host::can_continue(place))
    )
}

fn show_car(car: Option<CarDigest>) -> String {
    match car {
        Some(car) => to_hex(&car),
        None => "none".to_string(),
    }
}

fn show_access() -> String {
    let fd: Vec<&str> = (0..4)
        .map(|bus| yes_no(core_interface::is_can_fd_bus(bus)))
        .collect();
    format!(
        "platform_number={} platform_confirmed={} car={} approval={} dev_unlocked={} production={} \
         vehicle_read_only={} logging={} fd={}",
        core_interface::platform_id(),
        yes_no(core_interface::is_car_identity_confirmed()),
        show_car(can_access::car()),
        show_car(can_access::approval()),
        yes_no(can_access::dev_unlocked()),
        yes_no(!core_interface::has_can_dev_write_lock()),
        yes_no(can::vehicle_read_only()),
        yes_no(core_interface::is_can_logging()),
        fd.join(",")
    )
}

fn show_phones(cars: &[Listed]) -> String {
    let peer = match phone_trust::ble_peer() {
        Some(peer) => to_hex(&peer),
        None => "none".to_string(),
    };
    format!("{} peer={peer}", show_lists(&pairing::paired(), cars))
}

/// The paired phones, and the validated ones of each car in order, or of `none`.
pub fn show_lists(paired: &[Bytes], cars: &[Listed]) -> String {
    let mut validated: Vec<String> = cars
        .iter()
        .map(|(car, phones)| show_listed(Some(*car), phones))
        .collect();
    if validated.is_empty() {
        validated.push(show_listed(None, &[]));
    }
    format!("paired={} {}", hex::list(paired), validated.join(" "))
}

fn show_listed(car: Option<CarDigest>, phones: &[Bytes]) -> String {
    format!(
        "validated_car={} validated={}",
        show_car(car),
        hex::list(phones)
    )
}

fn show_session() -> String {
    let session = match validation::session() {
        Some(session) => show_running(&session),
        None => "session=none".to_string(),
    };
    format!(
        "{session} cooldown_until={} next_session={}",
        validation::cooldown_until_ms(),
        validation::next_id()
    )
}

fn show_running(session: &SessionView) -> String {
    let code = match &session.code {
        Some(code) => to_hex(code),
        None => "-".to_string(),
    };
    format!(
        "session={} phone={} method={} session_car={} status={} deadline={} ended_at={} code={code}",
        session.id,
        to_hex(&session.phone),
        place(session.method),
        to_hex(&session.car),
        status_name(session.status),
        session.deadline_ms,
        session.ended_at_ms
    )
}

/// A session holds a reference into the declared methods.
fn place(method: &'static ValidationMethod) -> usize {
    validation::methods()
        .iter()
        .position(|declared| std::ptr::eq(declared, method))
        .expect("a session's method is declared")
}

fn show_probe(marks: &str) -> String {
    let window = match can_probe::window() {
        Some(window) => show_window(&window),
        None => "window=none".to_string(),
    };
    format!(
        "{window} attempts={} relocks={} marks={marks}",
        can_probe::attempts(),
        can_probe::relocks()
    )
}

fn show_window(window: &WindowView) -> String {
    let frames: Vec<String> = window.probe.frames.iter().map(show_frame).collect();
    let sent: String = (0..frames.len())
        .map(|i| {
            if window.sent & (1 << i) == 0 {
                '0'
            } else {
                '1'
            }
        })
        .collect();
    format!(
        "window={} frames={} opened_at={} relocks_then={} sent={sent}",
        window.probe.bus_id,
        frames.join(","),
        window.opened_at_ms,
        window.relocks
    )
}

fn show_frame((id, data): &(Id, [u8; 8])) -> String {
    let data = to_hex(data);
    match id {
        Id::Standard(id) => format!("std/{:x}/{data}", id.as_raw()),
        Id::Extended(id) => format!("ext/{:x}/{data}", id.as_raw()),
    }
}

//! The Rust source's side: the same rounds, on its statics. After each call every channel is emptied and looked at, as the
//! proved side looks at the signals that a call returns, and the same sum is made.

use crate::work::{BUS, FRAME_DATA, FRAME_ID, METHOD, PLATFORM, RANDOM, RIGHT, Work};
use core_interface::oracle;
use core_interface::oracle::{availability, can, can_access, pairing, validation};
use core_interface::proto::PhoneValidationSession;
use core_interface::proto::system_command_result::Result as Data;
use core_interface::{
    CanFrame, CanTxFrame, MAX_CODE_ATTEMPTS, ValidationError, ValidationKind, ValidationMethod,
};
use embedded_can::{Id, StandardId};
use std::future::Future;
use std::hint::black_box;
use std::pin::pin;
use std::task::{Context, Poll, Waker};

static METHODS: [ValidationMethod; 1] = [ValidationMethod {
    id: METHOD,
    kind: ValidationKind::CodeEntry,
    needs_approval: true,
    is_available: yes,
    can_continue: yes,
}];

fn yes() -> bool {
    true
}

fn fill(buffer: &mut [u8]) {
    buffer.copy_from_slice(&RANDOM);
}

/// The digest that the source gives a car.
pub fn digest_of(fingerprint: &[u8]) -> [u8; 32] {
    core_interface::init(PLATFORM);
    core_interface::confirm_car_identity();
    assert!(core_interface::confirm_car_fingerprint(fingerprint));
    can_access::car().expect("just confirmed")
}

/// The statics as `held::ready` of the crate `bench_calls` makes its gate: the car identified and approved, the gate
/// read-write, the phones paired and validated.
fn ready(work: &Work) {
    core_interface::reset_phone_trust_for_tests();
    oracle::can::reset();
    oracle::can_access::reset();
    oracle::can_log::reset();
    oracle::can_probe::reset();
    oracle::validation::reset();
    core_interface::set_ble_max_bonded_phones(32);
    core_interface::declare_validation_methods(&METHODS);
    core_interface::set_random_source(fill);
    assert_eq!(digest_of(&work.fingerprint), work.car);
    assert!(core_interface::approve_can_read_write().is_ok());
    assert!(core_interface::set_can_dev_write_unlocked(true).is_ok());
    assert!(!core_interface::set_can_read_only(false));
    assert!(core_interface::restore_phone_validations(&work.record));
    pairing::set_paired(work.phones.clone());
    raised(0);
}

fn bit(b: bool, weight: u32) -> u32 {
    if b { weight } else { 0 }
}

fn byte(bytes: &[u8], at: u64) -> u32 {
    bytes.get(at as usize).copied().unwrap_or(0).into()
}

/// What a call raised; the channels are empty afterwards.
fn raised(i: u64) -> u32 {
    let stored = core_interface::try_take_phone_validations_to_store();
    let challenge = validation::take_challenge_sent();
    let record = stored.as_ref().map_or(0, |bytes| byte(bytes, 1 + i % 1089));
    let code = challenge.as_ref().and_then(|c| c.as_ref()?.code);
    let digit = code.map_or(0, |code| byte(&code, i % 9));
    bit(can_access::take_access_changed(), 1)
        + bit(availability::take_changed(), 2)
        + bit(can::take_read_only_sent().is_some(), 4)
        + bit(
            core_interface::try_take_can_read_write_approval_to_store().is_some(),
            8,
        )
        + bit(stored.is_some(), 16)
        + bit(challenge.is_some(), 32)
        + record
        + digit
}

/// The tries are left out: the source's are the session's, and the proved gate's its own (W-206).
fn reply(session: &PhoneValidationSession) -> u32 {
    session.expires_in_s
}

type Session = Result<PhoneValidationSession, (ValidationError, Data)>;

fn told(answer: &Session) -> u32 {
    match answer {
        Ok(session) => reply(session).wrapping_add(3),
        Err((ValidationError::WrongCode, Data::ValidationSession(session))) => {
            reply(session).wrapping_add(4)
        }
        Err(_) => 0,
    }
}

fn start(work: &Work, i: u64) -> u32 {
    let answer = validation::start_validation(black_box(&work.phone), black_box(METHOD), i);
    told(&answer).wrapping_add(raised(i))
}

/// The source is handed text, so that the look at the bytes is its caller's.
fn submit(work: &Work, typed: &[u8], i: u64) -> u32 {
    let text = std::str::from_utf8(black_box(typed)).expect("text");
    let answer = validation::submit_validation_code(black_box(&work.phone), text, i);
    told(&answer).wrapping_add(raised(i))
}

pub fn starts(work: &Work, n: u64) -> u32 {
    ready(work);
    (0..n).fold(0, |sum: u32, i| sum.wrapping_add(start(work, i)))
}

/// Each session gets the tries that the ones before it left, as W-206 has it: on both sides the same wrong codes end one.
pub fn submits(work: &Work, typed: &[u8], n: u64) -> u32 {
    ready(work);
    let mut tries = MAX_CODE_ATTEMPTS;
    (0..n).fold(0, |sum: u32, i| {
        let started = start(work, i);
        validation::set_attempts_left(tries);
        tries = if typed == RIGHT || tries == 1 {
            MAX_CODE_ATTEMPTS
        } else {
            tries - 1
        };
        sum.wrapping_add(started)
            .wrapping_add(submit(work, typed, i))
    })
}

fn frame_of(work: &Work, command: bool) -> CanTxFrame {
    let frame = CanFrame {
        bus_id: BUS,
        id: Id::Standard(StandardId::new(FRAME_ID).expect("11 bits")),
        data: FRAME_DATA,
        dlc: 8,
    };
    if command {
        CanTxFrame::command(&oracle::can_tx::authorization(&work.phone), frame)
    } else {
        CanTxFrame::platform(frame)
    }
}

pub fn allows(work: &Work, command: bool, n: u64) -> u32 {
    ready(work);
    let sent = frame_of(work, command);
    (0..n).fold(0, |sum: u32, i| {
        embassy_time::set_clock_ms(i);
        let yes = core_interface::allow_can_tx(BUS, black_box(&sent));
        sum.wrapping_add(bit(yes, 1)).wrapping_add(raised(i))
    })
}

/// The channel of the bus has room, so that the future is ready at once.
fn send(frame: CanTxFrame, i: u64) -> u32 {
    let sending = pin!(core_interface::send_can_frame(black_box(frame)));
    let done = sending.poll(&mut Context::from_waker(Waker::noop())) == Poll::Ready(true);
    bit(done, 2).wrapping_add(raised(i))
}

fn received() -> CanTxFrame {
    let channel = &core_interface::CAN_TX_CHANNELS[usize::from(BUS)];
    channel.try_receive().expect("one was sent")
}

/// Each frame is taken out of its channel again, and is the next that is sent.
pub fn sends(work: &Work, command: bool, n: u64) -> u32 {
    ready(work);
    let mut frame = frame_of(work, command);
    let mut sum: u32 = 0;
    for i in 0..n {
        sum = sum.wrapping_add(send(frame, i));
        frame = received();
    }
    sum
}

/// As a driver does: it takes the frame out of its bus's channel and asks. The 3 are a run's answer and its one turn.
pub fn serves(work: &Work, command: bool, n: u64) -> u32 {
    ready(work);
    let mut frame = frame_of(work, command);
    let mut sum: u32 = 0;
    for i in 0..n {
        embassy_time::set_clock_ms(i);
        sum = sum.wrapping_add(send(frame, i));
        frame = received();
        let yes = core_interface::allow_can_tx(BUS, black_box(&frame));
        sum = sum.wrapping_add(3 + bit(yes, 1)).wrapping_add(raised(i));
    }
    sum
}

pub fn restores(work: &Work, n: u64) -> u32 {
    ready(work);
    (0..n).fold(0, |sum: u32, i| {
        let done = core_interface::restore_phone_validations(black_box(&work.record));
        sum.wrapping_add(bit(done, 2)).wrapping_add(raised(i))
    })
}

pub fn encodes(work: &Work, n: u64) -> u32 {
    ready(work);
    (0..n).fold(0, |sum: u32, i| {
        let record = black_box(core_interface::encode_phone_validations());
        sum.wrapping_add(byte(&record, 1 + i % 1089))
    })
}

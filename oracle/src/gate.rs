//! Runs one call on the compiled source. Where documents 01 and 02 add nothing, the call goes straight
//! to it.

use crate::added::is_running;
use crate::answer::{Answer, Refusal, Reply, Signals, Values};
use crate::calls::Call;
use crate::host::{self, Settings};
use crate::items::MethodKind;
use crate::marks::Marks;
use crate::save::Save;
use crate::shelf::Shelf;
use crate::waiting::{Lent, Queue};
use core_interface::ProbeWindow;
use core_interface::oracle::{can_probe, validation};
use std::future::Future;
use std::pin::pin;
use std::task::{Context, Poll, Waker};

/// What the oracle keeps beside the source's statics. There is one gate in a program, since there is one set of
/// statics.
pub struct Gate {
    pub settings: Settings,
    /// The source hands the window out and closes it when this is dropped.
    pub(crate) window: Option<ProbeWindow>,
    pub(crate) marks: Marks,
    /// The tries left, which W-206 gives the gate.
    pub(crate) tries: u32,
    /// The store, which W-207 gives up to four cars.
    pub shelf: Shelf,
    /// The save that is open, which W-209 gives the gate.
    pub save: Option<Save>,
    /// How many frames wait and the bus served last, which W-204 gives the gate.
    pub queue: Queue,
    /// The records of the script's host, which no new gate changes.
    pub lent: Lent,
    /// Without a shelf: the source keeps its one car, and records go through their version 1 form.
    pub(crate) bare: bool,
}

/// What a call gives but for its signals.
pub type Outcome = (Answer, Values);

pub fn plain(answer: impl Into<Answer>) -> Outcome {
    (answer.into(), Values::default())
}

pub fn refused(refusal: impl Into<Refusal>) -> Outcome {
    plain(Answer::Refused(refusal.into()))
}

/// `ok`, or the refusal.
pub fn done<E: Into<Refusal>>(result: Result<(), E>) -> Outcome {
    match result {
        Ok(()) => plain(Answer::Ok),
        Err(error) => refused(error),
    }
}

/// Runs an async function of the source. None of those that are calls waits for anything.
pub fn finish<T>(future: impl Future<Output = T>) -> T {
    match pin!(future).poll(&mut Context::from_waker(Waker::noop())) {
        Poll::Ready(value) => value,
        Poll::Pending => panic!("a call of the gate waited"),
    }
}

impl Gate {
    /// The least gate, which stands before the first `new`.
    pub fn least() -> Self {
        let mut gate = Self {
            settings: Settings::least(),
            window: None,
            marks: Marks::default(),
            tries: Settings::least().tries,
            shelf: Shelf::default(),
            save: None,
            queue: Queue::default(),
            lent: Lent::default(),
            bare: false,
        };
        gate.make_new(Settings::least());
        gate
    }

    /// The least gate without a shelf.
    pub fn least_bare() -> Self {
        Self {
            bare: true,
            ..Self::least()
        }
    }

    /// Runs a call and records its signals.
    pub fn perform(&mut self, call: &Call) -> Reply {
        Signals::take();
        let (answer, values) = self.run(call);
        Reply {
            answer,
            values,
            signals: self.take_signals(),
        }
    }

    /// Runs a call; its signals are left in the source's channels. A reply of a code entry session shows the gate's tries.
    pub fn run(&mut self, call: &Call) -> Outcome {
        let ran = is_running();
        let (answer, mut values) = self.run_with_lists(call);
        self.keep_tries(ran);
        if let Some(shown) = &mut values.session
            && shown.kind == MethodKind::Code
        {
            shown.tries = self.tries;
        }
        (answer, values)
    }

    pub(crate) fn run_source(&mut self, call: &Call) -> Outcome {
        if let Some(outcome) = self.run_added(call) {
            return outcome;
        }
        match call {
            Call::Cancel { phone, now } => done(validation::cancel_validation(phone, *now)),
            Call::Tick { now } => {
                core_interface::tick_validation(*now);
                plain(Answer::Ok)
            }
            Call::Unpair { phone } => plain(finish(core_interface::remove_paired_phone(phone))),
            Call::ClearPaired {} => {
                let count = finish(core_interface::clear_paired_phones());
                (Answer::Ok, Values::text(format!("count={count}")))
            }
            Call::Forget { phone } => {
                core_interface::forget_phone_validation(phone);
                plain(Answer::Ok)
            }
            Call::Prune {} => {
                finish(core_interface::prune_phone_validations());
                plain(Answer::Ok)
            }
            Call::Approve {} => done(core_interface::approve_can_read_write()),
            Call::RevokeApproval {} => {
                core_interface::revoke_can_read_write_approval();
                plain(Answer::Ok)
            }
            Call::RestoreApproval { car } => {
                core_interface::restore_can_read_write_approval(*car);
                plain(Answer::Ok)
            }
            Call::DevUnlock { unlocked } => {
                done(core_interface::set_can_dev_write_unlocked(*unlocked))
            }
            Call::Production {} => {
                core_interface::declare_production_build();
                plain(Answer::Ok)
            }
            Call::ConfirmPlatform {} => {
                core_interface::confirm_car_identity();
                plain(Answer::Ok)
            }
            Call::RevokePlatform {} => {
                core_interface::revoke_car_identity();
                plain(Answer::Ok)
            }
            Call::SetReadOnly { enabled } => plain(core_interface::set_can_read_only(*enabled)),
            Call::SetCounters {
                next_session,
                relocks,
            } => {
                validation::set_next_id(*next_session);
                can_probe::set_relocks(*relocks);
                plain(Answer::Ok)
            }
            query => self.query(query),
        }
    }

    /// Brings every static of the source to what it is at first, with the given settings.
    pub(crate) fn make_new(&mut self, settings: Settings) {
        use core_interface::oracle;
        // Dropping the window would close it, which raises signals.
        std::mem::forget(self.window.take());
        core_interface::init(0);
        core_interface::reset_command_availability_for_tests();
        core_interface::reset_phone_trust_for_tests();
        oracle::can::reset();
        oracle::can_access::reset();
        oracle::can_log::reset();
        oracle::can_probe::reset();
        oracle::validation::reset();
        oracle::pairing::set_paired(Vec::new());
        oracle::pairing::set_bonded_limit(settings.bonded as u8);
        host::declare_methods(&settings.methods);
        self.marks = Marks::default();
        self.tries = settings.tries;
        self.shelf = Shelf::default();
        self.save = None;
        self.queue = Queue::default();
        self.settings = settings;
    }
}

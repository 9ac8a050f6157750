//! Random scripts. Each call is run on the compiled source as it is written, so that the next can be chosen by the real
//! state: the running code, the session's number, the moments at which something lapses.

mod cars;
mod clock;
mod codes;
mod conversions;
mod guesses;
mod lists;
mod plans;
mod pools;
mod previews;
mod random;
mod records;
mod saves;
mod sessions;
mod single;
mod texts;
mod waiting;
mod windows;

use crate::answer::Reply;
use crate::calls::Call;
use crate::gate::Gate;
use crate::items::Several;
pub use cars::OneCar;
use core_interface::CarDigest;
use random::Random;

/// How many calls a gate is used for, before the next `new`.
const CALLS_OF_A_GATE: std::ops::RangeInclusive<u64> = 60..=400;

pub struct Generator {
    random: Random,
    gate: Gate,
    now: u64,
    lines: Vec<String>,
    calls: usize,
    wanted: usize,
    options: Options,
    /// The probe's frames of the last opening that was tried.
    probe: Vec<crate::items::ProbeFrame>,
    openings: usize,
    left_out: usize,
    /// The digests of the cars that were identified last.
    seen: Vec<CarDigest>,
    one_car: OneCar,
}

/// The lines of a script, how many openings of a probe window were chosen for it, and how many of these were left out
/// since the source's rule for an awake bus is not that of W-201 at their moment. `one_car` counts what was left out of a
/// script of one car.
pub struct Script {
    pub lines: Vec<String>,
    pub openings: usize,
    pub left_out: usize,
    pub one_car: OneCar,
}

/// What a script may hold.
#[derive(Clone, Copy, Default)]
pub struct Options {
    /// `set_counters` lines.
    pub counters: bool,
    /// A `state` line behind every call, and not only behind some.
    pub states: bool,
    /// Some values as text. The calls are the same as without.
    pub texts: bool,
    /// Never two cars in the store, so that the source can be run without a shelf.
    pub one_car: bool,
}

/// A script of `calls` calls; the same seed gives the same script.
pub fn script(seed: u64, calls: usize, options: Options) -> Script {
    let mut generator = Generator {
        random: Random::new(seed),
        gate: Gate::least(),
        now: 0,
        lines: Vec::new(),
        calls: 0,
        wanted: calls,
        options,
        probe: Vec::new(),
        openings: 0,
        left_out: 0,
        seen: Vec::new(),
        one_car: OneCar::default(),
    };
    while !generator.is_full() {
        generator.one_gate();
    }
    let lines = if options.texts {
        texts::with_texts(&generator.lines, seed)
    } else {
        generator.lines
    };
    Script {
        lines,
        openings: generator.openings,
        left_out: generator.left_out,
        one_car: generator.one_car,
    }
}

impl Generator {
    fn is_full(&self) -> bool {
        self.calls >= self.wanted
    }

    /// A new gate and its calls.
    fn one_gate(&mut self) {
        if self.calls > 0 && self.random.chance(1, 12) {
            self.bad_gate();
        }
        let first = self.good_new();
        self.emit(first);
        self.now = self.first_moment();
        for _ in 0..self.random.below(6) {
            self.any_call();
        }
        let until = self.calls + self.random.between(CALLS_OF_A_GATE) as usize;
        while self.calls < until && !self.is_full() {
            self.plan();
        }
    }

    /// A new gate that gets 25, and some calls on the least gate.
    fn bad_gate(&mut self) {
        let first = self.bad_new();
        self.emit(first);
        for _ in 0..self.random.below(12) {
            self.any_call();
        }
    }

    /// Writes a call and runs it.
    fn emit(&mut self, call: Call) -> Option<Reply> {
        if self.is_full() || self.leaves_out(&call) {
            return None;
        }
        if self.options.one_car && self.leaves_out_car(&call) {
            if !matches!(call, Call::Restore { .. }) {
                self.emit(Call::ClearPaired {});
            }
            return None;
        }
        self.lines.push(call.to_string());
        self.calls += 1;
        let reply = self.gate.perform(&call);
        self.remember_car();
        if self.random.chance(1, 10) || self.options.states {
            self.lines.push(Call::State {}.to_string());
        }
        Some(reply)
    }

    /// An opening at which the source's rule is not that of W-201.
    fn leaves_out(&mut self, call: &Call) -> bool {
        let Call::OpenProbe { bus, now, .. } = call else {
            return false;
        };
        let differ = self.gate.marks.rules_differ(*bus, *now);
        self.openings += 1;
        self.left_out += usize::from(differ);
        differ
    }

    /// With some chance a call that has nothing to do with the plan.
    fn noise(&mut self) {
        if self.random.chance(1, 5) {
            self.any_call();
        }
    }

    fn good_new(&mut self) -> Call {
        let count = match self.random.below(10) {
            0 => 0,
            1 => 8,
            n => n as usize % 5 + 2,
        };
        let bonded = self.random.pick(&[8, 8, 8, 4, 2, 1, 0, 31, 32]);
        self.new_with(bonded, count)
    }

    /// The settings of the build.
    fn new_with(&mut self, bonded: u32, methods: usize) -> Call {
        let method = (0..methods).map(|_| self.method()).collect();
        Call::New {
            digits: core_interface::CODE_LENGTH as u32,
            tries: core_interface::MAX_CODE_ATTEMPTS,
            session: core_interface::VALIDATION_SESSION_MS as u32,
            cooldown: core_interface::VALIDATION_COOLDOWN_MS as u32,
            keep: core_interface::VALIDATION_RESULT_KEEP_MS as u32,
            bonded,
            method: Several(method),
        }
    }

    /// One thing out of range.
    fn bad_new(&mut self) -> Call {
        let mut call = self.new_with(8, 2);
        let out_of_day = 86_400_001;
        let bad_id = self.bad_method_id();
        let too_many: Vec<_> = (0..9).map(|_| self.method()).collect();
        if let Call::New {
            digits,
            tries,
            session,
            cooldown,
            keep,
            bonded,
            method,
        } = &mut call
        {
            match self.random.below(11) {
                0 => *digits = 0,
                1 => *digits = 10,
                2 => *tries = 0,
                3 => *tries = 21,
                4 => *session = 0,
                5 => *session = out_of_day,
                6 => *cooldown = out_of_day,
                7 => *keep = out_of_day,
                8 => *bonded = 33,
                9 => method.0 = too_many,
                _ => method.0[1].id = bad_id,
            }
        }
        call
    }
}

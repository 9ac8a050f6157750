//! Wrong rules: mistakes that a port could make, each put around the compiled source, so that a comparison can show
//! that it would notice them. None of this is used unless a wrong rule is asked for.

mod access;
mod cars;
mod conversions;
mod drawing;
mod phones;
mod previews;
mod probe;
mod records;
mod saves;
mod sending;
mod serving;
mod sessions;
mod tries;
mod typed;

use crate::answer::{Reply, Signals};
use crate::calls::Call;
use crate::gate::{Gate, Outcome};
use core_interface::MAX_CODE_ATTEMPTS;

/// A wrong rule: how it answers a call.
type Rule = fn(&mut Gate, &Call) -> Reply;

/// The name of a wrong rule, what it gets wrong, and the rule.
#[derive(Clone, Copy)]
pub struct Wrong {
    pub name: &'static str,
    pub what: &'static str,
    rule: Rule,
    /// With the settings of the build the rule is right: nothing can tell it.
    pub same: bool,
}

const fn wrong(name: &'static str, what: &'static str, rule: Rule) -> Wrong {
    Wrong {
        name,
        what,
        rule,
        same: false,
    }
}

impl Wrong {
    const fn same_if(self, same: bool) -> Self {
        Self { same, ..self }
    }
}

/// Every wrong rule; the first five are the slips that document 01 names.
pub fn all() -> Vec<Wrong> {
    [
        SLIPS,
        sessions::RULES,
        typed::RULES,
        tries::RULES,
        drawing::RULES,
        phones::RULES,
        cars::RULES,
        records::RULES,
        conversions::RULES,
        saves::RULES,
        previews::RULES,
        sending::RULES,
        serving::RULES,
        probe::RULES,
        access::RULES,
    ]
    .concat()
}

const SLIPS: &[Wrong] = &[
    wrong(
        "tick-in-start",
        "start ticks first",
        sessions::tick_in_start,
    ),
    wrong(
        "platform-bus",
        "a platform frame's own bus must match while read-write",
        probe::platform_bus,
    ),
    wrong(
        "logging-closes-window",
        "the window is closed for good when logging begins",
        probe::logging_closes_window,
    ),
    wrong(
        "refill-tries",
        "a wrong code that leaves the session running refills the tries",
        tries::refill_tries,
    )
    .same_if(MAX_CODE_ATTEMPTS == 1),
    wrong(
        "ascii-trim",
        "only ASCII blanks are trimmed",
        typed::ascii_trim,
    ),
];

pub fn by_name(name: &str) -> Option<Wrong> {
    all().into_iter().find(|wrong| wrong.name == name)
}

/// Runs a call by the right rules, or by a wrong one.
pub fn perform(gate: &mut Gate, call: &Call, wrong: Option<Wrong>) -> Reply {
    match wrong {
        Some(wrong) => {
            Signals::take();
            (wrong.rule)(gate, call)
        }
        None => gate.perform(call),
    }
}

/// The reply of a call that was run, with what it sent so far.
fn reply(gate: &Gate, (answer, values): Outcome) -> Reply {
    Reply {
        answer,
        values,
        signals: gate.take_signals(),
    }
}

/// Runs the call as it should be, after what a wrong rule did before it.
fn run(gate: &mut Gate, call: &Call) -> Reply {
    let outcome = gate.run(call);
    reply(gate, outcome)
}

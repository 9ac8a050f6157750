//! Wrong rules about the converter (W-208).

use super::{Wrong, reply, run, wrong};
use crate::answer::{Answer, Refusal, Reply, Signals};
use crate::calls::Call;
use crate::convert::{Converted, convert};
use crate::gate::Gate;
use crate::shelf::parts;

pub const RULES: &[Wrong] = &[
    wrong(
        "convert-version-kept",
        "the first byte is that of the record given",
        version_kept,
    ),
    wrong(
        "convert-room-short",
        "the room is told one byte short",
        room_short,
    ),
    wrong(
        "convert-many-first",
        "a record of several cars that is too large gives 29 for target 1",
        many_first,
    ),
    wrong(
        "convert-short-first",
        "a record of several cars that would not fit gives 30 for target 1",
        short_first,
    ),
    wrong(
        "convert-clears-past",
        "lent bytes past the record are cleared",
        clears_past,
    ),
    wrong(
        "convert-writes-short",
        "with 30 the lent bytes get the front of the record",
        writes_short,
    ),
    wrong(
        "convert-room-with-many",
        "the room is told with 29",
        room_with_many,
    ),
    wrong(
        "convert-re-heads",
        "a record of the target with one car comes out as the other version",
        re_heads,
    ),
    wrong("convert-turned-round", "a yes picks target 1", turned_round),
    wrong(
        "convert-full-short",
        "a record that fills the lent bytes gives 30",
        full_short,
    ),
    wrong(
        "convert-last-byte-lost",
        "lent bytes that are one too few take the record without its last byte",
        last_byte_lost,
    ),
    wrong(
        "convert-room-unsaid",
        "the room is not told with 30",
        room_unsaid,
    ),
    wrong(
        "convert-target-unjudged",
        "a record that begins as the target does comes out as it is, whatever follows",
        target_unjudged,
    ),
    wrong(
        "convert-empty-passes",
        "a record of no bytes comes out as it is",
        empty_passes,
    ),
    wrong(
        "convert-restores",
        "converting a record restores it",
        restores,
    ),
];

/// What is asked of the converter.
struct Asked<'a> {
    record: &'a [u8],
    two: bool,
    output: &'a [u8],
}

impl Asked<'_> {
    fn given(&self, two: bool) -> Converted {
        convert(self.record, two, self.output)
    }

    fn refused(&self, refusal: Refusal, room: usize) -> Converted {
        Converted::refused(refusal, room, self.output)
    }

    /// The record has the version byte of the target.
    fn begins_as_target(&self) -> bool {
        self.record.first() == Some(if self.two { &2 } else { &1 })
    }
}

/// Runs a conversion and alters what it gives; every other call is run as it should be.
fn altered(gate: &mut Gate, call: &Call, alter: fn(Converted, Asked) -> Converted) -> Reply {
    let Call::Convert {
        record,
        target,
        output,
    } = call
    else {
        return run(gate, call);
    };
    let asked = Asked {
        record,
        two: *target,
        output,
    };
    let right = asked.given(*target);
    reply(gate, alter(right, asked).outcome())
}

fn is_refused(converted: &Converted, refusal: Refusal) -> bool {
    converted.answer == Answer::Refused(refusal)
}

fn version_kept(gate: &mut Gate, call: &Call) -> Reply {
    altered(gate, call, |mut given, asked| {
        if given.answer == Answer::Ok {
            given.output[0] = asked.record[0];
        }
        given
    })
}

fn room_short(gate: &mut Gate, call: &Call) -> Reply {
    altered(gate, call, |mut given, _| {
        given.room = given.room.saturating_sub(1);
        given
    })
}

fn many_first(gate: &mut Gate, call: &Call) -> Reply {
    altered(gate, call, |given, asked| {
        let several = parts(asked.record).is_some_and(|parts| parts.len() > 1);
        if is_refused(&given, Refusal::TooLarge) && several && !asked.two {
            return asked.refused(Refusal::ManyCars, 0);
        }
        given
    })
}

fn short_first(gate: &mut Gate, call: &Call) -> Reply {
    altered(gate, call, |given, asked| {
        let room = asked.record.len().saturating_sub(1);
        if is_refused(&given, Refusal::ManyCars) && asked.output.len() < room {
            return asked.refused(Refusal::ShortOutput, room);
        }
        given
    })
}

fn clears_past(gate: &mut Gate, call: &Call) -> Reply {
    altered(gate, call, |mut given, _| {
        if given.answer == Answer::Ok {
            given.output[given.room..].fill(0);
        }
        given
    })
}

/// With 30, the front of the record in the lent bytes.
fn write_front(given: &mut Converted, asked: &Asked) {
    let whole = convert(asked.record, asked.two, &vec![0; given.room]).output;
    given.output.copy_from_slice(&whole[..asked.output.len()]);
}

fn writes_short(gate: &mut Gate, call: &Call) -> Reply {
    altered(gate, call, |mut given, asked| {
        if is_refused(&given, Refusal::ShortOutput) {
            write_front(&mut given, &asked);
        }
        given
    })
}

fn last_byte_lost(gate: &mut Gate, call: &Call) -> Reply {
    altered(gate, call, |mut given, asked| {
        if is_refused(&given, Refusal::ShortOutput) && asked.output.len() + 1 == given.room {
            write_front(&mut given, &asked);
            given.answer = Answer::Ok;
        }
        given
    })
}

fn room_with_many(gate: &mut Gate, call: &Call) -> Reply {
    altered(gate, call, |mut given, asked| {
        if is_refused(&given, Refusal::ManyCars) {
            given.room = asked.record.len() - 1;
        }
        given
    })
}

fn re_heads(gate: &mut Gate, call: &Call) -> Reply {
    altered(gate, call, |given, asked| {
        let other = asked.given(!asked.two);
        let converts = given.room > 0 && other.room > 0;
        if converts && asked.begins_as_target() {
            other
        } else {
            given
        }
    })
}

fn turned_round(gate: &mut Gate, call: &Call) -> Reply {
    altered(gate, call, |_, asked| asked.given(!asked.two))
}

fn full_short(gate: &mut Gate, call: &Call) -> Reply {
    altered(gate, call, |given, asked| {
        if given.answer == Answer::Ok && given.room == asked.output.len() {
            return asked.refused(Refusal::ShortOutput, given.room);
        }
        given
    })
}

fn room_unsaid(gate: &mut Gate, call: &Call) -> Reply {
    altered(gate, call, |mut given, _| {
        if given.answer != Answer::Ok {
            given.room = 0;
        }
        given
    })
}

fn target_unjudged(gate: &mut Gate, call: &Call) -> Reply {
    altered(gate, call, |given, asked| {
        if asked.begins_as_target() {
            return Converted::written(asked.record, asked.output);
        }
        given
    })
}

fn empty_passes(gate: &mut Gate, call: &Call) -> Reply {
    altered(gate, call, |given, asked| {
        if asked.record.is_empty() {
            return Converted::written(&[], asked.output);
        }
        given
    })
}

fn restores(gate: &mut Gate, call: &Call) -> Reply {
    if let Call::Convert { record, .. } = call {
        let record = record.clone();
        gate.run(&Call::Restore { record });
        Signals::take();
    }
    run(gate, call)
}

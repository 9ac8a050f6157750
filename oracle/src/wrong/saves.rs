//! Wrong rules about saves (W-209).

use super::{Wrong, reply, run, wrong};
use crate::answer::{Answer, Reply};
use crate::calls::Call;
use crate::gate::{Gate, plain};
use crate::items::Bytes;
use crate::save::{Save, Taken};

pub const RULES: &[Wrong] = &[
    wrong(
        "save-end-late",
        "the end is told by a further take, which hands out nothing",
        end_late,
    ),
    wrong(
        "save-full-not-end",
        "a take whose memory the last bytes fill does not tell the end",
        full_not_end,
    ),
    wrong(
        "save-past-cleared",
        "lent bytes past those handed out are cleared",
        past_cleared,
    ),
    wrong(
        "save-follows-store",
        "a take hands out bytes of the store as it is then",
        follows_store,
    ),
    wrong(
        "save-not-closed",
        "a take after the end tells the end again",
        not_closed,
    ),
    wrong(
        "save-starts-again",
        "a take after the end begins again at the front",
        starts_again,
    ),
    wrong(
        "save-31-clears",
        "with 31 the lent bytes are cleared",
        none_clears,
    ),
    wrong(
        "save-second-ignored",
        "opening while a save is unfinished goes on with that one",
        second_ignored,
    ),
    wrong(
        "save-second-goes-on",
        "opening while a save is unfinished keeps its position",
        second_goes_on,
    ),
    wrong(
        "save-second-closes",
        "opening while a save is unfinished drops it and opens none",
        second_closes,
    ),
    wrong(
        "save-outlives-gate",
        "a new gate keeps the save",
        outlives_gate,
    ),
    wrong(
        "save-no-memory-ends",
        "a take with no memory ends the save",
        no_memory_ends,
    ),
    wrong(
        "save-no-memory-31",
        "a take with no memory gives 31",
        no_memory_refused,
    ),
    wrong(
        "save-empty-none",
        "opening a save of an empty store opens none",
        empty_none,
    ),
    wrong(
        "save-empty-needs-memory",
        "the end of an empty record needs a lent byte",
        empty_needs_memory,
    ),
    wrong(
        "save-clear-drops",
        "clearing the pairings drops the save",
        clear_drops,
    ),
    wrong(
        "save-restore-drops",
        "restoring a record drops the save",
        restore_drops,
    ),
    wrong(
        "save-change-drops",
        "whatever sends S drops the save",
        change_drops,
    ),
    wrong(
        "save-taken-lent",
        "the lent length is told as the bytes taken",
        taken_lent,
    ),
    wrong(
        "save-no-position",
        "each take begins at the front of the record",
        no_position,
    ),
    wrong(
        "save-last-take-short",
        "a take whose memory is longer than the rest hands out nothing",
        longer_gives_none,
    ),
    wrong(
        "save-version-1",
        "a save of one car has its version 1 form",
        version_1,
    ),
    wrong("save-open-signals", "opening a save sends S", open_signals),
];

/// Runs a take on the save that is open and alters what it gives; every other call, and a take with none open, is run as it
/// should be.
fn on_take(
    gate: &mut Gate,
    call: &Call,
    alter: fn(&mut Gate, Save, &[u8], Taken) -> Taken,
) -> Reply {
    let (Call::TakeSave { output }, Some(save)) = (call, gate.save.clone()) else {
        return run(gate, call);
    };
    let right = gate.take_save(output);
    let taken = alter(gate, save, output, right);
    reply(gate, taken.outcome())
}

/// The save with all its bytes handed out.
fn finished(save: Save) -> Option<Save> {
    let at = save.record.len();
    Some(Save { at, ..save })
}

fn end_late(gate: &mut Gate, call: &Call) -> Reply {
    on_take(gate, call, |gate, save, _, mut taken| {
        if let Some((1.., end)) = &mut taken.told
            && *end
        {
            *end = false;
            gate.save = finished(save);
        }
        taken
    })
}

fn full_not_end(gate: &mut Gate, call: &Call) -> Reply {
    on_take(gate, call, |gate, save, lent, mut taken| {
        if let Some((count @ 1.., end)) = &mut taken.told
            && *count == lent.len()
            && *end
        {
            *end = false;
            gate.save = finished(save);
        }
        taken
    })
}

fn past_cleared(gate: &mut Gate, call: &Call) -> Reply {
    on_take(gate, call, |_, _, _, mut taken| {
        if let Some((count, _)) = taken.told {
            taken.output[count..].fill(0);
        }
        taken
    })
}

fn follows_store(gate: &mut Gate, call: &Call) -> Reply {
    let record = gate.record();
    if let (Call::TakeSave { .. }, Some(save)) = (call, &mut gate.save) {
        save.at = save.at.min(record.len());
        save.record = record;
    }
    run(gate, call)
}

thread_local! {
    /// The record of the save whose end was told last on this gate.
    static ENDED: std::cell::RefCell<Option<Bytes>> = const { std::cell::RefCell::new(None) };
}

/// Runs a take after the end on a save with this position in place of none.
fn after_end(gate: &mut Gate, call: &Call, at: fn(&Bytes) -> usize) -> Reply {
    match call {
        Call::New { .. } | Call::OpenSave {} => ENDED.set(None),
        Call::TakeSave { .. } if gate.save.is_none() => {
            let ended = ENDED.with_borrow(Clone::clone);
            gate.save = ended.map(|record| Save {
                at: at(&record),
                record,
            });
        }
        Call::TakeSave { .. } => ENDED.set(gate.save.as_ref().map(|save| save.record.clone())),
        _ => {}
    }
    run(gate, call)
}

fn not_closed(gate: &mut Gate, call: &Call) -> Reply {
    after_end(gate, call, Vec::len)
}

fn starts_again(gate: &mut Gate, call: &Call) -> Reply {
    after_end(gate, call, |_| 0)
}

fn none_clears(gate: &mut Gate, call: &Call) -> Reply {
    match call {
        Call::TakeSave { output } if gate.save.is_none() => {
            let taken = gate.take_save(&vec![0; output.len()]);
            reply(gate, taken.outcome())
        }
        _ => run(gate, call),
    }
}

/// Runs an opening, and then changes the save by the one that was unfinished.
fn on_second(gate: &mut Gate, call: &Call, change: fn(&mut Option<Save>, Save)) -> Reply {
    let before = gate.save.clone();
    let reply = run(gate, call);
    if let (Call::OpenSave {}, Some(before)) = (call, before) {
        change(&mut gate.save, before);
    }
    reply
}

fn second_ignored(gate: &mut Gate, call: &Call) -> Reply {
    on_second(gate, call, |save, before| *save = Some(before))
}

fn second_goes_on(gate: &mut Gate, call: &Call) -> Reply {
    on_second(gate, call, |save, before| {
        if let Some(save) = save {
            save.at = before.at.min(save.record.len());
        }
    })
}

fn second_closes(gate: &mut Gate, call: &Call) -> Reply {
    on_second(gate, call, |save, _| *save = None)
}

fn outlives_gate(gate: &mut Gate, call: &Call) -> Reply {
    let before = gate.save.clone();
    let reply = run(gate, call);
    if let Call::New { .. } = call {
        gate.save = before;
    }
    reply
}

fn no_memory_ends(gate: &mut Gate, call: &Call) -> Reply {
    on_take(gate, call, |gate, _, lent, mut taken| {
        if lent.is_empty() {
            gate.save = None;
            taken.told = Some((0, true));
        }
        taken
    })
}

fn no_memory_refused(gate: &mut Gate, call: &Call) -> Reply {
    on_take(gate, call, |gate, save, lent, mut taken| {
        if lent.is_empty() {
            gate.save = Some(save);
            taken.told = None;
        }
        taken
    })
}

fn empty_none(gate: &mut Gate, call: &Call) -> Reply {
    let reply = run(gate, call);
    if let Call::OpenSave {} = call {
        gate.save.take_if(|save| save.record.is_empty());
    }
    reply
}

fn empty_needs_memory(gate: &mut Gate, call: &Call) -> Reply {
    on_take(gate, call, |gate, save, lent, mut taken| {
        if save.record.is_empty() && lent.is_empty() {
            gate.save = Some(save);
            taken.told = Some((0, false));
        }
        taken
    })
}

fn clear_drops(gate: &mut Gate, call: &Call) -> Reply {
    if let Call::ClearPaired {} = call {
        gate.save = None;
    }
    run(gate, call)
}

fn restore_drops(gate: &mut Gate, call: &Call) -> Reply {
    if let Call::Restore { .. } = call {
        gate.save = None;
    }
    run(gate, call)
}

fn change_drops(gate: &mut Gate, call: &Call) -> Reply {
    let reply = run(gate, call);
    if reply.signals.validations.is_some() {
        gate.save = None;
    }
    reply
}

fn taken_lent(gate: &mut Gate, call: &Call) -> Reply {
    on_take(gate, call, |_, _, lent, mut taken| {
        if let Some((count, _)) = &mut taken.told {
            *count = lent.len();
        }
        taken
    })
}

fn no_position(gate: &mut Gate, call: &Call) -> Reply {
    on_take(gate, call, |_, save, _, mut taken| {
        if let Some((count, _)) = taken.told {
            taken.output[..count].copy_from_slice(&save.record[..count]);
        }
        taken
    })
}

fn longer_gives_none(gate: &mut Gate, call: &Call) -> Reply {
    on_take(gate, call, |gate, save, lent, taken| {
        let rest = save.rest().len();
        if rest == 0 || lent.len() <= rest {
            return taken;
        }
        gate.save = Some(save);
        Taken {
            told: Some((0, false)),
            output: lent.to_vec(),
        }
    })
}

fn version_1(gate: &mut Gate, call: &Call) -> Reply {
    let reply = run(gate, call);
    if let (Call::OpenSave {}, Some(save)) = (call, &mut gate.save)
        && let [2, 1, body @ ..] = &save.record[..]
    {
        save.record = [&[1], body].concat();
    }
    reply
}

fn open_signals(gate: &mut Gate, call: &Call) -> Reply {
    if let Call::OpenSave {} = call {
        gate.open_save();
        let mut reply = reply(gate, plain(Answer::Ok));
        reply.signals.validations = Some(gate.record());
        return reply;
    }
    run(gate, call)
}

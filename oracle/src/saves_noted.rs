//! What a call did to a save, as items behind its line, for the histogram alone (required/saves.txt).

use crate::answer::{Answer, Reply};
use crate::calls::Call;
use crate::cars_noted::stands;
use crate::gate::Gate;
use crate::save::Save;
use std::collections::BTreeSet;

/// What the gate does not remember of its saves.
#[derive(Default)]
pub struct SavesNoted {
    /// Why none is open.
    closed: Closed,
    /// How many takes gave bytes of the save that is open.
    pieces: usize,
    /// What was done since it was opened.
    between: BTreeSet<&'static str>,
}

#[derive(Clone, Copy, Default)]
enum Closed {
    #[default]
    Never,
    Ended,
    NewGate,
}

impl SavesNoted {
    /// The items of a call's line; the save is the one before the call, the gate the one that it left.
    pub fn items(
        &mut self,
        call: &Call,
        reply: &Reply,
        before: Option<&Save>,
        gate: &Gate,
    ) -> Vec<String> {
        match call {
            Call::New { .. } => {
                let dropped = before.is_some();
                self.closed = if dropped {
                    Closed::NewGate
                } else {
                    Closed::Never
                };
                drops(before)
            }
            Call::OpenSave {} => {
                self.pieces = 0;
                self.between.clear();
                drops(before)
            }
            Call::TakeSave { output } => match before {
                Some(save) => self.of_take(save, output.len(), gate),
                None => vec![format!("none={}", self.closed.name())],
            },
            _ => {
                self.between.extend(done(call, reply));
                Vec::new()
            }
        }
    }

    /// How the lent length stands to what is left, whether the store is another than at opening, and at the end what was done
    /// since then.
    fn of_take(&mut self, save: &Save, lent: usize, gate: &Gate) -> Vec<String> {
        let rest = save.rest().len();
        self.pieces += usize::from(lent > 0 && rest > 0);
        let mut items = vec![format!("lent={}", stands(lent, rest))];
        if save.record.is_empty() {
            items.push("empty=yes".to_string());
        }
        if save.record != gate.record() {
            items.push("store=changed".to_string());
        }
        if gate.save.is_none() {
            self.closed = Closed::Ended;
            items.push(format!("pieces={}", self.pieces));
            let between = self.between.iter();
            items.extend(between.map(|done| format!("between={done}")));
        }
        items
    }
}

impl Closed {
    fn name(self) -> &'static str {
        match self {
            Self::Never => "never",
            Self::Ended => "ended",
            Self::NewGate => "new_gate",
        }
    }
}

/// What a call drops: a save of no bytes, one of which none was taken, or one of which some were.
fn drops(save: Option<&Save>) -> Vec<String> {
    let dropped = save.map(|save| match (save.record.len(), save.at) {
        (0, _) => "drops=empty",
        (_, 0) => "drops=whole",
        _ => "drops=begun",
    });
    dropped.map(str::to_string).into_iter().collect()
}

/// What a call did to the phones or to the approval.
fn done(call: &Call, reply: &Reply) -> Option<&'static str> {
    let stores = reply.signals.validations.is_some();
    match call {
        Call::Pair { .. } if reply.answer == Answer::Yes => Some("pair"),
        Call::Submit { .. } | Call::Complete { .. } if stores => Some("success"),
        Call::Forget { .. } if stores => Some("forget"),
        Call::Unpair { .. } if stores => Some("unpair"),
        Call::Prune {} if stores => Some("prune"),
        Call::ClearPaired {} if stores => Some("clear"),
        Call::Restore { .. } if reply.answer == Answer::Ok => Some("restore"),
        Call::Restore { .. } => Some("restore_refused"),
        Call::Approve {} if reply.answer == Answer::Ok => Some("approve"),
        _ => None,
    }
}

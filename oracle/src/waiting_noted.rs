//! What a line of W-204 did, as items behind it, for the histogram alone (required/waiting.txt).

use crate::added::MAX_ID_BYTES;
use crate::answer::{Answer, Reply};
use crate::calls::Call;
use crate::gate::Gate;
use crate::items::{Class, yes_no};
use crate::waiting::{Lent, Queue, RECORDS, Record, next_place};
use core_interface::oracle::can_probe;
use std::collections::BTreeSet;

/// What the line before left, and what the gate does not remember of the frames that wait.
#[derive(Default)]
pub struct WaitingNoted {
    queue: Queue,
    lent: Lent,
    sent: Option<u8>,
    /// One for each frame that waits, in the order of their places.
    frames: Vec<Frame>,
    /// The calls since the oldest of them was sent that may change what is allowed.
    between: BTreeSet<&'static str>,
}

/// Of a frame, since it was sent or a record was altered: how many were before it on its bus, how many turns were taken, and
/// whether it was allowed then.
struct Frame {
    before: usize,
    turns: usize,
    then: bool,
}

impl WaitingNoted {
    /// The items of a line; the gate is the one that it left.
    pub fn items(&mut self, call: &Call, reply: &Reply, gate: &mut Gate) -> Vec<String> {
        let items = match call {
            Call::Send { .. } => self.of_send(call, reply, gate),
            Call::Serve { turns, .. } => self.of_serve(*turns, reply, gate),
            Call::SetRecord { place, .. } => self.of_record(call, place.0 as usize, gate),
            Call::LentList {} => self.of_list(),
            Call::New { .. } => self.of_new(),
            _ => Vec::new(),
        };
        if may_change(call) {
            self.between.insert(call.name());
        }
        if gate.queue.count == 0 {
            self.between.clear();
            self.frames.clear();
        }
        self.queue = gate.queue;
        self.lent = gate.lent.clone();
        self.sent = sent();
        items
    }

    /// How many waited, and how many records are lent if not sixteen.
    fn waits(&self) -> Vec<String> {
        let mut items = vec![format!("waits={}", self.queue.count)];
        match self.lent.length {
            RECORDS => {}
            length if length < RECORDS => items.push("lent=fewer".to_string()),
            _ => items.push("lent=more".to_string()),
        }
        items
    }

    /// Behind a refusal also every later one that holds.
    fn of_send(&mut self, call: &Call, reply: &Reply, gate: &mut Gate) -> Vec<String> {
        let record = Record::of(call).expect("a frame is sent");
        let mut items = self.waits();
        if reply.answer == Answer::Ok {
            self.frames.push(Frame {
                before: before(&gate.waiting()[..self.queue.count], &record),
                turns: 0,
                then: would_pass(gate, &record),
            });
        } else {
            let later = gate.refusals(&record).into_iter().skip(1);
            items.extend(later.map(|refusal| format!("also={}", refusal as u32)));
        }
        items
    }

    fn of_serve(&mut self, asked: u32, reply: &Reply, gate: &mut Gate) -> Vec<String> {
        let mut items = self.waits();
        items.push(format!("asked={}", stands(asked, self.queue.count)));
        let mut noted = BTreeSet::new();
        let mut waiting = self.lent.records[..self.queue.count].to_vec();
        let mut last = self.queue.last;
        for yes in decisions(reply) {
            let place = next_place(&waiting, last).expect("a frame waited");
            let record = waiting.remove(place);
            let frame = self.frames.remove(place);
            for other in &mut self.frames {
                other.turns += 1;
            }
            noted.extend(of_turn(&record, place, last, yes));
            noted.extend(of_frame(&frame, yes));
            noted.extend(of_owner(&record, gate));
            last = record.on();
        }
        if !noted.is_empty() {
            items.extend(self.between.iter().map(|call| format!("between={call}")));
        }
        if self.sent != sent() {
            items.push("probe=marked".to_string());
        }
        items.extend(noted);
        items
    }

    /// What a record that is set has, and whether it waits. If it does, what is known of the waiting frames begins anew.
    fn of_record(&mut self, call: &Call, place: usize, gate: &mut Gate) -> Vec<String> {
        let record = Record::of(call).expect("a record is set");
        let waits = place < self.queue.count;
        if waits {
            self.frames = (0..self.queue.count).map(|at| frame_at(gate, at)).collect();
        }
        let said = [
            ("sets=waiting", waits),
            ("sets=past", !waits && place < self.lent.length),
            ("sets=not_lent", place >= self.lent.length),
            ("bus=above_3", record.bus > 3),
            ("owner=long", record.has_long_owner()),
            ("id=bad", !record.has_good_id()),
        ];
        said.iter().filter(|said| said.1).map(text).collect()
    }

    /// Whether the place behind the last frame still has a record that was served.
    fn of_list(&self) -> Vec<String> {
        let mut items = self.waits();
        let free = &self.lent.records[self.queue.count];
        if *free != Record::default() {
            items.push("free=set".to_string());
        }
        items
    }

    fn of_new(&self) -> Vec<String> {
        let said = [
            ("drops=frames", self.queue.count > 0),
            (
                "keeps=records",
                self.lent.records != Lent::default().records,
            ),
            ("keeps=length", self.lent.length != RECORDS),
        ];
        said.iter().filter(|said| said.1).map(text).collect()
    }
}

fn text(said: &(&str, bool)) -> String {
    said.0.to_string()
}

/// How many of these wait on the bus of the record.
fn before(waiting: &[Record], record: &Record) -> usize {
    waiting
        .iter()
        .filter(|other| other.on() == record.on())
        .count()
}

fn frame_at(gate: &mut Gate, place: usize) -> Frame {
    let record = gate.lent.records[place].clone();
    Frame {
        before: before(&gate.waiting()[..place], &record),
        turns: 0,
        then: would_pass(gate, &record),
    }
}

/// What would be decided at the clock of the last call that had one. The gate is left as it is.
fn would_pass(gate: &mut Gate, record: &Record) -> bool {
    let window = can_probe::window();
    let now = embassy_time::Instant::now().as_millis();
    let mut record = record.clone();
    record.bus = record.on();
    let yes = gate.decides(record.bus, &record, now);
    can_probe::set_window(window);
    yes
}

/// Which entries of the probe were sent.
fn sent() -> Option<u8> {
    can_probe::window().map(|window| window.sent)
}

/// Whether what is allowed may be another behind the call, or what is lent.
fn may_change(call: &Call) -> bool {
    matches!(
        call,
        Call::Submit { .. }
            | Call::Complete { .. }
            | Call::Forget { .. }
            | Call::Unpair { .. }
            | Call::ClearPaired {}
            | Call::Restore { .. }
            | Call::Approve {}
            | Call::RevokeApproval {}
            | Call::DevUnlock { .. }
            | Call::RevokePlatform {}
            | Call::Fingerprint { .. }
            | Call::SetReadOnly { .. }
            | Call::OpenProbe { .. }
            | Call::CloseProbe {}
            | Call::Allow { .. }
            | Call::NoteLogging { .. }
            | Call::NoteFd { .. }
            | Call::SetList { .. }
            | Call::SetRecord { .. }
    )
}

/// How the turns asked for stand to the frames that wait.
fn stands(asked: u32, count: usize) -> &'static str {
    match asked {
        0 => "none",
        u32::MAX => "most",
        asked if (asked as usize) < count => "fewer",
        asked if asked as usize == count => "all",
        _ => "more",
    }
}

/// The yes or no of each frame that was told.
fn decisions(reply: &Reply) -> Vec<bool> {
    let text = &reply.values.text;
    let frames = text.split_once("frames=").map_or("", |parts| parts.1);
    let frames = frames.split(',').filter(|frame| !frame.is_empty());
    frames.map(|frame| frame.ends_with("/yes")).collect()
}

/// The class with the decision, how many buses were looked at, whether an older frame waits on, and what was altered.
fn of_turn(record: &Record, place: usize, last: u8, yes: bool) -> Vec<String> {
    let class = record.class.name();
    let yes = yes_no(yes);
    let looked = (record.on() + 3 - last) % 4 + 1;
    let mut items = vec![format!("{class}={yes}"), format!("looks={looked}")];
    if place > 0 {
        items.push("order=another".to_string());
    }
    if record.bus > 3 {
        items.push(format!("above_3={yes}"));
    }
    if !record.has_good_id() {
        items.push(format!("bad_id={yes}"));
    }
    items
}

/// Whether the decision is another than it would have been at sending, and whether this was the last turn by which the frame
/// had to be decided, with how many before it.
fn of_frame(frame: &Frame, yes: bool) -> Vec<String> {
    let mut items = Vec::new();
    if frame.then != yes {
        items.push(format!("becomes={}", yes_no(yes)));
    }
    if frame.turns + 1 == 4 * (frame.before + 1) {
        items.push(format!("bound={}", frame.before));
    }
    items
}

/// An owner that is too long, and whether its first 32 bytes would pass.
fn of_owner(record: &Record, gate: &mut Gate) -> Vec<String> {
    if !record.has_long_owner() {
        return Vec::new();
    }
    let mut cut = record.clone();
    cut.class = Class::Command(record.owner()[..MAX_ID_BYTES].to_vec());
    vec![format!("cut={}", yes_no(would_pass(gate, &cut)))]
}

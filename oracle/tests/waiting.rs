//! Waiting frames of W-204, held against a plain reading of 02: a queue for each bus, the frames in it by number, the list as the
//! lines say it, and each decision asked of the gate by a line of its own. One test in one program, since the gate's statics are
//! shared.

use core_interface::oracle::can_probe;
use oracle::calls::{Call, parse};
use oracle::gate::Gate;
use oracle::generate::{Options, script};
use std::collections::VecDeque;

/// A record as the items of the line that set it.
const NEVER_SET: &str = "frame_bus=0 kind=std id=0 dlc=0 data=0000000000000000 class=platform";

/// What the lines make of the host's records and of the gate's frames. A frame has a number, and a last turn by which it must have
/// been decided.
struct Model {
    records: Vec<String>,
    length: usize,
    frames: Vec<u64>,
    last_turn: Vec<usize>,
    last: usize,
    sent: u64,
    turns: usize,
    bounds_met: usize,
}

#[test]
fn turns_go_round_the_buses() {
    let options = Options {
        counters: true,
        ..Options::default()
    };
    let mut gate = Gate::least();
    let mut model = Model {
        records: vec![NEVER_SET.to_string(); 17],
        length: 16,
        frames: Vec::new(),
        last_turn: Vec::new(),
        last: 3,
        sent: 0,
        turns: 0,
        bounds_met: 0,
    };
    for line in script(10, 60_000, options).lines {
        if line == "state" {
            continue;
        }
        let (name, items) = line.split_once(' ').unwrap_or((&line, ""));
        let told = match name {
            "send_can_frame" => Some(model.send(items)),
            "serve_can_frames" => Some(model.serve(items, &mut gate)),
            "set_record" => Some(model.set(items)),
            "set_list" => {
                model.length = number(items, "length");
                Some("answer=ok".to_string())
            }
            "lent_list" => Some(model.lent()),
            "new" => {
                (model.frames, model.last_turn, model.last) = (Vec::new(), Vec::new(), 3);
                None
            }
            _ => None,
        };
        let reply = gate.perform(&call(&line)).to_string();
        if let Some(told) = told {
            assert_eq!(reply, format!("{told} signals=none"), "{line}");
        }
        let tail = format!("waiting={} last_bus={}", model.frames.len(), model.last);
        assert!(gate.show_state().ends_with(&tail), "{line}: {tail}");
    }
    assert!(model.sent > 2_000 && model.turns > 1_000 && model.bounds_met > 100);
}

fn call(line: &str) -> Call {
    parse(line).expect("a call").expect("no comment")
}

/// The value of an item, or no text.
fn item<'a>(items: &'a str, key: &str) -> &'a str {
    let values = items.split(' ').filter_map(|item| item.split_once('='));
    let mut of_key = values.filter(|value| value.0 == key);
    of_key.next().map_or("", |value| value.1)
}

fn number(items: &str, key: &str) -> usize {
    item(items, key).parse().expect("a number")
}

fn bus_of(record: &str) -> usize {
    number(record, "frame_bus") % 4
}

/// `BUS/KIND/ID/DLC/DATA` of a record, under this bus.
fn frame(bus: usize, record: &str) -> String {
    let [kind, id, dlc, data] = ["kind", "id", "dlc", "data"].map(|key| item(record, key));
    format!("{bus}/{kind}/{id}/{dlc}/{data}")
}

impl Model {
    fn send(&mut self, items: &str) -> String {
        let id = u64::from_str_radix(item(items, "id"), 16).expect("an id");
        let most = match item(items, "kind") {
            "std" => 0x7ff,
            _ => 0x1fff_ffff,
        };
        if id > most {
            return "answer=24/BadFrame".to_string();
        }
        if item(items, "owner").len() > 64 {
            return "answer=18/IdTooLong".to_string();
        }
        if number(items, "frame_bus") > 3 {
            return "answer=26/BadBus".to_string();
        }
        if self.frames.len() == 16 || self.length != 16 {
            return "answer=27/QueueFull".to_string();
        }
        self.records[self.frames.len()] = items.to_string();
        self.frames.push(self.sent);
        self.sent += 1;
        self.last_turn.push(self.bound(self.frames.len() - 1));
        "answer=ok".to_string()
    }

    /// The turn by which the frame at a place must have been decided, if none is altered from now on.
    fn bound(&self, place: usize) -> usize {
        let bus = bus_of(&self.records[place]);
        let before = self.records[..place].iter();
        let before = before.filter(|record| bus_of(record) == bus).count();
        self.turns + 4 * (before + 1)
    }

    fn set(&mut self, items: &str) -> String {
        let (_, record) = items.split_once(' ').expect("behind the place");
        let place = number(items, "place");
        self.records[place] = record.to_string();
        if place < self.frames.len() {
            self.last_turn = (0..self.frames.len()).map(|at| self.bound(at)).collect();
        }
        "answer=ok".to_string()
    }

    fn lent(&self) -> String {
        let records: Vec<String> = self.records[..self.length]
            .iter()
            .map(|record| {
                let owner = item(record, "owner");
                let owner = &owner[..owner.len().min(64)];
                let frame = frame(number(record, "frame_bus"), record);
                format!("{frame}/{}/{owner}", item(record, "class"))
            })
            .collect();
        let records = records.join(",");
        format!("answer=ok length={} records={records}", self.length)
    }

    /// The frames in a queue for each bus; the turns are taken from these. The gate answers for each frame, and is then as it
    /// was.
    fn serve(&mut self, items: &str, gate: &mut Gate) -> String {
        let window = can_probe::window();
        let mut queues: [VecDeque<u64>; 4] = Default::default();
        for (frame, record) in self.frames.iter().zip(&self.records) {
            queues[bus_of(record)].push_back(*frame);
        }
        let mut told = Vec::new();
        let asked = number(items, "turns");
        while told.len() < asked && !self.frames.is_empty() && self.length == 16 {
            self.last = (self.last + 1) % 4;
            let Some(next) = queues[self.last].pop_front() else {
                continue;
            };
            let record = self.take(next);
            let frame = frame(self.last, &record);
            let yes = self.allows(&record, item(items, "now"), gate);
            told.push(format!("{frame}/{yes}"));
        }
        can_probe::set_window(window);
        format!("answer=ok turns={} frames={}", told.len(), told.join(","))
    }

    /// Takes a frame out; the last record stays where it is.
    fn take(&mut self, frame: u64) -> String {
        let place = self.frames.iter().position(|other| *other == frame);
        let place = place.expect("it waits");
        let freed = self.frames.len() - 1;
        let stays = self.records[freed].clone();
        self.frames.remove(place);
        let record = self.records.remove(place);
        self.records.insert(freed, stays);
        self.turns += 1;
        let last_turn = self.last_turn.remove(place);
        assert!(self.turns <= last_turn, "decided within its turns");
        self.bounds_met += usize::from(self.turns == last_turn);
        record
    }

    /// What `allow_can_tx` answers now. An owner is no longer than the line gives it, so a long one is not cut.
    fn allows(&self, record: &str, now: &str, gate: &mut Gate) -> &'static str {
        let bus = self.last;
        let (_, rest) = record.split_once(' ').expect("behind the bus");
        let line = format!("allow_can_tx bus={bus} frame_bus={bus} {rest} now={now}");
        let reply = gate.perform(&call(&line)).to_string();
        if reply == "answer=yes signals=none" {
            "yes"
        } else {
            "no"
        }
    }
}

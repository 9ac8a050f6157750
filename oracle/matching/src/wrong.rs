//! Wrong rules, to show that the generated pairs tell each from the right ones.

use crate::logs::{self, Entry, Fault};

type Answer = fn(&[u8], &[u8]) -> String;

pub const RULES: [(&str, Answer); 9] = [
    ("an entry 50 ms earlier does not fit", |j, r| {
        matched(j, r, |from, to| within(from, to, 49))
    }),
    ("an entry 51 ms earlier fits", |j, r| {
        matched(j, r, |from, to| within(from, to, 51))
    }),
    ("an entry 1 ms later fits", |j, r| {
        matched(j, r, |from, to| from <= to + 1 && to <= from + 50)
    }),
    ("the latest entry that fits is taken", |j, r| {
        with_logs(j, r, latest)
    }),
    ("an entry serves twice", |j, r| with_logs(j, r, twice)),
    ("the recorder is read first", recorder_first),
    ("capitals are accepted", |j, r| {
        logs::answer(&j.to_ascii_lowercase(), &r.to_ascii_lowercase())
    }),
    ("a last line without byte 10 is accepted", |j, r| {
        logs::answer(&ended(j), &ended(r))
    }),
    ("513 lines are accepted", |j, r| {
        logs::answer(&without_last(j), &without_last(r))
    }),
];

fn within(from: u64, to: u64, most: u64) -> bool {
    from <= to && to - from <= most
}

/// The right faults, and another rule for two logs without one.
fn with_logs(
    journal: &[u8],
    recorder: &[u8],
    stop: fn(&[Entry], &[Entry]) -> Option<usize>,
) -> String {
    match (logs::read(journal), logs::read(recorder)) {
        (Ok(journal), Ok(recorder)) => said(stop(&journal, &recorder)),
        _ => logs::answer(journal, recorder),
    }
}

fn said(stop: Option<usize>) -> String {
    stop.map_or("answer=yes\n".into(), |n| format!("answer=no line={n}\n"))
}

/// Each frame takes the first entry that is free and fits by this rule.
fn matched(journal: &[u8], recorder: &[u8], in_time: fn(u64, u64) -> bool) -> String {
    let (Ok(sent), Ok(seen)) = (logs::read(journal), logs::read(recorder)) else {
        return logs::answer(journal, recorder);
    };
    let mut used = vec![false; sent.len()];
    let stop = seen.iter().position(|frame| {
        let fits = |e: &usize| {
            !used[*e] && sent[*e].frame == frame.frame && in_time(sent[*e].time, frame.time)
        };
        match (0..sent.len()).find(fits) {
            Some(e) => used[e] = true,
            None => return true,
        }
        false
    });
    said(stop.map(|r| r + 1))
}

fn latest(journal: &[Entry], recorder: &[Entry]) -> Option<usize> {
    let mut used = vec![false; journal.len()];
    for (r, seen) in recorder.iter().enumerate() {
        match (0..journal.len())
            .rev()
            .find(|&e| !used[e] && logs::fits(&journal[e], seen))
        {
            Some(e) => used[e] = true,
            None => return Some(r + 1),
        }
    }
    None
}

fn twice(journal: &[Entry], recorder: &[Entry]) -> Option<usize> {
    recorder
        .iter()
        .position(|seen| !journal.iter().any(|entry| logs::fits(entry, seen)))
        .map(|r| r + 1)
}

fn recorder_first(journal: &[u8], recorder: &[u8]) -> String {
    match logs::read(recorder) {
        Ok(_) => logs::answer(journal, recorder),
        Err(fault) => logs::refused("recorder", fault),
    }
}

/// A log whose last line has its byte 10.
fn ended(log: &[u8]) -> Vec<u8> {
    let mut whole = log.to_vec();
    if whole.last().is_some_and(|&byte| byte != b'\n') {
        whole.push(b'\n');
    }
    whole
}

/// A log without its line 513, if that is its last and its only fault.
fn without_last(log: &[u8]) -> Vec<u8> {
    let lines: Vec<&[u8]> = log.split_inclusive(|&b| b == b'\n').collect();
    match logs::read(log) {
        Err(Fault::TooManyLines) if lines.len() == 513 => lines[..512].concat(),
        _ => log.to_vec(),
    }
}

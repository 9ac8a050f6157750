//! Logs as document 02 (W-213) describes them: lines, the first fault, and a matching by augmenting paths.

#[derive(Clone, PartialEq, Eq)]
pub struct Frame {
    pub bus: u64,
    pub extended: bool,
    pub id: u64,
    pub dlc: u64,
    pub data: [u8; 8],
}

#[derive(Clone)]
pub struct Entry {
    pub time: u64,
    pub frame: Frame,
}

pub enum Fault {
    BadLine(usize),
    TimeBack(usize),
    TooManyLines,
}

pub fn line_of(entry: &Entry) -> Vec<u8> {
    let f = &entry.frame;
    let kind = if f.extended { "ext" } else { "std" };
    let data: String = f.data.iter().map(|b| format!("{b:02x}")).collect();
    format!(
        "time={} bus={} kind={kind} id={:x} dlc={} data={data}\n",
        entry.time, f.bus, f.id, f.dlc
    )
    .into_bytes()
}

/// A number in this base without leading zeros, in lower case.
fn number(text: &str, base: u32) -> Option<u64> {
    let plain = |c: char| c.is_ascii_digit() || (base == 16 && ('a'..='f').contains(&c));
    if text.is_empty() || !text.chars().all(plain) || (text.len() > 1 && text.starts_with('0')) {
        return None;
    }
    u64::from_str_radix(text, base).ok()
}

fn eight_bytes(text: &str) -> Option<[u8; 8]> {
    let plain = |c: char| c.is_ascii_digit() || ('a'..='f').contains(&c);
    if text.len() != 16 || !text.chars().all(plain) {
        return None;
    }
    let mut bytes = [0; 8];
    for (i, byte) in bytes.iter_mut().enumerate() {
        *byte = u8::from_str_radix(&text[2 * i..2 * i + 2], 16).ok()?;
    }
    Some(bytes)
}

/// The entry of a line with its byte 10.
fn entry_of(line: &[u8]) -> Option<Entry> {
    let text = std::str::from_utf8(line).ok()?.strip_suffix('\n')?;
    let words: Vec<&str> = text.split(' ').collect();
    let [time, bus, kind, id, dlc, data] = words[..] else {
        return None;
    };
    let time = number(time.strip_prefix("time=")?, 10)?;
    let bus = number(bus.strip_prefix("bus=")?, 10)?;
    let extended = match kind.strip_prefix("kind=")? {
        "std" => false,
        "ext" => true,
        _ => return None,
    };
    let id = number(id.strip_prefix("id=")?, 16)?;
    let dlc = number(dlc.strip_prefix("dlc=")?, 10)?;
    let data = eight_bytes(data.strip_prefix("data=")?)?;
    let most = if extended { 0x1FFF_FFFF } else { 0x7FF };
    if bus > 3 || dlc > 8 || id > most {
        return None;
    }
    Some(Entry {
        time,
        frame: Frame {
            bus,
            extended,
            id,
            dlc,
            data,
        },
    })
}

/// The entries of a log, or its first line at fault.
pub fn read(log: &[u8]) -> Result<Vec<Entry>, Fault> {
    let mut entries: Vec<Entry> = Vec::new();
    for (place, line) in log.split_inclusive(|&b| b == b'\n').enumerate() {
        let entry = entry_of(line).ok_or(Fault::BadLine(place + 1))?;
        if entries.last().is_some_and(|last| entry.time < last.time) {
            return Err(Fault::TimeBack(place + 1));
        }
        if place == 512 {
            return Err(Fault::TooManyLines);
        }
        entries.push(entry);
    }
    Ok(entries)
}

pub fn fits(entry: &Entry, seen: &Entry) -> bool {
    entry.frame == seen.frame && entry.time <= seen.time && seen.time - entry.time <= 50
}

/// Looks for a way to give frame `r` an entry, giving other entries to frames that have one already.
fn augment(
    r: usize,
    possible: &[Vec<usize>],
    owner: &mut [Option<usize>],
    visited: &mut [bool],
) -> bool {
    for &e in &possible[r] {
        if visited[e] {
            continue;
        }
        visited[e] = true;
        if owner[e].is_none_or(|other| augment(other, possible, owner, visited)) {
            owner[e] = Some(r);
            return true;
        }
    }
    false
}

/// The number of the first recorded frame without an augmenting path, if there is one.
fn first_stop(journal: &[Entry], recorder: &[Entry]) -> Option<usize> {
    let fitting = |seen: &Entry| {
        (0..journal.len())
            .filter(|&e| fits(&journal[e], seen))
            .collect()
    };
    let possible: Vec<Vec<usize>> = recorder.iter().map(fitting).collect();
    let mut owner = vec![None; journal.len()];
    (0..recorder.len())
        .find(|&r| !augment(r, &possible, &mut owner, &mut vec![false; journal.len()]))
        .map(|r| r + 1)
}

pub fn refused(log: &str, fault: Fault) -> String {
    match fault {
        Fault::BadLine(n) => format!("answer=36/BadLine log={log} line={n}\n"),
        Fault::TimeBack(n) => format!("answer=37/TimeBack log={log} line={n}\n"),
        Fault::TooManyLines => format!("answer=38/TooManyLines log={log}\n"),
    }
}

pub fn answer(journal: &[u8], recorder: &[u8]) -> String {
    let journal = match read(journal) {
        Ok(entries) => entries,
        Err(fault) => return refused("journal", fault),
    };
    let recorder = match read(recorder) {
        Ok(entries) => entries,
        Err(fault) => return refused("recorder", fault),
    };
    match first_stop(&journal, &recorder) {
        None => "answer=yes\n".into(),
        Some(n) => format!("answer=no line={n}\n"),
    }
}

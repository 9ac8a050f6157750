//! Pairs of logs with many equal frames, times in steps around 0, 50 and 51 ms, and damaged lines.

use crate::logs::{Entry, Frame, line_of};

/// A generator by Marsaglia's xorshift; the same seed gives the same pairs.
pub struct Random(u64);

impl Random {
    pub fn new(seed: u64) -> Self {
        Random(seed.wrapping_mul(0x9E37_79B9_7F4A_7C15) | 1)
    }

    fn next(&mut self) -> u64 {
        self.0 ^= self.0 << 13;
        self.0 ^= self.0 >> 7;
        self.0 ^= self.0 << 17;
        self.0
    }

    fn below(&mut self, n: usize) -> usize {
        (self.next() % n as u64) as usize
    }

    fn pick<T: Clone>(&mut self, from: &[T]) -> T {
        from[self.below(from.len())].clone()
    }
}

const STEPS: [u64; 12] = [0, 0, 0, 1, 2, 10, 24, 25, 26, 49, 50, 51];

/// Frames that differ in one part each.
fn alphabet(random: &mut Random) -> Vec<Frame> {
    let first = Frame {
        bus: 0,
        extended: false,
        id: 0x7FF,
        dlc: 8,
        data: [0, 1, 2, 3, 0xAB, 0xCD, 0xEF, 0xFF],
    };
    let mut other_data = first.clone();
    other_data.data[7] = 0xFE;
    let all = [
        first.clone(),
        Frame {
            extended: true,
            ..first.clone()
        },
        Frame {
            bus: 3,
            ..first.clone()
        },
        Frame {
            dlc: 0,
            ..first.clone()
        },
        Frame {
            extended: true,
            id: 0x1FFF_FFFF,
            ..first.clone()
        },
        Frame { id: 0, ..first },
        other_data,
    ];
    let count = 1 + random.below(3);
    (0..count).map(|_| random.pick(&all)).collect()
}

fn lines(random: &mut Random) -> usize {
    match random.below(40) {
        0 => 512,
        1 => 513,
        2 => 500 + random.below(14),
        3..=8 => random.below(80),
        _ => random.below(14),
    }
}

/// Entries with times that do not fall, from a start that is small or near the largest.
fn journal(random: &mut Random, frames: &[Frame], count: usize) -> Vec<Entry> {
    let room = 60 * (count as u64 + 2);
    let mut time = random.pick(&[0, 0, 1, 100, 1_699_999_999_999, u64::MAX - room]);
    let mut entries = Vec::new();
    for _ in 0..count {
        entries.push(Entry {
            time,
            frame: random.pick(frames),
        });
        time += random.pick(&STEPS);
    }
    entries
}

/// What a recorder sees of them: most of them some ms later, a few that nobody sent.
fn recorder(random: &mut Random, frames: &[Frame], sent: &[Entry], honest: bool) -> Vec<Entry> {
    let mut seen = Vec::new();
    for entry in sent {
        if random.below(5) == 0 {
            continue;
        }
        let late = if honest {
            random.below(51) as u64
        } else {
            random.pick(&STEPS)
        };
        seen.push(Entry {
            time: entry.time + late,
            frame: entry.frame.clone(),
        });
        if !honest && random.below(12) == 0 {
            seen.push(Entry {
                time: entry.time + random.pick(&STEPS),
                frame: random.pick(frames),
            });
        }
    }
    seen.sort_by_key(|entry| entry.time);
    seen
}

fn text(entries: &[Entry]) -> Vec<u8> {
    entries.iter().flat_map(line_of).collect()
}

/// Values that a line may not have, and byte 10 where it may not stand.
const WRONG: [(&str, &str); 24] = [
    ("time=", "time=0"),
    ("time=", "time= "),
    ("time=", "Time="),
    ("time=", "time=18446744073709551616"),
    ("time=", "time=+"),
    ("bus=0", "bus=4"),
    ("bus=0", "bus=00"),
    ("bus=0", "bus="),
    ("kind=std", "kind=ext"),
    ("kind=ext", "kind=std"),
    ("kind=std", "kind=STD"),
    ("id=7ff", "id=7FF"),
    ("id=7ff", "id=07ff"),
    ("id=7ff", "id=800"),
    ("id=1fffffff", "id=20000000"),
    ("id=0", "id="),
    ("dlc=8", "dlc=9"),
    ("dlc=8", "dlc=08"),
    ("dlc=0", "dlc=-0"),
    ("data=", "data=0"),
    ("data=00", "data="),
    ("abcdef", "ABCDEF"),
    (" ", "  "),
    ("\n", "\r\n"),
];

/// Changes one line, or one byte, or the end.
fn damage(random: &mut Random, log: &mut Vec<u8>) {
    if log.is_empty() {
        *log = random.pick(&[b"\n".to_vec(), b" ".to_vec(), b"time=1".to_vec()]);
        return;
    }
    let at = random.below(log.len());
    match random.below(8) {
        0 => drop(log.pop()),
        1 => log[at] = random.next() as u8,
        2 => drop(log.remove(at)),
        3 => log.insert(at, random.pick(b"0 =\n1aA\t")),
        4 => log.truncate(at),
        _ => replace_from(random, log, at),
    }
}

/// Puts a wrong value into the first line behind `at` that has the right one.
fn replace_from(random: &mut Random, log: &mut Vec<u8>, at: usize) {
    let (right, wrong) = random.pick(&WRONG);
    if let Some(place) = log[at..]
        .windows(right.len())
        .position(|part| part == right.as_bytes())
    {
        let place = at + place;
        log.splice(place..place + right.len(), wrong.bytes());
    }
}

/// A journal and a recorder.
pub fn pair(random: &mut Random) -> (Vec<u8>, Vec<u8>) {
    let frames = alphabet(random);
    let count = lines(random);
    let sent = journal(random, &frames, count);
    let honest = random.below(3) == 0;
    let mut seen = recorder(random, &frames, &sent, honest);
    if random.below(12) == 0 {
        let own = lines(random);
        seen = journal(random, &frames, own);
    }
    if random.below(20) == 0 && seen.len() > 1 {
        let at = random.below(seen.len() - 1);
        seen.swap(at, at + 1);
    }
    let (mut left, mut right) = (text(&sent), text(&seen));
    if random.below(5) == 0 {
        damage(random, &mut left);
    }
    if random.below(5) == 0 {
        damage(random, &mut right);
    }
    (left, right)
}

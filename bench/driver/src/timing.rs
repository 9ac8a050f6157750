//! Alternating rounds of two pieces of work, and the processor time that they took.

/// Seconds of one turn, round by round, of the proved side and of the other.
pub struct Pair {
    pub proved: Vec<f64>,
    pub other: Vec<f64>,
}

/// How long a round of one side lasts at least, in seconds, and how many rounds there are.
#[derive(Clone, Copy)]
pub struct Plan {
    pub round: f64,
    pub rounds: usize,
}

/// Runs both sides in turn, each for the same number of turns, after both gave the same sum.
pub fn alternate(plan: Plan, proved: &dyn Fn(u64) -> u32, other: &dyn Fn(u64) -> u32) -> Pair {
    assert_eq!(proved(2500), other(2500), "both sides give the same sum");
    let turns = turns_for(plan, proved).max(turns_for(plan, other));
    let mut pair = Pair {
        proved: Vec::new(),
        other: Vec::new(),
    };
    for round in 0..plan.rounds {
        // Which side goes first changes from round to round.
        if round % 2 == 0 {
            pair.proved.push(turn(proved, turns));
            pair.other.push(turn(other, turns));
        } else {
            pair.other.push(turn(other, turns));
            pair.proved.push(turn(proved, turns));
        }
    }
    pair
}

/// Rounds of the proved side by itself.
pub fn alone(plan: Plan, proved: &dyn Fn(u64) -> u32) -> Vec<f64> {
    let turns = turns_for(plan, proved);
    (0..plan.rounds).map(|_| turn(proved, turns)).collect()
}

#[repr(C)]
struct Time {
    seconds: i64,
    nanoseconds: i64,
}

unsafe extern "C" {
    fn clock_gettime(clock: i32, time: *mut Time) -> i32;
}

/// Seconds that this process had a processor: another process that waits for it does not count.
fn processor_time() -> f64 {
    const PROCESS: i32 = 2;
    let mut time = Time {
        seconds: 0,
        nanoseconds: 0,
    };
    // SAFETY: the struct is that of the C library on 64-bit Linux.
    let status = unsafe { clock_gettime(PROCESS, &mut time) };
    assert_eq!(status, 0, "the clock of the process can be read");
    time.seconds as f64 + time.nanoseconds as f64 * 1e-9
}

/// Seconds of one turn.
fn turn(side: &dyn Fn(u64) -> u32, turns: u64) -> f64 {
    let start = processor_time();
    std::hint::black_box(side(turns));
    (processor_time() - start) / turns as f64
}

fn turns_for(plan: Plan, side: &dyn Fn(u64) -> u32) -> u64 {
    let mut turns = 1000;
    while turn(side, turns) * (turns as f64) < plan.round {
        turns *= 2;
    }
    turns
}

pub fn best(times: &[f64]) -> f64 {
    times.iter().copied().fold(f64::INFINITY, f64::min)
}

pub fn median(mut values: Vec<f64>) -> f64 {
    values.sort_by(f64::total_cmp);
    values[values.len() / 2]
}

impl Pair {
    /// The ratio of the best rounds.
    pub fn ratio(&self) -> f64 {
        best(&self.proved) / best(&self.other)
    }

    /// The median of the rounds' ratios.
    pub fn middle(&self) -> f64 {
        median(self.proved.iter().zip(&self.other).map(|(p, o)| p / o).collect())
    }

    /// What is left of each side's rounds without those of another pair.
    pub fn without(&self, part: &Pair) -> Pair {
        let rest = |all: &[f64], part: &[f64]| vec![best(all) - best(part)];
        Pair {
            proved: rest(&self.proved, &part.proved),
            other: rest(&self.other, &part.other),
        }
    }
}

//! Shows that generated scripts tell every wrong rule from the right ones: for each, the first line that differs.

use oracle::calls::{Call, parse};
use oracle::gate::Gate;
use oracle::generate::{Options, script};
use oracle::wrong::{self, Wrong};
use std::process::ExitCode;

const CALLS_OF_A_SCRIPT: usize = 20_000;

fn main() -> ExitCode {
    let scripts: u64 = match std::env::args().nth(1).map(|text| text.parse()) {
        Some(Ok(scripts)) => scripts,
        None => 5,
        Some(Err(_)) => {
            eprintln!("usage: tell [SCRIPTS]");
            return ExitCode::from(2);
        }
    };
    let runs: Vec<Run> = (1..=scripts).map(Run::new).collect();
    let mut missed = 0;
    for wrong in wrong::all() {
        match runs.iter().find_map(|run| run.first_difference(wrong)) {
            Some(place) => println!("{:<26} {place} ({})", wrong.name, wrong.what),
            None if wrong.same => {
                println!(
                    "{:<26} is right with these settings ({})",
                    wrong.name, wrong.what
                );
            }
            None => {
                missed += 1;
                println!("{:<26} NOT TOLD APART ({})", wrong.name, wrong.what);
            }
        }
    }
    println!(
        "{} wrong rules, {missed} not told apart",
        wrong::all().len()
    );
    if missed == 0 {
        ExitCode::SUCCESS
    } else {
        ExitCode::FAILURE
    }
}

/// A script and what the right rules print for it.
struct Run {
    seed: u64,
    calls: Vec<Call>,
    right: Vec<String>,
}

impl Run {
    fn new(seed: u64) -> Self {
        let options = Options {
            counters: true,
            ..Options::default()
        };
        let lines = script(seed, CALLS_OF_A_SCRIPT, options).lines;
        let calls: Vec<Call> = lines
            .iter()
            .map(|line| match parse(line) {
                Ok(Some(call)) => call,
                _ => panic!("a generated line is a call"),
            })
            .collect();
        let right = lines_of(&calls, None).collect();
        Self { seed, calls, right }
    }

    fn first_difference(&self, wrong: Wrong) -> Option<String> {
        let differs = lines_of(&self.calls, Some(wrong))
            .zip(&self.right)
            .position(|(wrong, right)| wrong != *right)?;
        let call = self.calls[differs].name();
        Some(format!("seed {} line {} {call}", self.seed, differs + 1))
    }
}

/// What is printed for each call.
fn lines_of(calls: &[Call], wrong: Option<Wrong>) -> impl Iterator<Item = String> {
    let mut gate = Gate::least();
    calls.iter().map(move |call| match call {
        Call::State {} => gate.show_state(),
        call => wrong::perform(&mut gate, call, wrong).to_string(),
    })
}

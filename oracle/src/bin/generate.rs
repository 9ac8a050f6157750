//! Writes a random script for the settings that the source was compiled with. A comment at its end says how many openings
//! of a probe window were left out, and with --one-car another how many successes, approvals and records.

use oracle::generate::{OneCar, Options, script};
use std::io::{self, BufWriter, Write};
use std::process::ExitCode;

const USAGE: &str = "usage: generate --seed S --calls N [--settings digits,tries,session,cooldown,keep] [--no-counters] [--states] [--texts] [--one-car]";

fn main() -> ExitCode {
    let mut seed = 1;
    let mut calls = 1000;
    let mut options = Options {
        counters: true,
        ..Options::default()
    };
    let mut arguments = std::env::args().skip(1);
    while let Some(argument) = arguments.next() {
        let understood = match argument.as_str() {
            "--seed" => set(&mut seed, arguments.next()),
            "--calls" => set(&mut calls, arguments.next()),
            "--settings" => match arguments.next() {
                Some(asked) if asked == built() => true,
                Some(_) => {
                    eprintln!("generate: the source was compiled with {}", built());
                    return ExitCode::from(3);
                }
                None => false,
            },
            "--no-counters" => {
                options.counters = false;
                true
            }
            "--states" => {
                options.states = true;
                true
            }
            "--texts" => {
                options.texts = true;
                true
            }
            "--one-car" => {
                options.one_car = true;
                true
            }
            _ => false,
        };
        if !understood {
            eprintln!("{USAGE}");
            return ExitCode::from(2);
        }
    }
    let mut out = BufWriter::new(io::stdout().lock());
    let made = script(seed, calls, options);
    let mut last = vec![format!(
        "# W-201: {} of {} openings left out",
        made.left_out, made.openings
    )];
    if options.one_car {
        last.push(one_car(&made.one_car));
    }
    for line in made.lines.iter().chain(&last) {
        if writeln!(out, "{line}").is_err() {
            return ExitCode::FAILURE;
        }
    }
    match out.flush() {
        Ok(()) => ExitCode::SUCCESS,
        Err(_) => ExitCode::FAILURE,
    }
}

fn one_car(of: &OneCar) -> String {
    format!(
        "# W-207: {} of {} successes, {} of {} approvals, {} of {} records left out",
        of.successes.left_out,
        of.successes.chosen,
        of.approvals.left_out,
        of.approvals.chosen,
        of.records.left_out,
        of.records.chosen
    )
}

fn set<T: std::str::FromStr>(place: &mut T, value: Option<String>) -> bool {
    match value.and_then(|value| value.parse().ok()) {
        Some(value) => {
            *place = value;
            true
        }
        None => false,
    }
}

/// The settings of the build, as `--settings` names them.
fn built() -> String {
    format!(
        "{},{},{},{},{}",
        core_interface::CODE_LENGTH,
        core_interface::MAX_CODE_ATTEMPTS,
        core_interface::VALIDATION_SESSION_MS,
        core_interface::VALIDATION_COOLDOWN_MS,
        core_interface::VALIDATION_RESULT_KEEP_MS
    )
}

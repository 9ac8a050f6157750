//! Compares a program that holds a journal against a recorder with the matcher of `logs`, on generated pairs of logs.
//!
//! usage: matching OTHER PAIRS [SEED]
//!        matching --wrong PAIRS [SEED]
//! OTHER is a program that takes the paths of both logs. Exit status: 0 no difference, 1 a difference, 2 nothing was compared. With
//! --wrong: 0 if the pairs tell each wrong rule from the right ones, 1 if not.

mod generate;
mod logs;
mod wrong;

use std::collections::BTreeMap;
use std::path::Path;
use std::process::{Command, ExitCode};

fn fail(what: &str) -> ExitCode {
    eprintln!("matching: {what}");
    ExitCode::from(2)
}

/// What the other program prints for the two logs, which are left in `folder`.
fn other_answer(
    other: &str,
    folder: &Path,
    journal: &[u8],
    recorder: &[u8],
) -> std::io::Result<String> {
    let paths = [folder.join("journal.log"), folder.join("recorder.log")];
    std::fs::write(&paths[0], journal)?;
    std::fs::write(&paths[1], recorder)?;
    let output = Command::new(other).args(&paths).output()?;
    Ok(String::from_utf8_lossy(&output.stdout).into_owned())
}

/// The answer without its numbers.
fn sort_of(answer: &str) -> String {
    let words: Vec<&str> = answer
        .split_whitespace()
        .filter(|word| !word.starts_with("line="))
        .collect();
    words.join(" ")
}

/// The kinds of answer that a run of thousands of pairs must have met.
const MET: [&str; 8] = [
    "answer=yes",
    "answer=no",
    "answer=36/BadLine log=journal",
    "answer=36/BadLine log=recorder",
    "answer=37/TimeBack log=journal",
    "answer=37/TimeBack log=recorder",
    "answer=38/TooManyLines log=journal",
    "answer=38/TooManyLines log=recorder",
];

/// Says of each wrong rule at which pair it is told.
fn tell_wrong(pairs: u64, seed: u64) -> ExitCode {
    let mut untold = 0;
    for (rule, answer) in wrong::RULES {
        let mut random = generate::Random::new(seed);
        let told = (1..=pairs).find(|_| {
            let (journal, recorder) = generate::pair(&mut random);
            answer(&journal, &recorder) != logs::answer(&journal, &recorder)
        });
        match told {
            Some(pair) => println!("told at pair {pair}: {rule}"),
            None => {
                println!("NOT TOLD by {pairs} pairs: {rule}");
                untold += 1;
            }
        }
    }
    ExitCode::from(u8::from(untold > 0))
}

fn main() -> ExitCode {
    let arguments: Vec<String> = std::env::args().skip(1).collect();
    let (Some(other), Some(Ok(pairs))) = (
        arguments.first(),
        arguments.get(1).map(|n| n.parse::<u64>()),
    ) else {
        return fail("usage: matching OTHER PAIRS [SEED]");
    };
    let Ok(seed) = arguments.get(2).map_or(Ok(1), |n| n.parse::<u64>()) else {
        return fail("SEED is a number");
    };
    if other == "--wrong" {
        return tell_wrong(pairs, seed);
    }
    let folder = std::env::temp_dir().join(format!("matching.{}", std::process::id()));
    if std::fs::create_dir_all(&folder).is_err() {
        return fail("no folder for the logs");
    }
    let mut random = generate::Random::new(seed);
    let mut met: BTreeMap<String, u64> = BTreeMap::new();
    for pair in 1..=pairs {
        let (journal, recorder) = generate::pair(&mut random);
        let wanted = logs::answer(&journal, &recorder);
        let got = match other_answer(other, &folder, &journal, &recorder) {
            Ok(got) => got,
            Err(error) => return fail(&format!("{other}: {error}")),
        };
        if got != wanted {
            println!(
                "pair {pair} of seed {seed} differs; both logs are in {}",
                folder.display()
            );
            println!(
                "wanted: {}got:    {}",
                wanted,
                if got.is_empty() { "nothing\n" } else { &got }
            );
            return ExitCode::from(1);
        }
        *met.entry(sort_of(&wanted)).or_default() += 1;
    }
    let _ = std::fs::remove_dir_all(&folder);
    let missing: Vec<&&str> = MET
        .iter()
        .filter(|kind| !met.contains_key(**kind))
        .collect();
    println!("{pairs} pairs of logs, no difference");
    met.iter()
        .for_each(|(kind, count)| println!("{count:8} {kind}"));
    if pairs >= 5000 && !missing.is_empty() {
        println!("never met: {missing:?}");
        return ExitCode::from(1);
    }
    ExitCode::SUCCESS
}

//! Reads a script on standard input for which the oracle and the program OTHER print different lines, and prints a part
//! of it, as short as was found, for which they still do.

use oracle::replay::{Options, replay};
use std::io::{self, Read, Write};
use std::process::{Command, ExitCode, Stdio};

fn main() -> ExitCode {
    let mut script = String::new();
    if io::stdin().read_to_string(&mut script).is_err() {
        return ExitCode::FAILURE;
    }
    let Ok(other) = std::env::var("OTHER") else {
        eprintln!("shrink: OTHER is not set");
        return ExitCode::from(2);
    };
    let mut lines: Vec<&str> = script.lines().collect();
    if !differ(&lines, &other) {
        eprintln!("shrink: the two print the same");
        return ExitCode::FAILURE;
    }
    // Leaves out ever smaller parts, as long as the difference stays.
    let mut part = lines.len().div_ceil(2);
    loop {
        let before = lines.len();
        let mut at = 0;
        while at < lines.len() {
            let mut fewer = lines.clone();
            fewer.drain(at..(at + part).min(lines.len()));
            if differ(&fewer, &other) {
                lines = fewer;
            } else {
                at += part;
            }
        }
        if part == 1 && lines.len() == before {
            break;
        }
        part = part.div_ceil(2);
    }
    for line in lines {
        println!("{line}");
    }
    ExitCode::SUCCESS
}

fn differ(lines: &[&str], other: &str) -> bool {
    let mut script = lines.join("\n");
    script.push('\n');
    let mut right = Vec::new();
    let options = Options::default();
    // A script that the oracle does not support shows no difference.
    if replay(script.as_bytes(), &mut right, &options).is_err() {
        return false;
    }
    run_other(&script, other).is_ok_and(|printed| printed != right)
}

fn run_other(script: &str, other: &str) -> io::Result<Vec<u8>> {
    let mut child = Command::new("sh")
        .args(["-c", other])
        .stdin(Stdio::piped())
        .stdout(Stdio::piped())
        .stderr(Stdio::null())
        .spawn()?;
    let mut stdin = child.stdin.take().expect("it is piped");
    stdin.write_all(script.as_bytes())?;
    drop(stdin);
    Ok(child.wait_with_output()?.stdout)
}

//! Reads a script on standard input, runs it on the compiled source and prints a line for each call (docs/REPLAY.md).

use oracle::replay::{Options, Stopped, replay};
use oracle::wrong;
use std::io::{self, BufWriter};
use std::process::ExitCode;

fn main() -> ExitCode {
    let mut options = Options::default();
    let mut arguments = std::env::args().skip(1);
    while let Some(argument) = arguments.next() {
        match argument.as_str() {
            "--state" => options.states = true,
            "--bare" => options.bare = true,
            "--cars" => options.cars = true,
            "--wrong" => match arguments.next().and_then(|name| wrong::by_name(&name)) {
                Some(wrong) => options.wrong = Some(wrong),
                None => {
                    let names: Vec<&str> = wrong::all().iter().map(|wrong| wrong.name).collect();
                    eprintln!("oracle: the wrong rules are {}", names.join(" "));
                    return ExitCode::from(2);
                }
            },
            _ => {
                eprintln!("usage: oracle [--state] [--bare | --cars] [--wrong NAME] < script");
                return ExitCode::from(2);
            }
        }
    }
    let out = BufWriter::new(io::stdout().lock());
    match replay(io::stdin().lock(), out, &options) {
        Ok(()) => ExitCode::SUCCESS,
        Err(Stopped::Io(error)) => {
            eprintln!("oracle: {error}");
            ExitCode::FAILURE
        }
        Err(Stopped::Unsupported(why)) => {
            eprintln!("oracle: {why}");
            ExitCode::from(3)
        }
    }
}

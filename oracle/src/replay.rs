//! Runs a script line by line.

use crate::calls::{Call, LineError, parse};
use crate::cars_noted::{noted, of_state};
use crate::gate::Gate;
use crate::host::Settings;
use crate::previews_noted::PreviewsNoted;
use crate::saves_noted::SavesNoted;
use crate::waiting_noted::WaitingNoted;
use crate::wrong::{self, Wrong};
use std::io::{self, BufRead, Write};

#[derive(Clone, Copy, Default)]
pub struct Options {
    /// A state line after every call.
    pub states: bool,
    pub wrong: Option<Wrong>,
    /// Without a shelf: the source keeps its one car.
    pub bare: bool,
    /// Behind each line what the call did to the cars of the store, to a save and to waiting frames, or would do.
    pub cars: bool,
}

pub enum Stopped {
    Io(io::Error),
    /// The script asks for settings that the source was not compiled with.
    Unsupported(String),
}

impl From<io::Error> for Stopped {
    fn from(error: io::Error) -> Self {
        Self::Io(error)
    }
}

/// The most bytes of a line.
const LONGEST_LINE: usize = 16_384;

/// From a comment that begins so up to the next `new` the source is not run.
const NOT_THE_SOURCE: &[u8] = b"# not the source:";

/// There a comment that begins so stands behind each call and has what the call gives, written by hand.
const GIVES: &[u8] = b"#: ";

pub fn replay(script: impl BufRead, mut out: impl Write, options: &Options) -> Result<(), Stopped> {
    let mut gate = if options.bare {
        Gate::least_bare()
    } else {
        Gate::least()
    };
    let mut saves = SavesNoted::default();
    let mut previews = PreviewsNoted::default();
    let mut waiting = WaitingNoted::default();
    let mut passes_over = false;
    let mut awaits: Option<(usize, &'static str)> = None;
    // A line ends with byte 10 alone, and the last one also with the script.
    for (at, line) in script.split(b'\n').enumerate() {
        let number = at + 1;
        let line = line?;
        if let Some((number, name)) = awaits.take() {
            write_given(&mut out, number, name, &line)?;
            continue;
        }
        passes_over |= line.starts_with(NOT_THE_SOURCE);
        match read(&line) {
            Ok(None) => {}
            Err(error) => writeln!(out, "line={number} error={}", error.name())?,
            Ok(Some(call)) if passes_over && !matches!(call, Call::New { .. }) => {
                awaits = Some((number, call.name()));
            }
            Ok(Some(Call::State {})) => print_state(&mut out, number, &gate, options)?,
            Ok(Some(call)) => {
                passes_over = false;
                check_supported(&call, number)?;
                if options.wrong.is_none() {
                    check_awake(&gate, &call, number)?;
                }
                let (shelf, save) = (gate.shelf.clone(), gate.save.clone());
                let reply = wrong::perform(&mut gate, &call, options.wrong);
                write!(out, "line={number} call={} {reply}", call.name())?;
                end_line(&mut out, options.cars, || {
                    let cars = noted(&call, &reply, &shelf, &gate.shelf);
                    let saves = saves.items(&call, &reply, save.as_ref(), &gate);
                    let previews = previews.items(&call, &mut gate);
                    let waiting = waiting.items(&call, &reply, &mut gate);
                    [cars, saves, previews, waiting].concat()
                })?;
                if options.states {
                    print_state(&mut out, number, &gate, options)?;
                }
            }
        }
    }
    if let Some((number, name)) = awaits {
        write_given(&mut out, number, name, b"")?;
    }
    out.flush()?;
    Ok(())
}

/// What the line behind a call says that it gives, where the source is not run.
fn write_given(
    out: &mut impl Write,
    number: usize,
    name: &str,
    line: &[u8],
) -> Result<(), Stopped> {
    let Some(given) = line.strip_prefix(GIVES) else {
        return Err(Stopped::Unsupported(format!(
            "line {number}: the source is not run here, and the next line does not say what the call gives"
        )));
    };
    write!(out, "line={number} call={name} ")?;
    out.write_all(given)?;
    writeln!(out)?;
    Ok(())
}

/// Each byte of a line is a character, whatever text the bytes are.
fn read(line: &[u8]) -> Result<Option<Call>, LineError> {
    if line.len() > LONGEST_LINE {
        return Err(LineError::LineTooLong);
    }
    let line: String = line.iter().map(|&b| char::from(b)).collect();
    parse(&line)
}

fn print_state(
    out: &mut impl Write,
    number: usize,
    gate: &Gate,
    options: &Options,
) -> io::Result<()> {
    write!(out, "line={number} call=state {}", gate.show_state())?;
    end_line(out, options.cars, || of_state(&gate.shelf))
}

/// The end of a line, with further items if they are asked for.
fn end_line(
    out: &mut impl Write,
    asked: bool,
    items: impl FnOnce() -> Vec<String>,
) -> io::Result<()> {
    if asked {
        for item in items() {
            write!(out, " {item}")?;
        }
    }
    writeln!(out)
}

/// The first five settings of a gate in range are those of the build.
fn check_supported(call: &Call, number: usize) -> Result<(), Stopped> {
    match Settings::of(call) {
        Some(settings) if settings.in_range() && !settings.match_build() => {
            Err(Stopped::Unsupported(format!(
                "line {number}: unsupported settings, the source was compiled with others"
            )))
        }
        _ => Ok(()),
    }
}

/// An opening at which the source's rule and W-201's agree.
fn check_awake(gate: &Gate, call: &Call, number: usize) -> Result<(), Stopped> {
    match call {
        Call::OpenProbe { bus, now, .. } if gate.marks.rules_differ(*bus, *now) => {
            Err(Stopped::Unsupported(format!(
                "line {number}: the source's rule for an awake bus is not that of W-201 at this moment"
            )))
        }
        _ => Ok(()),
    }
}

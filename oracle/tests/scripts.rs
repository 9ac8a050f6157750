//! Generated lines are read back as they were written, and the kept cases print what was checked by hand.

use oracle::calls::parse;
use oracle::generate::{Options, script};
use oracle::host::Settings;
use oracle::replay;
use std::fs;
use std::path::Path;

#[test]
fn scripts() {
    // One test, since the gate's statics are shared.
    lines_are_read_back();
    cases_print_what_was_checked();
}

fn lines_are_read_back() {
    let options = Options {
        counters: true,
        states: true,
        ..Options::default()
    };
    let with_texts = Options {
        texts: true,
        ..options
    };
    let lines = script(3, 20_000, options).lines;
    let others = script(3, 20_000, with_texts).lines;
    assert_ne!(lines, others);
    assert_eq!(lines.len(), others.len());
    for (line, other) in lines.iter().zip(&others) {
        let call = parse(line).expect("a call").expect("no comment");
        assert_eq!(&call.to_string(), line);
        assert_eq!(parse(other), Ok(Some(call)));
    }
}

fn cases_print_what_was_checked() {
    let folder = Path::new(env!("CARGO_MANIFEST_DIR")).join("cases");
    for entry in fs::read_dir(folder).expect("the cases") {
        let path = entry.expect("a case").path();
        if path.extension().is_none_or(|kind| kind != "script") {
            continue;
        }
        let text = fs::read_to_string(&path).expect("a script");
        if !fits_the_build(&text) {
            continue;
        }
        let mut printed = Vec::new();
        let options = replay::Options::default();
        assert!(replay::replay(text.as_bytes(), &mut printed, &options).is_ok());
        let checked = fs::read(path.with_extension("out")).expect("what was checked");
        assert_eq!(
            String::from_utf8_lossy(&printed),
            String::from_utf8_lossy(&checked),
            "{}",
            path.display()
        );
    }
}

/// Whether every gate of the script has the settings of the build, or gets 25.
fn fits_the_build(text: &str) -> bool {
    text.lines().all(|line| match parse(line) {
        Ok(Some(call)) => Settings::of(&call)
            .is_none_or(|settings| settings.match_build() || !settings.in_range()),
        _ => true,
    })
}

//! Saves of W-209, held against a plain reading of 02: the bytes that the takes hand out, joined, are what encode gave at the
//! opening, and the end is told when none is left. One test in one program, since the gate's statics are shared.

use oracle::calls::{Call, parse};
use oracle::gate::Gate;
use oracle::generate::{Options, script};

#[test]
fn joined_bytes_are_the_record_as_at_opening() {
    let options = Options {
        counters: true,
        ..Options::default()
    };
    let mut gate = Gate::least();
    // What is left of an open save, two digits for a byte, and what its takes gave so far.
    let mut left: Option<(String, String)> = None;
    let mut opened = String::new();
    let (mut ends, mut changed) = (0, 0);
    for line in script(8, 40_000, options).lines {
        let call = parse(&line).expect("a call").expect("no comment");
        if let Call::State {} = call {
            continue;
        }
        let now = encoded(&mut gate);
        let reply = gate.perform(&call).to_string();
        match &call {
            Call::New { .. } => left = None,
            Call::OpenSave {} => {
                assert_eq!(reply, "answer=ok signals=none");
                opened = now;
                left = Some((opened.clone(), String::new()));
            }
            Call::TakeSave { .. } => {
                let lent = line.split_once("output=").expect("its item").1;
                let Some((rest, joined)) = left.take() else {
                    assert_eq!(
                        reply,
                        format!("answer=31/NoSave output={lent} signals=none")
                    );
                    continue;
                };
                let (given, over) = rest.split_at(rest.len().min(lent.len()));
                let past = &lent[given.len()..];
                let end = if over.is_empty() { "yes" } else { "no" };
                let taken = given.len() / 2;
                let told =
                    format!("answer=ok taken={taken} end={end} output={given}{past} signals=none");
                assert_eq!(reply, told);
                let joined = joined + given;
                if over.is_empty() {
                    assert_eq!(joined, opened);
                    ends += 1;
                    changed += usize::from(now != opened);
                } else {
                    left = Some((over.to_string(), joined));
                }
            }
            _ => {}
        }
        let open = left.as_ref().map(|(rest, _)| rest.len() / 2);
        let there = gate.save.as_ref().map(|save| save.rest().len());
        assert_eq!(there, open, "{line}");
    }
    assert!(ends > 200 && changed > 50, "{ends} {changed}");
}

/// What encode answers now, which changes nothing.
fn encoded(gate: &mut Gate) -> String {
    let reply = gate.perform(&Call::Encode {}).to_string();
    let record = reply
        .strip_prefix("answer=ok record=")
        .and_then(|rest| rest.strip_suffix(" signals=none"));
    record.expect("a record").to_string()
}

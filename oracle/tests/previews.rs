//! Previews of W-203, held against the operations: each tells what the operation then gives, and leaves the gate as it was. One
//! test in one program, since the gate's statics are shared.

use oracle::calls::{Call, parse};
use oracle::gate::Gate;
use oracle::generate::{Options, script};

/// The operation that is previewed is run behind it, which no later line of the script minds.
#[test]
fn previews_tell_what_the_operation_gives() {
    let options = Options {
        counters: true,
        ..Options::default()
    };
    let lines = script(9, 40_000, options).lines;
    let mut gate = Gate::least();
    let (mut previews, mut kept) = (0, 0);
    for line in lines {
        let call = parse(&line).expect("a call").expect("no comment");
        if let Call::State {} = call {
            continue;
        }
        let before = gate.show_state();
        let reply = gate.perform(&call).to_string();
        let Some(operation) = line.strip_prefix("preview_") else {
            continue;
        };
        assert_eq!(gate.show_state(), before, "{line}");
        let operation = parse(operation).expect("a call").expect("no comment");
        let given = gate.perform(&operation).to_string();
        let told = given.split(" signals=").next().expect("the answer");
        let after = gate.show_state();
        let lists = between(&after, " paired=", " peer=");
        let bytes = encoded(&mut gate).len() / 2;
        assert_eq!(
            reply,
            format!("{told} {lists} record_bytes={bytes} signals=none"),
            "{line}"
        );
        previews += 1;
        kept += usize::from(before == after);
    }
    assert!(previews > 500 && kept < previews);
}

/// The items of a state line from one on up to another.
fn between<'a>(state: &'a str, from: &str, to: &str) -> &'a str {
    let start = state.find(from).expect("an item") + 1;
    let end = state.find(to).expect("an item");
    &state[start..end]
}

/// What encode answers now, which changes nothing.
fn encoded(gate: &mut Gate) -> String {
    let reply = gate.perform(&Call::Encode {}).to_string();
    between(&format!(" {reply}"), " record=", " signals=").replace("record=", "")
}

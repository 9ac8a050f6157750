//! A new gate has the statics that the source starts with. One test in one program, since it looks at them first.

use oracle::calls::parse;
use oracle::gate::Gate;
use oracle::generate::{Options, script};
use oracle::state::show_statics;

#[test]
fn new_gates_have_the_starting_statics() {
    let at_first = show_statics();
    assert!(core_interface::current_validation_challenge().is_none());
    let mut gate = Gate::least();
    assert_eq!(show_statics(), at_first);

    let options = Options {
        counters: true,
        ..Options::default()
    };
    let mut news = 0;
    let lines = script(7, 5_000, options).lines;
    for line in &lines {
        let call = parse(line).expect("a call").expect("no comment");
        if call.name() == "state" {
            continue;
        }
        let reply = gate.perform(&call);
        if call.name() == "new" {
            news += 1;
            assert_eq!(show_statics(), at_first);
            assert_eq!(reply.signals, Default::default());
            assert!(core_interface::current_validation_challenge().is_none());
        }
    }
    assert!(news > 5);
}

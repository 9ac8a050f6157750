//! The openings that are left out are those at which the source's rule for an awake bus is not that of W-201. One test in
//! one program, since the gate's statics are shared.

use oracle::answer::{Answer, Refusal};
use oracle::calls::{Call, parse};
use oracle::gate::Gate;
use oracle::marks::Marks;

#[test]
fn openings_left_out_are_those_at_which_the_rules_differ() {
    let mut differ = 0;
    for mark in moments() {
        for now in moments() {
            let awake = mark <= now && now - mark <= 1_000;
            let mut marks = Marks::default();
            marks.hear(2, mark);
            let differs = source_awake(mark, now) != awake;
            assert_eq!(marks.rules_differ(2, now), differs, "{mark} {now}");
            differ += usize::from(differs);
        }
    }
    assert!(differ > 100);
    assert!(!Marks::default().rules_differ(2, 0));
}

/// Moments around 0, 2^32, 2^33 and 2^64.
fn moments() -> Vec<u64> {
    let steps = [0, 1, 2, 500, 999, 1_000, 1_001, 1_002, 5_000];
    let points = [0, 1 << 32, 1 << 33, u64::MAX];
    let beside = points.iter().flat_map(|point: &u64| {
        steps
            .iter()
            .flat_map(|step| [point.saturating_sub(*step), point.saturating_add(*step)])
    });
    beside.collect()
}

/// Whether the source opens a window at `now` on a bus that was heard at `mark`.
fn source_awake(mark: u64, now: u64) -> bool {
    let mut gate = Gate::least();
    let open = format!("open_identity_probe bus=2 now={now} frame=std/7df/0000000000000000");
    let opened = [
        "confirm_car_identity",
        &format!("heard_can_frame bus=2 now={mark}"),
        &open,
    ]
    .map(|line| gate.perform(&call(line)).answer)[2];
    assert!([Answer::Ok, Answer::Refused(Refusal::BusAsleep)].contains(&opened));
    opened == Answer::Ok
}

fn call(line: &str) -> Call {
    parse(line).expect("a call").expect("no comment")
}

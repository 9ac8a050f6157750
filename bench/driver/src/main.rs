//! Times the proved gate against the Rust source, and its digest against Rust and C, in one process. Prints ratios
//! (docs/BENCHMARKS.md): above 1 the proved side takes longer.

mod digests;
mod proved;
mod source;
mod timing;
mod work;

use timing::{Pair, Plan, alone, alternate, best};
use work::{RIGHT, WRONG, Work, bytes};

fn main() {
    let quick = std::env::args().any(|word| word == "--quick");
    let plan = Plan {
        round: if quick { 0.005 } else { 0.05 },
        rounds: if quick { 7 } else { 25 },
    };
    println!(
        "SHA-256 in Rust: {}",
        std::env::var("BENCH_SHA2").unwrap_or_else(|_| "unknown".to_string())
    );
    head("the car digest, by bytes of fingerprint");
    for size in [34, 4096] {
        digest(plan, size);
    }
    for phones in [4, 32] {
        head(&format!("calls, {phones} phones paired and validated"));
        calls(plan, &Work::with_phones(phones));
    }
}

fn head(title: &str) {
    println!("\n{title:<40} {:>7} {:>7} {:>11} {:>11}", "ratio", "median", "Rattle ns", "other ns");
}

fn line(name: &str, pair: &Pair) {
    println!(
        "{name:<40} {:>7.2} {:>7.2} {:>11.1} {:>11.1}",
        pair.ratio(),
        pair.middle(),
        best(&pair.proved) * 1e9,
        best(&pair.other) * 1e9
    );
}

fn digest(plan: Plan, size: usize) {
    let print = bytes(size);
    let proved = |n| digests::many(proved::digest, &print, n);
    for (name, other) in [("Rust", digests::rust as fn(u32, &[u8]) -> [u8; 32]), ("C", digests::c)] {
        let pair = alternate(plan, &proved, &|n| digests::many(other, &print, n));
        line(&format!("{size} bytes, against {name}"), &pair);
    }
}

fn calls(plan: Plan, work: &Work) {
    let starts = alternate(plan, &|n| proved::starts(work, n), &|n| source::starts(work, n));
    line("start", &starts);
    for (name, typed) in [("wrong", WRONG), ("right", RIGHT)] {
        let both = alternate(
            plan,
            &|n| proved::submits(work, typed, n),
            &|n| source::submits(work, typed, n),
        );
        line(&format!("start, then submit a {name} code"), &both);
        line(&format!("submit, {name} (the same without start)"), &both.without(&starts));
    }
    for (name, command) in [("platform", false), ("command", true)] {
        let pair = alternate(
            plan,
            &|n| proved::allows(work, command, n),
            &|n| source::allows(work, command, n),
        );
        line(&format!("allow a {name} frame"), &pair);
    }
    for (name, command) in [("platform", false), ("command", true)] {
        let sends = alternate(
            plan,
            &|n| proved::sends(work, command, n),
            &|n| source::sends(work, command, n),
        );
        line(&format!("send a {name} frame"), &sends);
        let both = alternate(
            plan,
            &|n| proved::serves(work, command, n),
            &|n| source::serves(work, command, n),
        );
        line("send, then serve it", &both);
        line("serve (the same without send)", &both.without(&sends));
    }
    let pair = alternate(plan, &|n| proved::restores(work, n), &|n| source::restores(work, n));
    line("restore", &pair);
    let pair = alternate(plan, &|n| proved::encodes(work, n), &|n| source::encodes(work, n));
    line("encode", &pair);
    let floor = best(&alone(plan, &|n| proved::floors(work, n)));
    println!("{:<40} {:>7} {:>7} {:>11.1} {:>11}", "floor", "-", "-", floor * 1e9, "-");
}

//! Wrong rules about typed codes: what is trimmed, what is dropped, what is no text.

use super::{Wrong, run, wrong};
use crate::answer::Reply;
use crate::calls::Call;
use crate::gate::Gate;
use core_interface::CODE_LENGTH;

pub const RULES: &[Wrong] = &[
    wrong(
        "no-trim",
        "blanks around a typed code make it wrong",
        no_trim,
    ),
    wrong(
        "trim-inside",
        "any blank inside a typed code is dropped",
        trim_inside,
    )
    .same_if(CODE_LENGTH == 1),
    wrong(
        "no-groups",
        "a blank or a hyphen between two digits makes the code wrong",
        no_groups,
    )
    .same_if(CODE_LENGTH == 1),
    wrong(
        "hyphen-kept",
        "a hyphen between two digits is not dropped",
        hyphen_kept,
    )
    .same_if(CODE_LENGTH == 1),
    wrong(
        "one-separator",
        "only one blank or hyphen of a typed code is dropped",
        one_separator,
    )
    .same_if(CODE_LENGTH < 3),
    wrong(
        "alike-separators",
        "blanks and hyphens in one typed code make it wrong",
        alike_separators,
    )
    .same_if(CODE_LENGTH < 3),
    wrong(
        "two-in-a-row",
        "two or more blanks and hyphens between two digits are dropped",
        two_in_a_row,
    )
    .same_if(CODE_LENGTH == 1),
    wrong(
        "dropped-at-end",
        "a hyphen at an end of a typed code is dropped",
        dropped_at_end,
    ),
    wrong(
        "any-dash",
        "another dash between two digits is dropped",
        any_dash,
    )
    .same_if(CODE_LENGTH == 1),
    wrong(
        "not-text-ticks",
        "a text that is none ticks",
        not_text_ticks,
    ),
];

/// Submits another text in place of the typed one.
fn submit_as(gate: &mut Gate, call: &Call, change: fn(&str) -> Option<String>) -> Reply {
    if let Call::Submit { phone, code, now } = call
        && let Ok(text) = std::str::from_utf8(code)
        && let Some(text) = change(text)
    {
        let changed = Call::Submit {
            phone: phone.clone(),
            code: text.into_bytes(),
            now: *now,
        };
        return run(gate, &changed);
    }
    run(gate, call)
}

/// A text that is never right.
fn never_right() -> Option<String> {
    Some("x".to_string())
}

pub fn ascii_trim(gate: &mut Gate, call: &Call) -> Reply {
    submit_as(gate, call, |text| {
        let trimmed = text.trim_matches(|c: char| c.is_ascii() && c.is_whitespace());
        (trimmed != text.trim()).then(never_right)?
    })
}

fn no_trim(gate: &mut Gate, call: &Call) -> Reply {
    submit_as(gate, call, |text| {
        (text.trim() != text).then(never_right)?
    })
}

fn trim_inside(gate: &mut Gate, call: &Call) -> Reply {
    submit_as(gate, call, |text| {
        Some(text.chars().filter(|c| !c.is_whitespace()).collect())
    })
}

/// The blanks and hyphens of a text without those at its ends.
fn separators(text: &str) -> String {
    let inner = text.trim_matches(|c: char| !c.is_ascii_digit());
    inner.chars().filter(|c| matches!(c, ' ' | '-')).collect()
}

fn no_groups(gate: &mut Gate, call: &Call) -> Reply {
    submit_as(gate, call, |text| {
        (!separators(text).is_empty()).then(never_right)?
    })
}

fn hyphen_kept(gate: &mut Gate, call: &Call) -> Reply {
    submit_as(gate, call, |text| {
        separators(text).contains('-').then(never_right)?
    })
}

fn one_separator(gate: &mut Gate, call: &Call) -> Reply {
    submit_as(gate, call, |text| {
        (separators(text).len() > 1).then(never_right)?
    })
}

fn alike_separators(gate: &mut Gate, call: &Call) -> Reply {
    submit_as(gate, call, |text| {
        let found = separators(text);
        (found.contains(' ') && found.contains('-')).then(never_right)?
    })
}

fn two_in_a_row(gate: &mut Gate, call: &Call) -> Reply {
    submit_as(gate, call, |text| {
        let digits = text.trim_matches(|c: char| !c.is_ascii_digit());
        let from = text.find(digits)?;
        let bare: String = digits.chars().filter(|c| !matches!(c, ' ' | '-')).collect();
        Some(text[..from].to_string() + &bare + &text[from + digits.len()..])
    })
}

fn dropped_at_end(gate: &mut Gate, call: &Call) -> Reply {
    submit_as(gate, call, |text| {
        let trimmed = text.trim();
        let rest = trimmed.strip_prefix('-').unwrap_or(trimmed);
        Some(rest.strip_suffix('-').unwrap_or(rest).to_string())
    })
}

fn any_dash(gate: &mut Gate, call: &Call) -> Reply {
    submit_as(gate, call, |text| {
        Some(text.replace(['\u{2010}', '\u{2011}', '\u{2013}', '\u{2212}'], "-"))
    })
}

fn not_text_ticks(gate: &mut Gate, call: &Call) -> Reply {
    if let Call::Submit { code, now, .. } = call
        && std::str::from_utf8(code).is_err()
    {
        core_interface::tick_validation(*now);
    }
    run(gate, call)
}

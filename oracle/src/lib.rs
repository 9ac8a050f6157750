//! The oracle: the access gate's Rust source, run call by call from a script.
//!
//! `items` and `calls` read and write scripts (docs/REPLAY.md), `gate` runs a call on the source, `added` holds what
//! documents 01 and 02 add around it (ADDED.md), `marks` when each bus was heard, `shelf` the cars of the store, `convert`
//! the converter of records, `save` the record that is handed out in pieces, `previews` what an operation would give, `waiting`
//! frames that wait, `queries` the calls that change nothing, `answer` what is printed, `state` the dump of the source's statics,
//! `wrong` deliberate mistakes for testing the comparison itself, `cars_noted`, `saves_noted`, `previews_noted` and `waiting_noted`
//! what the histogram is told of the store, of records, of saves, of previews and of waiting frames.

pub mod added;
pub mod answer;
pub mod calls;
pub mod cars_noted;
pub mod convert;
pub mod gate;
pub mod generate;
pub mod hex;
pub mod host;
pub mod items;
pub mod marks;
pub mod previews;
pub mod previews_noted;
pub mod queries;
pub mod replay;
pub mod save;
pub mod saves_noted;
pub mod shelf;
pub mod state;
pub mod waiting;
pub mod waiting_noted;
pub mod wrong;

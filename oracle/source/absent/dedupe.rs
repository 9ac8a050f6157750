//! Stand-in for a module that docs/src does not hold. lib.rs passes these names on; nothing calls them.

pub const DEDUPE_CAPACITY: usize = 0;
pub const DEDUPE_WINDOW_MS: u64 = 0;
pub struct RecentCommands;
pub fn reset_recent_commands_for_tests() {}

//! Stand-in for a module that docs/src does not hold (requirements of vehicle commands). lib.rs passes these names on;
//! nothing calls them.

pub struct ActivityClock;
pub struct CommandError;
pub struct CommandRequirements;
pub struct Rejection;
pub struct RepeatGuard;
pub struct Requirement;
pub struct Snapshot;
pub fn rejection_response() {}
pub fn respond_to_command() {}
pub fn try_send_response() {}

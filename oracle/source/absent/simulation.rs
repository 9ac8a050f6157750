//! Stand-in for a module that docs/src does not hold. lib.rs passes these names on; nothing calls them.

pub fn is_simulation_enabled() {}
pub fn set_simulation_enabled() {}

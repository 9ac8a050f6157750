//! Stand-in for a module that docs/src does not hold (decoding of messages). lib.rs passes the functions on; nothing
//! calls them. Only availability.rs reads the constant, for what it publishes.

pub(crate) const MQTT_COMMANDS_AUTHENTICATED: bool = false;
pub fn handle_ble_message() {}
pub fn handle_mqtt_message() {}
pub fn process_ble_commands_task() {}
pub fn process_mqtt_commands_task() {}
pub fn reset_ble_controller_lease_for_tests() {}
pub fn set_ble_controller_lease_ttl_s() {}

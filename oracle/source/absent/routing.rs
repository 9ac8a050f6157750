//! Stand-in for a module that docs/src does not hold (the links). Only publishing uses it, which the oracle does not
//! run: a link is always down.

use crate::proto::DeviceToApp;
use crate::types::Transport;

pub(crate) const MQTT_IDLE_RATE_S: u32 = 0;

pub(crate) fn try_send_to(_transport: Transport, _message: DeviceToApp) -> bool {
    false
}

pub(crate) fn is_mqtt_active(_now_s: u32) -> bool {
    false
}

pub fn ble_state_update() {}
pub fn is_link_up() {}
pub fn latest_ble_state() {}
pub fn publish_single_state() {}
pub fn publish_state_task() {}
pub fn record_mqtt_activity() {}
pub fn reset_latest_ble_state_for_tests() {}
pub fn reset_links_for_tests() {}
pub fn reset_mqtt_throttle_for_tests() {}
pub fn route_responses_task() {}
pub fn route_single_response() {}
pub fn set_link_up() {}

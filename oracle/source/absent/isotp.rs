//! Stand-in for a module that docs/src does not hold (the diagnostic transport). lib.rs passes these names on; nothing
//! calls them.

pub const ISO_TP_MAX_PAYLOAD: usize = 0;
pub const UDS_MAX_REQUEST: usize = 0;
pub const UDS_MAX_RESPONSE: usize = 0;
pub struct IsoTpSender;
pub struct UdsError;
pub struct UdsRequest;
pub struct UdsStep;
pub fn iso_tp_flow_control() {}
pub fn uds_single_frame() {}

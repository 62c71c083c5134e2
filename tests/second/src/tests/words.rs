//! Event words with one bit, by what the event is.

pub const AP_DISCONNECT: u32 = 1;
pub const AP_SWITCH: u32 = 1 << 1;
pub const OVERSPEED: u32 = 1 << 2;
pub const OVERSPEED_ENDS: u32 = 1 << 3;
pub const GO_AROUND: u32 = 1 << 4;
pub const TRANSFER: u32 = 1 << 5;
pub const FD_LEFT: u32 = 1 << 6;
pub const FD_RIGHT: u32 = 1 << 7;
pub const SOURCE_CHANGED: u32 = 1 << 8;
pub const NAV_CAPTURED: u32 = 1 << 9;
pub const LAPPR_CAPTURED: u32 = 1 << 10;
pub const VAPPR_CAPTURED: u32 = 1 << 11;
pub const ALTSEL_CAPTURED: u32 = 1 << 12;
pub const ALTSEL_TRACK: u32 = 1 << 13;
pub const HDG: u32 = 1 << 14;
pub const NAV: u32 = 1 << 15;
pub const APPR: u32 = 1 << 16;
pub const VS: u32 = 1 << 17;
pub const FLC: u32 = 1 << 18;
pub const ALT: u32 = 1 << 19;
pub const INDEPENDENT: u32 = 1 << 20;

//! The refusals' numbers, in the order of document 01; those of document 02 join its list.

/// Load: "fewer than six bytes".
pub const SHORT: u32 = 1;
/// Load: "R, A, P, S or a capacity outside its range".
pub const SIZES: u32 = 2;
/// Load: "wrong length or a fill bit set".
pub const LENGTH: u32 = 3;
/// Load: "a later field outside its range".
pub const FIELD: u32 = 4;
/// Load: "a router joint not named back, a joint to the same router, or an interface without
/// exactly one joint".
pub const JOINT: u32 = 5;
/// Load: "a ring".
pub const RING: u32 = 6;
/// Start: "state buffer too short"; every other call: "not a state".
pub const NOT_A_STATE: u32 = 7;
/// "Another phase."
pub const PHASE: u32 = 8;
/// "A number out of range."
pub const RANGE: u32 = 9;
/// "Pair not served."
pub const UNSERVED: u32 = 10;
/// "Allowance 0."
pub const ALLOWANCE: u32 = 11;
/// "Out-queue full."
pub const FULL: u32 = 12;
/// "In-queue empty."
pub const EMPTY: u32 = 13;
/// "In-queue flag up."
pub const FLAG_UP: u32 = 14;
/// "Head is an unmarked NACK."
pub const UNMARKED: u32 = 15;
/// "A connection not accepted."
pub const NOT_ACCEPTED: u32 = 16;

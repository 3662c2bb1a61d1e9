//! All calls written for speed: on the bytes in place, no heap, no unsafe code. The benchmark
//! measures the proved calls against these.
//!
//! * [`load`](mod@load): Load, with sets of destinations in words.
//! * `layout`: where things stand in the state's bytes. `walks`: where a packet may be.
//! * `check`: refusal 7, with `marks` for the accepted connections and `turns` for the senders last
//!   served. `phases`: Read, Execute, Write. `visits`: Start and the other calls.

#![forbid(unsafe_code)]
#![no_std]

mod check;
mod layout;
pub mod load;
mod marks;
mod phases;
mod turns;
mod visits;
mod walks;

use check::{check, Found, Rows};
use layout::{EXECUTE, READ, WRITE};
use load::Net;

/// The state's bytes; 0 if the plan does not load.
pub fn size(plan: &[u8]) -> u32 {
    let mut net = Net::empty();
    match net.load(plan) {
        0 => net.size() as u32,
        _ => 0,
    }
}

/// Load's answer: 0, or the number of the first refusal that applies, 1 to 6.
pub fn load(plan: &[u8]) -> u32 {
    Net::empty().load(plan)
}

/// The number of routers on the walk of a served pair; 0 where the plan does not load, a number is
/// out of range or the pair is not served.
pub fn walk(plan: &[u8], active: u32, passive: u32) -> u32 {
    let mut net = Net::empty();
    if net.load(plan) != 0 {
        return 0;
    }
    visits::walk(&net, active as usize, passive as usize)
}

/// Start: 1 to 7, or 0.
pub fn start(plan: &[u8], state: &mut [u8]) -> u32 {
    let mut net = Net::empty();
    let refusal = net.load(plan);
    if refusal != 0 {
        return refusal;
    }
    let Some(state) = state.get_mut(..net.size()) else { return 7 };
    visits::start(&net, state);
    0
}

/// Opens plan and state: Load's refusals, 7, and 8 in another phase than the one asked for. Then
/// the net, what the check found and where it noted rows have these names.
macro_rules! open {
    ($plan:ident, $state:ident, $phase:expr, $net:ident, $found:ident, $to:ident: $rows:expr) => {
        let mut $net = Net::empty();
        let refusal = $net.load($plan);
        if refusal != 0 {
            return refusal;
        }
        let mut $found = Found::nothing();
        let mut $to = $rows;
        if !check(&$net, $state, &mut $found, &mut $to) {
            return 7;
        }
        if $phase.is_some_and(|phase: u8| phase != $state[0]) {
            return 8;
        }
    };
}

/// Rows that nobody asks for.
const NO_ROWS: [u16; 0] = [];
/// Rows not yet noted.
const ROWS: Rows = [0; 128];

/// Read: 1 to 8, or 0.
pub fn read(plan: &[u8], state: &mut [u8]) -> u32 {
    open!(plan, state, Some(READ), net, found, to: ROWS);
    phases::read(&net, &mut state[..net.size()], &found, &to);
    0
}

/// Execute: 1 to 8, or 0.
pub fn execute(plan: &[u8], state: &mut [u8]) -> u32 {
    open!(plan, state, Some(EXECUTE), net, found, to: NO_ROWS);
    phases::execute(&net, &mut state[..net.size()], &found);
    0
}

/// Write: 1 to 8, or 0.
pub fn write(plan: &[u8], state: &mut [u8]) -> u32 {
    open!(plan, state, Some(WRITE), net, found, to: ROWS);
    phases::write(&net, &mut state[..net.size()], &found, &to);
    0
}

/// Launch: 1 to 12, or 0.
pub fn launch(plan: &[u8], state: &mut [u8], active: u32, passive: u32, slot: u32) -> u32 {
    open!(plan, state, Some(READ), net, found, to: NO_ROWS);
    visits::launch(&net, &mut state[..net.size()], active, passive, slot)
}

/// Close: 1 to 10, 16, 12, or 0.
pub fn close(plan: &[u8], state: &mut [u8], active: u32, passive: u32, slot: u32) -> u32 {
    open!(plan, state, Some(READ), net, found, to: NO_ROWS);
    visits::close(&net, &mut state[..net.size()], active, passive, slot)
}

/// Reply: 1 to 9, 12 to 14, or 0.
pub fn reply(plan: &[u8], state: &mut [u8], passive: u32, choice: u32) -> u32 {
    open!(plan, state, Some(WRITE), net, found, to: NO_ROWS);
    visits::reply(&net, &mut state[..net.size()], passive, choice)
}

/// Look: 1 to 7, 9, 13, or 0 with kind, active, passive, slot and hub in `out`.
pub fn look(plan: &[u8], state: &[u8], active: u32, out: &mut [u8; 8]) -> u32 {
    open!(plan, state, None, net, found, to: NO_ROWS);
    visits::look(&net, &state[..net.size()], active, out)
}

/// Drop: 1 to 9, 13 to 15, or 0.
pub fn drop(plan: &[u8], state: &mut [u8], active: u32) -> u32 {
    open!(plan, state, Some(WRITE), net, found, to: NO_ROWS);
    visits::drop(&net, &mut state[..net.size()], active)
}

/// Entry: 1 to 7, 9, or 0 with the entry in `out`, 4 for free.
pub fn entry(
    plan: &[u8],
    state: &[u8],
    router: u32,
    side: u32,
    slot: u32,
    out: &mut [u8; 8],
) -> u32 {
    open!(plan, state, None, net, found, to: NO_ROWS);
    visits::entry(&net, &state[..net.size()], router, side, slot, out)
}

/// Remaining: 1 to 7, or 0 with the packets under way and the rounds in `out`, lowest byte first.
pub fn remaining(plan: &[u8], state: &[u8], out: &mut [u8; 8]) -> u32 {
    open!(plan, state, None, net, found, to: NO_ROWS);
    visits::remaining(&net, &state[..net.size()], &found, out)
}

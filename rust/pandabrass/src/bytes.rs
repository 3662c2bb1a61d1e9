//! The calls on slices. An answer is 0 for accepted, else the refusal's number; what a call returns
//! is put into eight bytes, which only an accepted call writes.
//!
//! The static library `export` holds the calls. Its functions take a slice as a pointer and a
//! length, are done with it when they return, and write nothing outside it.

extern "C" {
    fn pandabrass_size(plan: *const u8, n: usize) -> u32;
    fn pandabrass_load(plan: *const u8, n: usize) -> u32;
    fn pandabrass_walk(plan: *const u8, n: usize, active: u32, passive: u32) -> u32;
    fn pandabrass_start(plan: *const u8, n: usize, state: *mut u8, l: usize) -> u32;
    fn pandabrass_read(plan: *const u8, n: usize, state: *mut u8, l: usize) -> u32;
    fn pandabrass_execute(plan: *const u8, n: usize, state: *mut u8, l: usize) -> u32;
    fn pandabrass_write(plan: *const u8, n: usize, state: *mut u8, l: usize) -> u32;
    fn pandabrass_launch(
        plan: *const u8,
        n: usize,
        state: *mut u8,
        l: usize,
        active: u32,
        passive: u32,
        slot: u32,
    ) -> u32;
    fn pandabrass_close(
        plan: *const u8,
        n: usize,
        state: *mut u8,
        l: usize,
        active: u32,
        passive: u32,
        slot: u32,
    ) -> u32;
    fn pandabrass_reply(
        plan: *const u8,
        n: usize,
        state: *mut u8,
        l: usize,
        passive: u32,
        choice: u32,
    ) -> u32;
    fn pandabrass_look(
        plan: *const u8,
        n: usize,
        state: *const u8,
        l: usize,
        active: u32,
        out: *mut u8,
    ) -> u32;
    fn pandabrass_drop(plan: *const u8, n: usize, state: *mut u8, l: usize, active: u32) -> u32;
    fn pandabrass_entry(
        plan: *const u8,
        n: usize,
        state: *const u8,
        l: usize,
        router: u32,
        side: u32,
        slot: u32,
        out: *mut u8,
    ) -> u32;
    fn pandabrass_remaining(
        plan: *const u8,
        n: usize,
        state: *const u8,
        l: usize,
        out: *mut u8,
    ) -> u32;
}

/// Eight bytes for what a call returns.
pub type Out = [u8; 8];

/// The state's bytes; 0 if the plan does not load.
pub fn size(plan: &[u8]) -> u32 {
    // SAFETY: pointer and length are those of a slice that is lent for the call; the function reads
    // these bytes, writes none and keeps no pointer. An empty slice's pointer is not null.
    unsafe { pandabrass_size(plan.as_ptr(), plan.len()) }
}

/// Load: 0, or the number of the refusal, 1 to 6.
pub fn load(plan: &[u8]) -> u32 {
    // SAFETY: as for `size`.
    unsafe { pandabrass_load(plan.as_ptr(), plan.len()) }
}

/// The number of routers on the walk of a served pair; 0 where the plan does not load, a number is
/// out of range or the pair is not served.
pub fn walk(plan: &[u8], active: u32, passive: u32) -> u32 {
    // SAFETY: as for `size`; any two numbers are allowed.
    unsafe { pandabrass_walk(plan.as_ptr(), plan.len(), active, passive) }
}

/// Start: 0, or 1 to 7. Looks at nothing in the state buffer but its length.
pub fn start(plan: &[u8], state: &mut [u8]) -> u32 {
    // SAFETY: the plan is lent as for `size`; the state is a slice of its own that is lent to be
    // written for the call, so the two do not overlap.
    unsafe { pandabrass_start(plan.as_ptr(), plan.len(), state.as_mut_ptr(), state.len()) }
}

/// Read: 0, or 1 to 8.
pub fn read(plan: &[u8], state: &mut [u8]) -> u32 {
    // SAFETY: as for `start`; any bytes are allowed in the state.
    unsafe { pandabrass_read(plan.as_ptr(), plan.len(), state.as_mut_ptr(), state.len()) }
}

/// Execute: 0, or 1 to 8.
pub fn execute(plan: &[u8], state: &mut [u8]) -> u32 {
    // SAFETY: as for `read`.
    unsafe { pandabrass_execute(plan.as_ptr(), plan.len(), state.as_mut_ptr(), state.len()) }
}

/// Write: 0, or 1 to 8.
pub fn write(plan: &[u8], state: &mut [u8]) -> u32 {
    // SAFETY: as for `read`.
    unsafe { pandabrass_write(plan.as_ptr(), plan.len(), state.as_mut_ptr(), state.len()) }
}

/// Launch: 0, or 1 to 12.
pub fn launch(plan: &[u8], state: &mut [u8], active: u32, passive: u32, slot: u32) -> u32 {
    let (n, l) = (plan.len(), state.len());
    // SAFETY: as for `read`; any three numbers are allowed.
    unsafe { pandabrass_launch(plan.as_ptr(), n, state.as_mut_ptr(), l, active, passive, slot) }
}

/// Close of the connection with this start slot: 0, or 1 to 10, 16, 12.
pub fn close(plan: &[u8], state: &mut [u8], active: u32, passive: u32, slot: u32) -> u32 {
    let (n, l) = (plan.len(), state.len());
    // SAFETY: as for `launch`.
    unsafe { pandabrass_close(plan.as_ptr(), n, state.as_mut_ptr(), l, active, passive, slot) }
}

/// Reply, 1 accept or 0 decline: 0, or 1 to 9, 12 to 14.
pub fn reply(plan: &[u8], state: &mut [u8], passive: u32, choice: u32) -> u32 {
    let (n, l) = (plan.len(), state.len());
    // SAFETY: as for `read`; any two numbers are allowed.
    unsafe { pandabrass_reply(plan.as_ptr(), n, state.as_mut_ptr(), l, passive, choice) }
}

/// Look, in every phase: 0, or 1 to 7, 9, 13. Kind, active, passive, slot and hub of the head are put
/// first in `out`; the head stays.
pub fn look(plan: &[u8], state: &[u8], active: u32, out: &mut Out) -> u32 {
    let (n, l) = (plan.len(), state.len());
    let out = out.as_mut_ptr();
    // SAFETY: plan and state are lent as for `size`, both to be read; `out` is eight bytes of their
    // own that are lent to be written. Any number is allowed.
    unsafe { pandabrass_look(plan.as_ptr(), n, state.as_ptr(), l, active, out) }
}

/// Drop: 0, or 1 to 9, 13 to 15. The head leaves; an ACK's connection is accepted from then on. By
/// its path, `bytes::drop`, it is not taken for the `drop` that ends a value.
pub fn drop(plan: &[u8], state: &mut [u8], active: u32) -> u32 {
    let (n, l) = (plan.len(), state.len());
    // SAFETY: as for `read`; any number is allowed.
    unsafe { pandabrass_drop(plan.as_ptr(), n, state.as_mut_ptr(), l, active) }
}

/// Entry: 0, or 1 to 7, 9. The side, 4 for free, is put first in `out`.
pub fn entry(plan: &[u8], state: &[u8], router: u32, side: u32, slot: u32, out: &mut Out) -> u32 {
    let (n, l) = (plan.len(), state.len());
    let out = out.as_mut_ptr();
    // SAFETY: as for `look`; any three numbers are allowed.
    unsafe { pandabrass_entry(plan.as_ptr(), n, state.as_ptr(), l, router, side, slot, out) }
}

/// Remaining, in every phase: 0, or 1 to 7. The packets in queues and on wires are put into `out[..4]`,
/// and into `out[4..]` the most rounds that a program which waits needs until there is none, both
/// lowest byte first.
pub fn remaining(plan: &[u8], state: &[u8], out: &mut Out) -> u32 {
    let (n, l) = (plan.len(), state.len());
    let out = out.as_mut_ptr();
    // SAFETY: as for `look`.
    unsafe { pandabrass_remaining(plan.as_ptr(), n, state.as_ptr(), l, out) }
}

//! Read, Execute and Write.

use crate::check::{sender_at, Found, Rows};
use crate::layout::*;
use crate::load::Net;
use crate::turns::{in_turn, rank_asked};
use crate::walks::{numbers, Numbers, NO_QUEUE};

/// Each wire's packet joins its queue, each raised flag becomes a credit.
#[inline(always)]
pub fn read(net: &Net, state: &mut [u8], found: &Found, to: &Rows) {
    let mut n = 0;
    for (group, &set) in found.outputs.iter().enumerate() {
        if set == 0 {
            continue;
        }
        let mut left = set;
        let first = net.outs_at(group);
        while left != 0 {
            let wire = first + OUT * take(&mut left);
            let Some(bytes) = state[wire..].first_chunk_mut::<OUT>() else { return };
            let [_, packet @ .., _] = core::mem::take(bytes);
            push(state, to[n & 127] as usize, packet);
            n += 1;
        }
    }
    for (group, &set) in found.queues.iter().enumerate() {
        if set == 0 {
            continue;
        }
        let mut left = set;
        let first = net.group_at(group);
        while left != 0 {
            let Some([credit, flag]) = state[first + ROW * take(&mut left)..].first_chunk_mut()
            else {
                return;
            };
            *credit += *flag;
            *flag = 0;
        }
    }
    state[0] = EXECUTE;
}

/// Units, outputs, tear-downs. What a unit does is seen by its own router's outputs alone, so a
/// router is done at once.
#[inline(always)]
pub fn execute(net: &Net, state: &mut [u8], found: &Found) {
    for x in 0..net.r {
        let set = found.queues[x & 15];
        if set != 0 {
            router(net, state, x, set);
        }
    }
    for group in [ACTIVE_OUT, PASSIVE_OUT] {
        let mut left = found.queues[group];
        while left != 0 {
            interface(net, state, group, take(&mut left));
        }
    }
    let mut left = found.queues[ACTIVE_IN];
    while left != 0 {
        tear_down(net, state, take(&mut left));
    }
    state[0] = WRITE;
}

/// A router's unit and then its outputs; the set is of the queues that have a packet.
#[inline(always)]
fn router(net: &Net, state: &mut [u8], x: usize, set: u32) {
    let first = net.group_at(x);
    let choices = net.outs_at(x) + 6;
    let entry = net.table_at() + 256 * x + 2 * state[1] as usize;
    let turns = net.turns_at() + net.first_out(x);
    let q = first + ROW * Q;
    let handled = if set >> Q & 15 != 0 { handle_all(net, state, x, set >> Q & 15) } else { 0 };
    for o in 0..4 {
        let senders = set >> (SENDERS + 5 * o) & 31;
        if senders != 0 && state[entry + 64 * o] == 0 {
            let first = first + ROW * (SENDERS + 5 * o);
            let to = |rank| net.beyond(x, o, &head(state, first + ROW * rank));
            let sent = |rank| to(rank) != NO_QUEUE && state[net.row_at(to(rank))] != 0;
            state[choices + OUT * o] = pick::<5>(senders, state[turns + o], sent);
        }
    }
    if set & 15 != 0 {
        let sent = |rank| state[q + ROW * rank] != 0;
        state[choices + OUT * 4] = pick::<4>(set & 15, state[turns + 4], sent);
    }
    if handled != 0 {
        let to = |rank| net.after_unit(x, &head(state, q + ROW * rank));
        let sent = |rank| state[net.row_at(to(rank))] != 0;
        state[choices + OUT * 5] = pick::<4>(handled, state[turns + 5], sent);
    }
}

/// The numbers of a row's head.
#[inline(always)]
fn head(state: &[u8], at: usize) -> Numbers {
    numbers(place(row(state, at), 0))
}

/// The first of these senders, from the one behind the last on, whose next queue has credit: 1 + its
/// rank, else 0.
#[inline(always)]
fn pick<const N: usize>(senders: u32, last: u8, sent: impl Fn(usize) -> bool) -> u8 {
    let mut left = in_turn::<N>(senders, last);
    while left != 0 {
        let rank = rank_asked::<N>(take(&mut left), last);
        if sent(rank) {
            return 1 + rank as u8;
        }
    }
    0
}

/// An interface's output.
#[inline(always)]
fn interface(net: &Net, state: &mut [u8], group: usize, i: usize) {
    let k = numbers(place(row(state, net.group_at(group) + ROW * i), 0));
    let before = if group == ACTIVE_OUT { 0 } else { net.a };
    let to = net.enter(net.home[(before + i) & 31] as usize, &k);
    if state[net.row_at(to)] != 0 {
        state[net.outs_at(group) + OUT * i + 6] = 1;
    }
}

/// An unmarked NACK at the head of an active's in-queue becomes a marked one and a TDOWN, if there
/// is room.
#[inline(always)]
fn tear_down(net: &Net, state: &mut [u8], active: usize) {
    let at = net.group_at(ACTIVE_IN) + ROW * active;
    let out = net.group_at(ACTIVE_OUT) + ROW * active;
    let &[kind, a, p, slot, hub] = place(row(state, at), 0);
    if kind == NACK && hub != 0 && state[out + 3] != net.cap[CAP_ACTIVE_OUT] {
        state[at + 8] = 0;
        push(state, out, [TDOWN, a, p, net.minus(slot, hub), hub]);
    }
}

/// The unit of x and its Q that have a packet; which of them have a handled head after it.
#[inline(always)]
fn handle_all(net: &Net, state: &mut [u8], x: usize, set: u32) -> u32 {
    let (mut left, mut handled) = (set, set);
    while left != 0 {
        let i = take(&mut left);
        let q = net.group_at(x) + ROW * (Q + i);
        if state[q + 2] == 0 && handle(net, state, x, i, q) {
            handled &= !(1 << i);
        }
    }
    handled
}

/// The unit of x and the head of its Q of side i, which is not handled; whether it ends.
#[inline(always)]
fn handle(net: &Net, state: &mut [u8], x: usize, i: usize, q: usize) -> bool {
    let k = head(state, q);
    let side = net.table_at() + 256 * x + 64 * net.side(x, net.a + k.p);
    let entry = side + 2 * k.slot as usize;
    let later = if k.slot as usize + 1 == net.s { 0 } else { k.slot + 1 };
    if k.kind == SETUP {
        state[q + 2] = 1;
        if state[entry] != 0 || !is_free_besides(state, side, entry, net.s) {
            state[q + 4] = NACK;
        } else {
            state[entry] = 1 + i as u8;
            state[q + 7] = later;
            state[q + 8] += 1;
        }
        return false;
    }
    state[entry] = 0;
    if k.hub == 1 {
        pop(state, q);
        state[q + 1] = 1;
        return true;
    }
    state[q + 2] = 1;
    state[q + 7] = later;
    state[q + 8] -= 1;
    false
}

/// Whether an entry of a side is free besides this one, which is.
#[inline(always)]
fn is_free_besides(state: &[u8], side: usize, entry: usize, slots: usize) -> bool {
    (0..slots).any(|slot| state[side + 2 * slot] == 0 && side + 2 * slot != entry)
}

/// Each picked head enters its wire, and its output remembers it; the slot grows.
#[inline(always)]
pub fn write(net: &Net, state: &mut [u8], found: &Found, to: &Rows) {
    let mut n = 0;
    for (group, &set) in found.outputs.iter().enumerate() {
        if set == 0 {
            continue;
        }
        let mut left = set;
        let first = net.outs_at(group);
        let turns = net.turns_at() + net.first_out(group);
        while left != 0 {
            let i = take(&mut left);
            let wire = first + OUT * i;
            let choice = state[wire + 6];
            let Some(from) = sender_at(net, group, i, choice) else { return };
            state[turns + i] = choice - 1;
            let [kind, a, p, slot, hub] = pop(state, from);
            state[from + 1] = (group < ACTIVE_OUT) as u8;
            state[from + 2] = 0;
            if let Some(bytes) = state[wire..].first_chunk_mut() {
                *bytes = [1, kind, a, p, slot, hub, 0];
            }
            state[to[n & 127] as usize] -= 1;
            n += 1;
        }
    }
    let slot = state[1] + 1;
    state[1] = if slot as usize == net.s { 0 } else { slot };
    state[0] = READ;
}

//! Start, what Launch, Close, Reply and Drop do to a state, and what Look, Entry and Remaining see.

use crate::check::Found;
use crate::layout::*;
use crate::load::Net;

/// The number of routers on the walk of a served pair, else 0.
pub fn walk(net: &Net, a: usize, p: usize) -> u32 {
    if a >= net.a || p >= net.p || net.served[a & 15] >> p & 1 == 0 {
        return 0;
    }
    let (mut x, d) = (net.home[a & 31] as usize >> 2, net.a + p);
    let mut routers = 0;
    while x < 16 {
        x = net.next[x][net.side(x, d) & 3] as usize;
        routers += 1;
    }
    routers
}

/// Start's bytes.
#[inline(always)]
pub fn start(net: &Net, state: &mut [u8]) {
    state.fill(0);
    let caps = net.router_caps();
    let (front, rest) = state[2..].split_at_mut(ROW * (net.a + net.p));
    let (routers, back) = rest.split_at_mut(ROW * QUEUES * net.r);
    credits(&mut front[..ROW * net.a], net.cap[CAP_ACTIVE_OUT]);
    credits(&mut front[ROW * net.a..], net.cap[CAP_PASSIVE_OUT]);
    for router in routers.chunks_exact_mut(ROW * QUEUES) {
        for (row, &cap) in router.chunks_exact_mut(ROW).zip(&caps) {
            row[0] = cap;
        }
    }
    credits(&mut back[..ROW * net.a], net.cap[CAP_ACTIVE_IN]);
    credits(&mut back[ROW * net.a..ROW * (net.a + net.p)], net.cap[CAP_PASSIVE_IN]);
    state[net.allowances_at()..net.table_at()].fill(net.allowance());
    for turns in state[net.turns_at() + net.first_out(0)..].chunks_exact_mut(6) {
        turns.copy_from_slice(&[4, 4, 4, 4, 3, 3]);
    }
}

#[inline(always)]
fn credits(rows: &mut [u8], cap: u8) {
    for row in rows.chunks_exact_mut(ROW) {
        row[0] = cap;
    }
}

/// Launch: 9 to 12, else a SETUP joins.
#[inline(always)]
pub fn launch(net: &Net, state: &mut [u8], active: u32, passive: u32, slot: u32) -> u32 {
    let (a, p, t) = (active as usize, passive as usize, slot as usize);
    if a >= net.a || p >= net.p || t >= net.s {
        return 9;
    }
    if net.served[a & 15] >> p & 1 == 0 {
        return 10;
    }
    let allowance = net.allowances_at() + a;
    if state[allowance] == 0 {
        return 11;
    }
    let out = net.group_at(ACTIVE_OUT) + ROW * a;
    if state[out + 3] == net.cap[CAP_ACTIVE_OUT] {
        return 12;
    }
    push(state, out, [SETUP, a as u8, p as u8, t as u8, 0]);
    state[allowance] -= 1;
    0
}

/// Close: 9, 10, 16, 12, else a TDOWN joins and the mark goes.
#[inline(always)]
pub fn close(net: &Net, state: &mut [u8], active: u32, passive: u32, slot: u32) -> u32 {
    let (a, p, t) = (active as usize, passive as usize, slot as usize);
    if a >= net.a || p >= net.p || t >= net.s {
        return 9;
    }
    if net.served[a & 15] >> p & 1 == 0 {
        return 10;
    }
    let (mark, bit) = net.mark_at(a, p, t);
    if state[mark] & bit == 0 {
        return 16;
    }
    let out = net.group_at(ACTIVE_OUT) + ROW * a;
    if state[out + 3] == net.cap[CAP_ACTIVE_OUT] {
        return 12;
    }
    push(state, out, [TDOWN, a as u8, p as u8, t as u8, walk(net, a, p) as u8]);
    state[mark] &= !bit;
    0
}

/// 14 or 13, where an in-queue has no head to take.
#[inline(always)]
fn waiting(state: &[u8], at: usize) -> u32 {
    if state[at + 1] != 0 {
        return 14;
    }
    if state[at + 3] == 0 {
        return 13;
    }
    0
}

/// Reply: 9, 14, 13, 12, else the head becomes an answer.
#[inline(always)]
pub fn reply(net: &Net, state: &mut [u8], passive: u32, choice: u32) -> u32 {
    let p = passive as usize;
    if p >= net.p || choice > 1 {
        return 9;
    }
    let at = net.group_at(PASSIVE_IN) + ROW * p;
    let refusal = waiting(state, at);
    if refusal != 0 {
        return refusal;
    }
    let out = net.group_at(PASSIVE_OUT) + ROW * p;
    if state[out + 3] == net.cap[CAP_PASSIVE_OUT] {
        return 12;
    }
    let [_, a, p, slot, hub] = pop(state, at);
    state[at + 1] = 1;
    push(state, out, [if choice == 1 { ACK } else { NACK }, a, p, slot, hub]);
    0
}

/// Look: 9, 13, else the head, which stays.
#[inline(always)]
pub fn look(net: &Net, state: &[u8], active: u32, out: &mut [u8; 8]) -> u32 {
    let a = active as usize;
    if a >= net.a {
        return 9;
    }
    let at = net.group_at(ACTIVE_IN) + ROW * a;
    if state[at + 3] == 0 {
        return 13;
    }
    out[..5].copy_from_slice(&state[at + 4..at + 9]);
    0
}

/// Drop: 9, 14, 13, 15, else the head leaves; an ACK's connection is marked.
#[inline(always)]
pub fn drop(net: &Net, state: &mut [u8], active: u32) -> u32 {
    let a = active as usize;
    if a >= net.a {
        return 9;
    }
    let at = net.group_at(ACTIVE_IN) + ROW * a;
    let refusal = waiting(state, at);
    if refusal != 0 {
        return refusal;
    }
    if state[at + 4] == NACK && state[at + 8] != 0 {
        return 15;
    }
    let [kind, _, p, slot, hub] = pop(state, at);
    state[at + 1] = 1;
    state[net.allowances_at() + a] += 1;
    if kind == ACK {
        let (mark, bit) = net.mark_at(a, p as usize, net.minus(slot, hub) as usize);
        state[mark] |= bit;
    }
    0
}

/// Entry: 9, else the entry.
#[inline(always)]
pub fn entry(net: &Net, state: &[u8], router: u32, side: u32, slot: u32, out: &mut [u8; 8]) -> u32 {
    let (r, o, t) = (router as usize, side as usize, slot as usize);
    if r >= net.r || o > 3 || t >= net.s {
        return 9;
    }
    let entry = state[net.table_at() + 256 * r + 64 * o + 2 * t];
    out[0] = if entry == 0 { 4 } else { entry - 1 };
    0
}

/// Remaining: the packets in queues and on wires, and 256 * S rounds for each. A queue with a packet is
/// not idle, and in READ an output that has something has a full wire.
#[inline(always)]
pub fn remaining(net: &Net, state: &[u8], found: &Found, out: &mut [u8; 8]) -> u32 {
    let (mut packets, wires) = (0, state[0] == READ);
    for x in 0..net.r {
        packets += queued(net, state, x, found.queues[x & 15]);
        if wires {
            packets += members(found.outputs[x & 15]);
        }
    }
    for group in ACTIVE_OUT..GROUPS {
        packets += queued(net, state, group, found.queues[group]);
    }
    if wires {
        packets += members(found.outputs[ACTIVE_OUT]) + members(found.outputs[PASSIVE_OUT]);
    }
    let rounds = 256 * net.s as u32 * packets;
    *out = (packets as u64 | (rounds as u64) << 32).to_le_bytes();
    0
}

/// The packets in some queues of a group.
#[inline(always)]
fn queued(net: &Net, state: &[u8], group: usize, set: u32) -> u32 {
    let (mut left, mut packets) = (set, 0);
    while left != 0 {
        packets += state[net.group_at(group) + ROW * take(&mut left) + 3] as u32;
    }
    packets
}

/// How many members a set has; mostly few.
#[inline(always)]
fn members(set: u32) -> u32 {
    let (mut left, mut count) = (set, 0);
    while left != 0 {
        take(&mut left);
        count += 1;
    }
    count
}

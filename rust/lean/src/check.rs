//! Refusal 7: whether bytes are a state's.
//!
//! Two passes. The first finds what is not idle: outputs by one test of all their bytes, queues row
//! by row in words of eight bytes. The second looks at what it found, and only it needs the walks.

use crate::layout::*;
use crate::load::Net;
use crate::marks::marks_fit;
use crate::turns::turns_fit;
use crate::walks::{numbers, Numbers, Walks, NO_QUEUE};

/// What the check finds, for the phases.
pub struct Found {
    /// By group: the queues that are not idle.
    pub queues: [u32; GROUPS],
    /// By group: the outputs with a packet on the wire (READ) or a choice (WRITE).
    pub outputs: [u32; 18],
}

impl Found {
    /// Nothing yet.
    pub const fn nothing() -> Found {
        Found { queues: [0; GROUPS], outputs: [0; 18] }
    }
}

/// For the outputs that are found, in their order: the row of the queue that the packet goes to.
pub type Rows = [u16; 128];

/// Where the packets of a router's queue came from and go to.
#[derive(Clone, Copy)]
enum Place {
    U(usize),
    Q(usize),
    /// Of set-ups and tear-downs.
    There(usize),
    /// Of answers.
    Back(usize),
    K(usize, usize),
}

/// The queues of a router by their numbers.
const PLACES: [Place; QUEUES] = [
    Place::U(0),
    Place::U(1),
    Place::U(2),
    Place::U(3),
    Place::Q(0),
    Place::Q(1),
    Place::Q(2),
    Place::Q(3),
    Place::There(0),
    Place::Back(0),
    Place::K(1, 0),
    Place::K(2, 0),
    Place::K(3, 0),
    Place::There(1),
    Place::Back(1),
    Place::K(0, 1),
    Place::K(2, 1),
    Place::K(3, 1),
    Place::There(2),
    Place::Back(2),
    Place::K(0, 2),
    Place::K(1, 2),
    Place::K(3, 2),
    Place::There(3),
    Place::Back(3),
    Place::K(0, 3),
    Place::K(1, 3),
    Place::K(2, 3),
];

/// For a side's 64 bytes, from 64 - 2S on: what a byte may be at most.
const LIMITS: [u8; 128] = {
    let mut limits = [0; 128];
    let mut slot = 0;
    while slot < 32 {
        limits[2 * slot] = 4;
        slot += 1;
    }
    limits
};

/// Whether these bytes are a state's; what is found is for the phases. `to` is such as [`Rows`], or
/// empty if nobody asks.
pub fn check(net: &Net, state: &[u8], found: &mut Found, to: &mut [u16]) -> bool {
    if state.len() < net.size() {
        return false;
    }
    let state = &state[..net.size()];
    let phase = state[0];
    if phase > WRITE || state[1] as usize >= net.s {
        return false;
    }
    let mut counts = [0u8; 16];
    let mut busy = sweep_outputs(net, state, found);
    if busy && phase == EXECUTE {
        return false;
    }
    sweep_queues(net, state, found);
    busy |= found.queues.iter().fold(0, |any, set| any | set) != 0;
    if busy && !Busy::new(net, state, &mut counts).check(found, to) {
        return false;
    }
    allowances_add_up(net, state, &counts)
        && table_is_one(net, state)
        && marks_fit(net, state)
        && turns_fit(net, state)
}

/// Whether any output has something; then which.
#[inline(always)]
fn sweep_outputs(net: &Net, state: &[u8], found: &mut Found) -> bool {
    let first = net.outputs_at();
    let bytes = &state[first..first + OUT * net.outputs()];
    if bytes.iter().fold(0, |any, byte| any | byte) == 0 {
        return false;
    }
    // An eighth byte is there: allowances and tables follow.
    let some = |at: usize| word(state, at) << 8 != 0;
    let set =
        |at: usize, count| (0..count).fold(0, |set, i| set | (some(at + OUT * i) as u32) << i);
    found.outputs[ACTIVE_OUT] = set(net.outs_at(ACTIVE_OUT), net.a);
    found.outputs[PASSIVE_OUT] = set(net.outs_at(PASSIVE_OUT), net.p);
    for x in 0..net.r {
        found.outputs[x & 15] = set(net.outs_at(x), 6);
    }
    true
}

/// 0 just for the row of an idle queue.
#[inline(always)]
fn not_idle(row: &[u8; ROW], cap: u8) -> u64 {
    let first = word(row, 0) ^ cap as u64;
    first | word(row, 8) | word(row, 16) | word(row, 24) | word(row, 31)
}

/// Which queues are not idle.
#[inline(always)]
fn sweep_queues(net: &Net, state: &[u8], found: &mut Found) {
    let sets = &mut found.queues;
    let (cap, caps) = (&net.cap, net.router_caps());
    sweep_group(state, net.group_at(ACTIVE_OUT), net.a, cap[CAP_ACTIVE_OUT], &mut sets[ACTIVE_OUT]);
    sweep_group(
        state,
        net.group_at(PASSIVE_OUT),
        net.p,
        cap[CAP_PASSIVE_OUT],
        &mut sets[PASSIVE_OUT],
    );
    let rows = state[net.group_at(0)..].chunks_exact(ROW * QUEUES);
    for (set, rows) in sets.iter_mut().zip(rows).take(net.r) {
        for (i, (at, &cap)) in rows.chunks_exact(ROW).zip(&caps).enumerate() {
            if not_idle(row(at, 0), cap) != 0 {
                *set |= 1 << i;
            }
        }
    }
    sweep_group(state, net.group_at(ACTIVE_IN), net.a, cap[CAP_ACTIVE_IN], &mut sets[ACTIVE_IN]);
    sweep_group(state, net.group_at(PASSIVE_IN), net.p, cap[CAP_PASSIVE_IN], &mut sets[PASSIVE_IN]);
}

#[inline(always)]
fn sweep_group(state: &[u8], at: usize, count: usize, cap: u8, set: &mut u32) {
    for (i, at) in state[at..at + ROW * count].chunks_exact(ROW).enumerate() {
        if not_idle(row(at, 0), cap) != 0 {
            *set |= 1 << i;
        }
    }
}

/// Allowance and packets under way of each active.
#[inline(always)]
fn allowances_add_up(net: &Net, state: &[u8], counts: &[u8; 16]) -> bool {
    let full = net.allowance() as u32;
    let allowances = &state[net.allowances_at()..][..net.a];
    let wrong = |(&allowance, &count): (&u8, &u8)| (allowance as u32 + count as u32) ^ full;
    allowances.iter().zip(counts).map(wrong).fold(0, |any, wrong| any | wrong) == 0
}

/// Entries in range, none past the slots, and a free one on each side.
#[inline(always)]
fn table_is_one(net: &Net, state: &[u8]) -> bool {
    let Some(limits) = LIMITS[64 - 2 * net.s..].first_chunk::<64>() else { return false };
    for side in state[net.table_at()..net.marks_at()].chunks_exact(64) {
        let any = (0..8).fold(0, |any, w| any | word(side, 8 * w));
        if any != 0 && !side_is_one(side, limits) {
            return false;
        }
    }
    true
}

/// A side that is not all free.
#[inline(always)]
fn side_is_one(side: &[u8], limits: &[u8; 64]) -> bool {
    let (mut bad, mut free) = (0u8, 0u8);
    for (&byte, &limit) in side.iter().zip(limits) {
        bad |= (byte > limit) as u8;
        free |= ((byte == 0) & (limit != 0)) as u8;
    }
    bad == 0 && free != 0
}

/// The second pass.
struct Busy<'a> {
    net: &'a Net,
    state: &'a [u8],
    walks: Walks,
    /// By active: its SETUPs, ACKs and NACKs.
    counts: &'a mut [u8; 16],
    /// By group: the queues that a packet on a wire goes to.
    coming: [u32; GROUPS],
}

impl<'a> Busy<'a> {
    fn new(net: &'a Net, state: &'a [u8], counts: &'a mut [u8; 16]) -> Busy<'a> {
        Busy { net, state, walks: Walks::new(net), counts, coming: [0; GROUPS] }
    }

    fn check(mut self, found: &Found, to: &mut [u16]) -> bool {
        let phase = self.state[0];
        if phase == READ && !self.wires_fit(found, to) {
            return false;
        }
        for x in 0..self.net.r {
            let set = found.queues[x & 15] | self.coming[x & 15];
            if set != 0 && !self.router_fits(x, set) {
                return false;
            }
        }
        for group in ACTIVE_OUT..GROUPS {
            let set = found.queues[group] | self.coming[group];
            if set != 0 && !self.interfaces_fit(group, set) {
                return false;
            }
        }
        phase != WRITE || self.choices_fit(found, to)
    }

    /// Every wire that is full holds a packet that fits there; notes where it goes.
    #[inline(always)]
    fn wires_fit(&mut self, found: &Found, to: &mut [u16]) -> bool {
        let mut n = 0;
        for (group, &set) in found.outputs.iter().enumerate() {
            if set == 0 {
                continue;
            }
            let mut left = set;
            let first = self.net.outs_at(group);
            while left != 0 {
                let i = take(&mut left);
                let Some(queue) = self.carried(group, i, first + OUT * i) else { return false };
                self.coming[queue >> 5] |= 1 << (queue & 31);
                note(to, &mut n, self.net.row_at(queue));
            }
        }
        true
    }

    /// The code of the queue that a wire's packet goes to, if it fits there.
    #[inline(always)]
    fn carried(&mut self, group: usize, i: usize, at: usize) -> Option<usize> {
        let bytes = self.state[at..].first_chunk::<OUT>()?;
        if bytes[0] != 1 || bytes[6] != 0 {
            return None;
        }
        let (net, walks) = (self.net, &self.walks);
        let k = net.packet(bytes[1..].first_chunk()?)?;
        self.counts[k.a & 15] += (k.kind != TDOWN) as u8;
        let (fits, to) = match group {
            ACTIVE_OUT => {
                let port = net.home[i & 31] as usize;
                (k.a == i && walks.fits_active_out(net, &k), net.enter(port, &k))
            }
            PASSIVE_OUT => {
                let port = net.home[(net.a + i) & 31] as usize;
                (k.p == i && walks.fits_passive_out(net, &k), net.enter(port, &k))
            }
            _ => match i {
                4 => {
                    let to = 32 * group + Q + walks.side_in(net, group, &k);
                    (walks.fits_unit(net, group, &k), to)
                }
                5 => (walks.fits_done(net, group, &k), net.after_unit(group, &k)),
                _ => (walks.fits_side(net, group, i, &k), net.beyond(group, i, &k)),
            },
        };
        fits.then_some(to)
    }

    /// Rows of a router.
    #[inline(always)]
    fn router_fits(&mut self, x: usize, set: u32) -> bool {
        let caps = self.net.router_caps();
        let first = self.net.group_at(x);
        let mut left = set;
        while left != 0 {
            let i = take(&mut left);
            if i >= QUEUES {
                return false;
            }
            let at = row(self.state, first + ROW * i);
            let place = PLACES[i];
            let joined = |side: usize| self.net.joint[(4 * x + side) & 63] >> 6 != 0;
            let fed = match place {
                Place::U(side) | Place::K(side, _) => joined(side),
                Place::Q(_) | Place::There(_) | Place::Back(_) => true,
            };
            let coming = (self.coming[x & 15] >> i & 1) as u8;
            if !frame_fits(at, caps[i], coming, fed, self.state[0]) {
                return false;
            }
            if at[2] != 0 && (!(Q..SENDERS).contains(&i) || at[2] > 1 || at[3] == 0) {
                return false;
            }
            if at[3] != 0 && !self.queue_fits(x, place, at) {
                return false;
            }
        }
        true
    }

    /// The packets of a router's queue.
    #[inline(always)]
    fn queue_fits(&mut self, x: usize, at: Place, row: &[u8; ROW]) -> bool {
        let (net, walks) = (self.net, &self.walks);
        for m in 0..(row[3] & 7) as usize {
            let Some(k) = net.packet(place(row, m)) else { return false };
            let fits = match at {
                Place::U(side) => walks.fits_u(net, 4 * x + side, &k),
                Place::Q(side) if m == 0 && row[2] != 0 => {
                    walks.fits_handled(net, 4 * x + side, &k)
                }
                Place::Q(side) => walks.fits_u(net, 4 * x + side, &k),
                Place::There(side) => {
                    k.kind < ACK && net.side(x, net.a + k.p) == side && walks.fits_done(net, x, &k)
                }
                Place::Back(side) => {
                    k.kind >= ACK && net.side(x, k.a) == side && walks.fits_done(net, x, &k)
                }
                Place::K(from, to) => net.side(x, k.a) == to && walks.fits_k(net, 4 * x + from, &k),
            };
            if !fits {
                return false;
            }
            count(self.counts, &k);
        }
        true
    }

    /// Rows of interfaces.
    #[inline(always)]
    fn interfaces_fit(&mut self, group: usize, set: u32) -> bool {
        let (net, walks) = (self.net, &self.walks);
        let cap = match group {
            ACTIVE_OUT => net.cap[CAP_ACTIVE_OUT],
            PASSIVE_OUT => net.cap[CAP_PASSIVE_OUT],
            ACTIVE_IN => net.cap[CAP_ACTIVE_IN],
            _ => net.cap[CAP_PASSIVE_IN],
        };
        let first = net.group_at(group);
        let mut left = set;
        while left != 0 {
            let i = take(&mut left);
            let at = row(self.state, first + ROW * i);
            let coming = (self.coming[group] >> i & 1) as u8;
            if at[2] != 0 || !frame_fits(at, cap, coming, group >= ACTIVE_IN, self.state[0]) {
                return false;
            }
            for m in 0..(at[3] & 7) as usize {
                let Some(k) = net.packet(place(at, m)) else { return false };
                let fits = match group {
                    ACTIVE_OUT => k.a == i && walks.fits_active_out(net, &k),
                    PASSIVE_OUT => k.p == i && walks.fits_passive_out(net, &k),
                    ACTIVE_IN => k.a == i && walks.fits_active_in(net, &k),
                    _ => k.p == i && walks.fits_passive_in(net, &k),
                };
                if !fits {
                    return false;
                }
                count(self.counts, &k);
            }
        }
        true
    }

    /// Every choice is of a candidate whose flag is down; notes where its head goes.
    #[inline(always)]
    fn choices_fit(&self, found: &Found, to: &mut [u16]) -> bool {
        let mut n = 0;
        for (group, &set) in found.outputs.iter().enumerate() {
            if set == 0 {
                continue;
            }
            let mut left = set;
            let first = self.net.outs_at(group);
            while left != 0 {
                let i = take(&mut left);
                let Some(row) = self.chosen(group, i, first + OUT * i) else { return false };
                note(to, &mut n, row);
            }
        }
        true
    }

    /// The row that a picked head goes to.
    #[inline(always)]
    fn chosen(&self, group: usize, i: usize, at: usize) -> Option<usize> {
        let net = self.net;
        if word(self.state, at) << 16 != 0 {
            return None;
        }
        let choice = self.state[at + 6];
        let from = row(self.state, sender_at(net, group, i, choice)?);
        let handled = group >= ACTIVE_OUT || i != 5 || from[2] != 0;
        if from[3] == 0 || from[1] != 0 || !handled {
            return None;
        }
        let k = numbers(place(from, 0));
        let to = match group {
            ACTIVE_OUT => net.enter(net.home[i & 31] as usize, &k),
            PASSIVE_OUT => net.enter(net.home[(net.a + i) & 31] as usize, &k),
            _ => match i {
                4 => 32 * group + Q + choice as usize - 1,
                5 => net.after_unit(group, &k),
                _ => net.beyond(group, i, &k),
            },
        };
        if to == NO_QUEUE {
            return None;
        }
        let to = net.row_at(to);
        (self.state[to] != 0).then_some(to)
    }
}

/// The row of the sender that an output's choice means; none if there is no such sender.
#[inline(always)]
pub fn sender_at(net: &Net, group: usize, i: usize, choice: u8) -> Option<usize> {
    let first = net.group_at(group);
    let rank = (choice as usize).wrapping_sub(1);
    match (group, i) {
        (ACTIVE_OUT | PASSIVE_OUT, _) if rank == 0 => Some(first + ROW * i),
        (0..=15, 0..=3) if rank < 5 => Some(first + ROW * (SENDERS + 5 * i + rank)),
        (0..=15, 4) if rank < 4 => Some(first + ROW * rank),
        (0..=15, 5) if rank < 4 => Some(first + ROW * (Q + rank)),
        _ => None,
    }
}

/// Puts a row behind the others, if there is room.
#[inline(always)]
fn note(to: &mut [u16], n: &mut usize, row: usize) {
    if let Some(place) = to.get_mut(*n) {
        *place = row as u16;
        *n += 1;
    }
}

/// Counts an active's SETUPs, ACKs and NACKs.
#[inline(always)]
fn count(counts: &mut [u8; 16], k: &Numbers) {
    let count = &mut counts[k.a & 15];
    *count = count.saturating_add((k.kind != TDOWN) as u8);
}

/// Flag, length and credit of a row, and that its places behind the packets are empty.
#[inline(always)]
fn frame_fits(row: &[u8; ROW], cap: u8, coming: u8, fed: bool, phase: u8) -> bool {
    let [credit, flag, _, length, ..] = *row;
    if flag > 1 || length > cap || flag == 1 && (!fed || phase == EXECUTE) {
        return false;
    }
    let taken = if fed { flag + length + coming } else { 0 };
    if credit as u32 + taken as u32 != cap as u32 {
        return false;
    }
    let rest = |k: usize| word(row, 4 + 5 * k) & 0xff_ffff_ffff;
    (length as usize..6).fold(0, |any, k| any | rest(k)) == 0
        && (length == 7 || word(row, 31) >> 24 == 0)
}

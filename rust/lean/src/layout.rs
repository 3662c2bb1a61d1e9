//! Where things stand in the state's bytes (docs/STATE.md), and packets in rows.
//!
//! Queues go by groups: the 28 of router x are group x, then out-queues of actives and of passives,
//! in-queues of actives and of passives. A queue's code is 32 * group + its number in the group.

use crate::load::Net;

/// Bytes of a queue's row.
pub const ROW: usize = 39;
/// Bytes of an output's row.
pub const OUT: usize = 7;
/// Queues of a router: four U, four Q from this number on, and from this one on the five senders of
/// each side.
pub const QUEUES: usize = 28;
pub const Q: usize = 4;
pub const SENDERS: usize = 8;

/// The groups after those of routers.
pub const ACTIVE_OUT: usize = 16;
pub const PASSIVE_OUT: usize = 17;
pub const ACTIVE_IN: usize = 18;
pub const PASSIVE_IN: usize = 19;
pub const GROUPS: usize = 20;

/// Capacities of interfaces, by their place in the plan; between them stand those of U, Q, F and K.
pub const CAP_ACTIVE_OUT: usize = 0;
pub const CAP_ACTIVE_IN: usize = 1;
pub const CAP_PASSIVE_IN: usize = 6;
pub const CAP_PASSIVE_OUT: usize = 7;

/// Phases and kinds.
pub const READ: u8 = 0;
pub const EXECUTE: u8 = 1;
pub const WRITE: u8 = 2;
pub const SETUP: u8 = 0;
pub const TDOWN: u8 = 1;
pub const ACK: u8 = 2;
pub const NACK: u8 = 3;

/// A packet as it stands in the bytes.
pub type Packet = [u8; 5];

impl Net {
    /// The first output's row.
    #[inline(always)]
    pub(crate) fn outputs_at(&self) -> usize {
        2 + 78 * (self.a + self.p) + 1092 * self.r
    }

    /// How many outputs there are.
    #[inline(always)]
    pub(crate) fn outputs(&self) -> usize {
        self.a + self.p + 6 * self.r
    }

    /// The first allowance.
    #[inline(always)]
    pub(crate) fn allowances_at(&self) -> usize {
        2 + 85 * (self.a + self.p) + 1134 * self.r
    }

    /// The first entry of the table.
    #[inline(always)]
    pub(crate) fn table_at(&self) -> usize {
        self.allowances_at() + self.a
    }

    /// The first byte of the marks.
    #[inline(always)]
    pub(crate) fn marks_at(&self) -> usize {
        self.table_at() + 256 * self.r
    }

    /// The byte of a mark, and its bit there.
    #[inline(always)]
    pub(crate) fn mark_at(&self, a: usize, p: usize, slot: usize) -> (usize, u8) {
        (self.marks_at() + 64 * a + 4 * p + slot / 8, 1 << (slot % 8))
    }

    /// The first byte of the turns: by output, the rank of the sender served last.
    #[inline(always)]
    pub(crate) fn turns_at(&self) -> usize {
        self.marks_at() + 64 * self.a
    }

    /// The state's bytes.
    #[inline(always)]
    pub(crate) fn size(&self) -> usize {
        self.turns_at() + self.outputs()
    }

    /// Slot minus hub modulo S.
    #[inline(always)]
    pub(crate) fn minus(&self, slot: u8, hub: u8) -> u8 {
        let s = self.s as u8;
        (slot + s - hub % s) % s
    }

    /// What an active may have under way.
    #[inline(always)]
    pub(crate) fn allowance(&self) -> u8 {
        self.cap[CAP_ACTIVE_OUT].min(self.cap[CAP_ACTIVE_IN])
    }

    /// The first row of a group.
    #[inline(always)]
    pub(crate) fn group_at(&self, group: usize) -> usize {
        let before = match group {
            ACTIVE_OUT => 0,
            PASSIVE_OUT => self.a,
            ACTIVE_IN => self.a + self.p + QUEUES * self.r,
            PASSIVE_IN => 2 * self.a + self.p + QUEUES * self.r,
            _ => self.a + self.p + QUEUES * group,
        };
        2 + ROW * before
    }

    /// The row of a queue, by its code.
    #[inline(always)]
    pub(crate) fn row_at(&self, code: usize) -> usize {
        self.group_at(code >> 5) + ROW * (code & 31)
    }

    /// The first output's row of a group that sends.
    #[inline(always)]
    pub(crate) fn outs_at(&self, group: usize) -> usize {
        self.outputs_at() + OUT * self.first_out(group)
    }

    /// The number of the first output of a group that sends.
    #[inline(always)]
    pub(crate) fn first_out(&self, group: usize) -> usize {
        match group {
            ACTIVE_OUT => 0,
            PASSIVE_OUT => self.a,
            _ => self.a + self.p + 6 * group,
        }
    }

    /// The capacities of a router's queues, by their numbers.
    #[inline(always)]
    pub(crate) fn router_caps(&self) -> [u8; QUEUES] {
        let [_, _, u, q, f, k, ..] = self.cap;
        let mut caps = [k; QUEUES];
        caps[..Q].fill(u);
        caps[Q..SENDERS].fill(q);
        for side in caps[SENDERS..].chunks_exact_mut(5) {
            side[..2].fill(f);
        }
        caps
    }
}

/// Eight bytes as one word.
#[inline(always)]
pub fn word(bytes: &[u8], at: usize) -> u64 {
    match bytes[at..].first_chunk::<8>() {
        Some(eight) => u64::from_le_bytes(*eight),
        None => 0,
    }
}

/// The lowest member of a set, which leaves it.
#[inline(always)]
pub fn take(set: &mut u32) -> usize {
    let lowest = set.trailing_zeros() as usize;
    *set &= *set - 1;
    lowest
}

/// A row that is read.
#[inline(always)]
pub fn row(state: &[u8], at: usize) -> &[u8; ROW] {
    const NONE: [u8; ROW] = [0; ROW];
    state[at..].first_chunk().unwrap_or(&NONE)
}

/// The packet in a row's place.
#[inline(always)]
pub fn place(row: &[u8; ROW], k: usize) -> &Packet {
    const NONE: Packet = [0; 5];
    row[4 + 5 * k..].first_chunk().unwrap_or(&NONE)
}

/// Takes a row's head away; the row has one.
#[inline(always)]
pub fn pop(state: &mut [u8], at: usize) -> Packet {
    let Some(row) = state[at..].first_chunk_mut::<ROW>() else { return [0; 5] };
    let head = [row[4], row[5], row[6], row[7], row[8]];
    row[3] -= 1;
    row.copy_within(9.., 4);
    row[ROW - 5..].fill(0);
    head
}

/// Puts a packet behind a row's packets; there is room.
#[inline(always)]
pub fn push(state: &mut [u8], at: usize, packet: Packet) {
    let Some(row) = state[at..].first_chunk_mut::<ROW>() else { return };
    let first = 4 + 5 * (row[3] & 7) as usize;
    row[3] += 1;
    if let Some(free) = row[first..].first_chunk_mut::<5>() {
        *free = packet;
    }
}

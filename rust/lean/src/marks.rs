//! The accepted connections: a bit each, behind the tables.

use crate::layout::*;
use crate::load::Net;

/// Marks of served pairs and slots of the plan only, each with all its entries, and no entry of two.
#[inline(always)]
pub fn marks_fit(net: &Net, state: &[u8]) -> bool {
    let marks = &state[net.marks_at()..net.turns_at()];
    let any = marks.chunks_exact(8).fold(0, |any, eight| any | word(eight, 0));
    any == 0 || each_fits(net, state, marks)
}

/// There is a mark.
#[inline(never)]
fn each_fits(net: &Net, state: &[u8], marks: &[u8]) -> bool {
    let mut claimed = [0; 64];
    for (a, row) in marks.chunks_exact(64).enumerate() {
        for (p, bits) in row.chunks_exact(4).enumerate() {
            let starts = bits.first_chunk().map_or(0, |four| u32::from_le_bytes(*four));
            if starts == 0 {
                continue;
            }
            // A start slot from S on has no entry, as the table has none there.
            let served = net.served[a & 15] >> p & 1 != 0;
            if !served || !claim(net, state, (a, p), starts, &mut claimed) {
                return false;
            }
        }
    }
    true
}

/// The connections of a pair with these start slots have their entries, and nobody claims them. By
/// port: the slots that are claimed.
#[inline(always)]
fn claim(
    net: &Net,
    state: &[u8],
    (a, p): (usize, usize),
    starts: u32,
    claimed: &mut [u32; 64],
) -> bool {
    let (mut port, mut slots) = (net.home[a & 31] as usize, starts);
    for _ in 0..16 {
        let out = (port & !3 | net.side(port >> 2, net.a + p)) & 63;
        let entries = &state[net.table_at() + 64 * out..];
        if claimed[out] & slots != 0 || !all_hold(entries, slots, 1 + (port & 3) as u8) {
            return false;
        }
        claimed[out] |= slots;
        let joint = net.joint[out];
        if joint >> 6 != 1 {
            break;
        }
        slots = slots << 1 & (u32::MAX >> (32 - net.s)) | slots >> (net.s - 1);
        port = (joint & 63) as usize;
    }
    true
}

/// Whether a side's entries of these slots are all this one.
#[inline(always)]
fn all_hold(entries: &[u8], slots: u32, entry: u8) -> bool {
    let Some(entries) = entries.first_chunk::<64>() else { return false };
    let (mut left, mut wrong) = (slots, 0);
    while left != 0 {
        wrong |= entries[(2 * take(&mut left)) & 63] ^ entry;
    }
    wrong == 0
}

//! The senders that outputs served last: a byte for each output, behind the marks.

use crate::layout::word;
use crate::load::Net;

/// What the bytes of a router's ways to the unit and back may have: ranks 0 to 3.
const RANKS: u64 = 0x0303;
/// The bytes of a router whose sides are all not joined.
const REST: u32 = 0x0404_0404;
/// Added to a byte, a rank above 4 has the highest bit, or had it before.
const ABOVE: u32 = 0x7b7b_7b7b;

/// Each is the rank of one of the output's senders; a side that is not joined has 4, as at Start.
#[inline(always)]
pub fn turns_fit(net: &Net, state: &[u8]) -> bool {
    let routers = net.turns_at() + net.first_out(0);
    let mut wrong = 0;
    // Outputs with one sender, in words from the last one on: marks stand before the first.
    let (mut at, mut left) = (routers - 8, net.first_out(0));
    while left > 8 {
        wrong |= word(state, at);
        at -= 8;
        left -= 8;
    }
    wrong |= word(state, at) >> (64 - 8 * left);
    for (x, joints) in net.joint.chunks_exact(4).enumerate().take(net.r) {
        let ranks = word(state, routers + 6 * x - 2) >> 16;
        let sides = ranks as u32;
        let high = (sides | sides.wrapping_add(ABOVE)) & 0x8080_8080;
        let unjoined = (sides ^ REST) & !joined(joints);
        wrong |= ranks >> 32 & !RANKS | (high | unjoined) as u64;
    }
    wrong == 0
}

/// All bits of the bytes whose joint has a kind.
#[inline(always)]
fn joined(joints: &[u8]) -> u32 {
    let joints = joints.first_chunk().map_or(0, |four| u32::from_le_bytes(*four));
    ((joints >> 6 | joints >> 7) & 0x0101_0101) * 0xFF
}

/// A set of N ranks as seen from the one behind the last: bit j is the j-th that is asked.
#[inline(always)]
pub fn in_turn<const N: usize>(senders: u32, last: u8) -> u32 {
    (senders | senders << N) >> ((last & 7) + 1) & ((1 << N) - 1)
}

/// The rank of the j-th of N that is asked.
#[inline(always)]
pub fn rank_asked<const N: usize>(j: usize, last: u8) -> usize {
    let rank = last as usize + 1 + j;
    if rank < N {
        rank
    } else {
        rank - N
    }
}

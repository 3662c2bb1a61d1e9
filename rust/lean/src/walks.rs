//! The walks from every router to every destination, and where packets of a pair may be.

use crate::layout::{take, Packet, ACK, ACTIVE_IN, NACK, PASSIVE_IN, SENDERS, SETUP, TDOWN};
use crate::load::Net;

/// So few destinations are taken one by one.
const FEW: usize = 8;

/// What stands for a queue where there is none.
pub const NO_QUEUE: usize = 640;

/// A packet's numbers.
#[derive(Clone, Copy)]
pub struct Numbers {
    pub kind: u8,
    pub a: usize,
    pub p: usize,
    pub slot: u8,
    pub hub: u32,
}

/// The numbers of a packet, whatever they are.
#[inline(always)]
pub fn numbers(bytes: &Packet) -> Numbers {
    let [kind, a, p, slot, hub] = *bytes;
    Numbers { kind, a: a as usize, p: p as usize, slot, hub: hub as u32 }
}

impl Net {
    /// A packet in range and of a served pair; its hub is left to its place.
    #[inline(always)]
    pub(crate) fn packet(&self, bytes: &Packet) -> Option<Numbers> {
        let k = numbers(bytes);
        let slot = k.slot as usize;
        if (k.kind > NACK) | (k.a >= self.a) | (k.p >= self.p) | (slot >= self.s) {
            return None;
        }
        (self.served[k.a & 15] >> k.p & 1 != 0).then_some(k)
    }

    /// The destination that a packet goes to.
    #[inline(always)]
    pub(crate) fn dest(&self, k: &Numbers) -> usize {
        if k.kind >= ACK {
            k.a
        } else {
            self.a + k.p
        }
    }

    /// The code of the queue that a packet joins by the wire into a port.
    #[inline(always)]
    pub(crate) fn enter(&self, port: usize, k: &Numbers) -> usize {
        let (r, i) = (port >> 2, port & 3);
        if k.kind < ACK {
            return 32 * r + i;
        }
        let o = self.side(r, k.a);
        32 * r + SENDERS + 5 * o + i + 1 + (i < o) as usize
    }

    /// The code of the queue beyond side o of router r.
    #[inline(always)]
    pub(crate) fn beyond(&self, r: usize, o: usize, k: &Numbers) -> usize {
        let joint = self.joint[(4 * r + o) & 63] as usize;
        match joint >> 6 {
            0 => NO_QUEUE,
            1 => self.enter(joint & 63, k),
            2 => 32 * ACTIVE_IN + (joint >> 2 & 15),
            _ => 32 * PASSIVE_IN + (joint >> 2 & 15),
        }
    }

    /// The code of the F of router r that a packet goes to from the unit.
    #[inline(always)]
    pub(crate) fn after_unit(&self, r: usize, k: &Numbers) -> usize {
        let o = self.side(r, self.dest(k));
        32 * r + SENDERS + 5 * o + (k.kind >= ACK) as usize
    }

    /// Does the walk, given by its routers, to destination d come in by this port?
    #[inline(always)]
    fn comes_by(&self, port: usize, walk: u32, d: usize) -> bool {
        let joint = self.joint[port & 63];
        let from = (joint >> 2 & 15) as usize;
        let leaves = self.by[from][(joint & 3) as usize] >> d;
        joint >> 6 == 1 && walk >> from & leaves & 1 != 0
    }
}

/// By router and destination: the routers on the walk between as a set, and from bit 16 on their
/// number; 0 where the walk does not arrive. Made when a state has something that is not idle.
pub struct Walks {
    up: [[u32; 32]; 16],
}

impl Walks {
    /// All walks of a plan: sweeps up and down the routers until nothing is new.
    #[inline(never)]
    pub fn new(net: &Net) -> Walks {
        let mut walks = Walks { up: [[0; 32]; 16] };
        let mut have = walks.ends(net);
        let full = (u64::MAX >> (64 - net.a - net.p)) as u32;
        loop {
            let mut new = 0;
            for x in 0..net.r {
                new |= walks.pull(net, &mut have, x);
            }
            if new == 0 {
                return walks;
            }
            let mut all = full;
            for x in (0..net.r).rev() {
                walks.pull(net, &mut have, x);
                all &= have[x & 31];
            }
            if all == full {
                return walks;
            }
        }
    }

    /// Walks of one router; by router, the destinations that they lead to.
    #[inline(always)]
    fn ends(&mut self, net: &Net) -> [u32; 32] {
        let mut have = [0; 32];
        for d in 0..net.a + net.p {
            let port = net.home[d & 31] as usize;
            let r = port >> 2 & 15;
            if net.by[r][port & 3] >> d & 1 != 0 {
                have[r] |= 1 << d;
                self.up[r][d & 31] = 1 << r | 1 << 16;
            }
        }
        have
    }

    /// Router x takes what its neighbours have; what is new.
    #[inline(always)]
    fn pull(&mut self, net: &Net, have: &mut [u32; 32], x: usize) -> u32 {
        let old = have[x & 31];
        let mut new = 0;
        for o in 0..4 {
            let n = net.next[x & 15][o] as usize;
            let k = net.by[x & 15][o] & have[n & 31] & !old;
            if k != 0 {
                new |= k;
                let more = 1 << x | 1 << 16;
                if net.a + net.p > FEW {
                    self.lengthen_all(x, n, k, more);
                } else {
                    self.lengthen(x, n, k, more);
                }
            }
        }
        have[x & 31] = old | new;
        new
    }

    /// The walks of x to these destinations are those of n and x more, one by one.
    #[inline(always)]
    fn lengthen(&mut self, x: usize, n: usize, to: u32, more: u32) {
        let mut left = to;
        while left != 0 {
            let d = take(&mut left) & 31;
            self.up[x & 15][d] = self.up[n & 15][d] + more;
        }
    }

    /// The same for a whole row at once.
    #[inline(always)]
    fn lengthen_all(&mut self, x: usize, n: usize, to: u32, more: u32) {
        let from = self.up[n & 15];
        for (d, (walk, from)) in self.up[x & 15].iter_mut().zip(from).enumerate() {
            let asked = if to & 1 << d != 0 { u32::MAX } else { 0 };
            *walk |= (from + more) & asked;
        }
    }

    /// The pair's walk.
    #[inline(always)]
    fn walk(&self, net: &Net, k: &Numbers) -> u32 {
        self.up[(net.home[k.a & 31] >> 2) as usize & 15][(net.a + k.p) & 31]
    }

    /// The number of routers on the pair's walk.
    #[inline(always)]
    fn length(&self, net: &Net, k: &Numbers) -> u32 {
        self.walk(net, k) >> 16
    }

    /// The index of r on the pair's walk and the walk's length.
    #[inline(always)]
    fn index(&self, net: &Net, r: usize, k: &Numbers) -> Option<(u32, u32)> {
        let walk = self.walk(net, k);
        if walk >> r & 1 == 0 {
            return None;
        }
        let length = walk >> 16;
        Some((length - (self.up[r & 15][(net.a + k.p) & 31] >> 16), length))
    }

    /// Does the pair's walk come in by this port of a router on it?
    #[inline(always)]
    fn came_by(&self, net: &Net, port: usize, k: &Numbers) -> bool {
        net.home[k.a & 31] as usize == port || net.comes_by(port, self.walk(net, k), net.a + k.p)
    }

    /// The side by which the pair's walk comes into r, a router on it: of the four the one that is
    /// the active's own, or whose neighbour is on the walk and leads here.
    #[inline(always)]
    pub fn side_in(&self, net: &Net, r: usize, k: &Numbers) -> usize {
        let by = |i| self.came_by(net, 4 * r + i, k);
        by(1) as usize + 2 * by(2) as usize + 3 * by(3) as usize
    }

    /// On the wire to the unit of r.
    #[inline(always)]
    pub fn fits_unit(&self, net: &Net, r: usize, k: &Numbers) -> bool {
        let Some((n, length)) = self.index(net, r, k) else { return false };
        match k.kind {
            SETUP => k.hub == n,
            TDOWN => k.hub >= 1 && n + k.hub <= length,
            _ => false,
        }
    }

    /// On the wire back from the unit of r, or in the F that the packet goes to.
    #[inline(always)]
    pub fn fits_done(&self, net: &Net, r: usize, k: &Numbers) -> bool {
        let Some((n, length)) = self.index(net, r, k) else { return false };
        match k.kind {
            SETUP => k.hub == n + 1,
            TDOWN => k.hub >= 1 && n + 1 + k.hub <= length,
            NACK => k.hub == n,
            _ => false,
        }
    }

    /// In U or Q of a port, not handled.
    #[inline(always)]
    pub fn fits_u(&self, net: &Net, port: usize, k: &Numbers) -> bool {
        self.fits_unit(net, port >> 2, k) && self.came_by(net, port, k)
    }

    /// The handled head of Q of a port.
    #[inline(always)]
    pub fn fits_handled(&self, net: &Net, port: usize, k: &Numbers) -> bool {
        self.fits_done(net, port >> 2, k) && self.came_by(net, port, k)
    }

    /// An answer that comes in by this port, and takes the side of its route.
    #[inline(always)]
    pub fn fits_k(&self, net: &Net, port: usize, k: &Numbers) -> bool {
        if k.kind < ACK {
            return false;
        }
        let home = net.home[(net.a + k.p) & 31] as usize;
        let length = self.length(net, k);
        let from = if k.hub == length {
            if home >> 2 == port >> 2 {
                return home == port;
            }
            home >> 2
        } else if k.kind == NACK && k.hub < length {
            self.router_at(net, k, length - k.hub)
        } else {
            return false;
        };
        net.comes_by(port, self.up[from & 15][k.a & 31], k.a)
    }

    /// The router of the pair's walk from which so many are left.
    #[inline(always)]
    fn router_at(&self, net: &Net, k: &Numbers, left: u32) -> usize {
        let d = (net.a + k.p) & 31;
        let mut set = self.walk(net, k) & 0xffff;
        while set != 0 {
            let y = take(&mut set);
            if self.up[y & 15][d] >> 16 == left {
                return y;
            }
        }
        0
    }

    /// In the in-queue of its active.
    #[inline(always)]
    pub fn fits_active_in(&self, net: &Net, k: &Numbers) -> bool {
        let length = self.length(net, k);
        k.kind == NACK && k.hub <= length || k.kind == ACK && k.hub == length
    }

    /// In the in-queue of its passive.
    #[inline(always)]
    pub fn fits_passive_in(&self, net: &Net, k: &Numbers) -> bool {
        k.kind == SETUP && k.hub == self.length(net, k)
    }

    /// In the out-queue of its active.
    #[inline(always)]
    pub fn fits_active_out(&self, net: &Net, k: &Numbers) -> bool {
        match k.kind {
            SETUP => k.hub == 0,
            TDOWN => k.hub >= 1 && k.hub <= self.length(net, k),
            _ => false,
        }
    }

    /// In the out-queue of its passive.
    #[inline(always)]
    pub fn fits_passive_out(&self, net: &Net, k: &Numbers) -> bool {
        k.kind >= ACK && k.hub == self.length(net, k)
    }

    /// On the wire out of side o of router r.
    #[inline(always)]
    pub fn fits_side(&self, net: &Net, r: usize, o: usize, k: &Numbers) -> bool {
        let joint = net.joint[(4 * r + o) & 63] as usize;
        let number = joint >> 2 & 15;
        match joint >> 6 {
            0 => false,
            1 if k.kind >= ACK => self.fits_k(net, joint & 63, k),
            1 => self.fits_u(net, joint & 63, k),
            2 => k.a == number && self.fits_active_in(net, k),
            _ => k.p == number && self.fits_passive_in(net, k),
        }
    }
}

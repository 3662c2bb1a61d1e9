//! Load: sets of destinations in words, all walks at once.

/// A one in each of four bytes.
const ONES: u32 = 0x0101_0101;

/// A loaded plan. A port is 4 * router + side; a destination is an active's number, or A + a
/// passive's; a set of destinations is a u32, of routers or actives a u16.
pub struct Net {
    pub(crate) r: usize,
    pub(crate) a: usize,
    pub(crate) p: usize,
    pub(crate) s: usize,
    pub(crate) cap: [u8; 8],
    /// By port, as in the plan; a router joint is 0x40 | partner's port.
    pub(crate) joint: [u8; 64],
    /// By router and side: the router joined there, or 16.
    pub(crate) next: [[u8; 4]; 16],
    /// by[r][o]: the destinations whose side at r is o.
    pub(crate) by: [[u32; 4]; 16],
    /// The two bits of every destination's side.
    pub(crate) bit: [[u32; 2]; 16],
    /// By destination: its port.
    pub(crate) home: [u8; 32],
    /// By active: its served passives.
    pub(crate) served: [u16; 16],
}

/// The ports with a joint, as sets: links to routers, and interfaces.
struct Joined {
    links: u64,
    ends: u64,
    /// A joint out of range was met.
    bad: bool,
}

/// Where served walks start.
struct Starts {
    /// The actives with a served pair.
    live: u32,
    /// By router: the passives of its actives' served pairs.
    walks: [u32; 16],
    /// The routers with any.
    routers: u16,
}

impl Net {
    /// No plan yet.
    pub const fn empty() -> Net {
        Net {
            r: 0,
            a: 0,
            p: 0,
            s: 0,
            cap: [0; 8],
            joint: [0; 64],
            next: [[16; 4]; 16],
            by: [[0; 4]; 16],
            bit: [[0; 2]; 16],
            home: [0; 32],
            served: [0; 16],
        }
    }

    /// Load: 0, or refusal 1 to 6.
    pub fn load(&mut self, plan: &[u8]) -> u32 {
        let Some(head) = plan.first_chunk() else { return 1 };
        if !self.read_head(head) {
            return 2;
        }
        if !self.length_fits(plan) {
            return 3;
        }
        let joined = self.read_joints(plan);
        let routes_fit = self.read_routes(plan);
        if joined.bad || !routes_fit {
            return 4;
        }
        let mut arrive = [0; 32];
        if !self.join(&joined, &mut arrive) {
            return 5;
        }
        let everywhere = self.reach(&mut arrive);
        let mut starts = self.serve(&arrive, everywhere);
        // A ring of queues is a ring of links, the sides that served walks leave by (then of their
        // F, U and Q), or one of K queues: from K and from an F of answers only K and in-queues are
        // fed. A router that is alone has neither.
        if self.r == 1 {
            return 0;
        }
        let mut follow = [0; 16];
        let carried = self.carried(&mut starts, &mut follow);
        let live = starts.live;
        let answers = arrive.map(|set| set & live);
        let rings = if self.may_ring(&follow) {
            self.links_rings::<true>(&answers, &carried)
        } else {
            self.links_rings::<false>(&answers, &carried)
        };
        // Answers were taken as if every router sent some: without a ring there is none of K queues.
        if rings != 0 && (rings >> self.a != 0 || self.answers_ring(&self.leaving())) {
            return 6;
        }
        0
    }

    /// Counts and capacities; whether they are in range.
    #[inline(always)]
    fn read_head(&mut self, head: &[u8; 6]) -> bool {
        let [b0, b1, b2, b3, b4, b5] = *head;
        let h = u64::from_be_bytes([0, 0, b0, b1, b2, b3, b4, b5]);
        self.r = (h >> 43) as usize;
        self.a = (h >> 38) as usize & 31;
        self.p = (h >> 33) as usize & 31;
        self.s = (h >> 27) as usize & 63;
        let capacities = h >> 3 & 0xff_ffff;
        self.cap = to_bytes(capacities).to_le_bytes();
        let counted = |count: usize| count.wrapping_sub(1) < 16;
        let counts = counted(self.r) & counted(self.a) & counted(self.p);
        let some = capacities | capacities >> 1 | capacities >> 2;
        counts & (self.s.wrapping_sub(2) < 31) & (some & 0o1111_1111 == 0o1111_1111)
    }

    /// All destinations.
    #[inline(always)]
    fn full(&self) -> u32 {
        (u64::MAX >> (64 - self.a - self.p)) as u32
    }

    /// Whether there are as many bytes as the counts give, and no bit behind the last field.
    #[inline(always)]
    fn length_fits(&self, plan: &[u8]) -> bool {
        let bits = 45 + 32 * self.r + 3 * self.r * (self.a + self.p);
        let behind = 0xff >> ((bits + 7) % 8 + 1);
        plan.len() == bits.div_ceil(8) && plan[plan.len() - 1] & behind as u8 == 0
    }

    /// The joints, four of a router at once. They begin with the last 3 bits of byte 5 + 4x.
    #[inline(always)]
    fn read_joints(&mut self, plan: &[u8]) -> Joined {
        let (r, a, p) = (self.r as u32, self.a as u32, self.p as u32);
        let (mut links, mut ends, mut bad) = (0, 0, 0);
        for x in 0..self.r {
            let Some(&[b0, b1, b2, b3, b4]) = plan[5 + 4 * x..].first_chunk() else { break };
            let joints = u32::from_be_bytes([b0, b1, b2, b3]) << 5 | b4 as u32 >> 3;
            self.joint[4 * (x & 15)..][..4].copy_from_slice(&joints.to_be_bytes());
            // By byte, 1 or 0: the two bits of the kind; whether it is a router's.
            let (high, low) = (joints >> 7 & ONES, joints >> 6 & ONES);
            let link = low & !high;
            // What the number must be below.
            let none = ONES & !(high | low);
            let most = none + link * r + (high & !low) * a + (high & low) * p;
            let number = joints >> 2 & (15 * ONES);
            bad |= (number + 0x80 * ONES - most) & (0x80 * ONES);
            bad |= (joints | joints >> 1) & ONES & !link;
            let linked = link * 0xff;
            self.next[x & 15] = (number & linked | (16 * ONES) & !linked).to_be_bytes();
            links |= sides(link) << (4 * x);
            ends |= sides(high) << (4 * x);
        }
        Joined { links, ends, bad: bad != 0 }
    }

    /// The routes, as sets of destinations; whether each is a side or none.
    #[inline(always)]
    fn read_routes(&mut self, plan: &[u8]) -> bool {
        let (full, count) = (self.full(), self.a + self.p);
        let mut at = 45 + 32 * self.r;
        let mut bad = 0;
        for x in 0..self.r {
            let (mut b0, mut b1, mut b2) = (0, 0, 0);
            let mut done = 0;
            while done < count {
                let fields = to_bytes(eight_fields(plan, at + 3 * done));
                b0 |= gather(fields) << done;
                b1 |= gather(fields >> 1) << done;
                b2 |= gather(fields >> 2) << done;
                done += 8;
            }
            at += 3 * count;
            let (b0, b1, b2) = (b0 as u32, b1 as u32, b2 as u32);
            bad |= b2 & !(b0 & b1) & full;
            let (even, odd) = (full & !b2 & !b0, full & !b2 & b0);
            self.by[x & 15] = [even & !b1, odd & !b1, even & b1, odd & b1];
            self.bit[x & 15] = [b0, b1];
        }
        bad == 0
    }

    /// Whether every link is named back by another router, and every interface has one joint; with
    /// that the routers from which a destination is one step away.
    #[inline(always)]
    fn join(&mut self, joined: &Joined, arrive: &mut [u32; 32]) -> bool {
        let (mut left, mut wrong) = (joined.links, false);
        while left != 0 {
            let k = left.trailing_zeros() as usize;
            left &= left - 1;
            let q = (self.joint[k & 63] & 63) as usize;
            wrong |= (q >> 2 == k >> 2) | (self.joint[q] != 0x40 | k as u8);
        }
        let (mut seen, mut twice) = (0, 0);
        left = joined.ends;
        while left != 0 {
            let k = left.trailing_zeros() as usize & 63;
            left &= left - 1;
            let j = self.joint[k];
            let before = if j >> 6 == 3 { self.a } else { 0 };
            let d = (before + (j >> 2 & 15) as usize) & 31;
            twice |= seen & 1 << d;
            seen |= 1 << d;
            self.home[d] = k as u8;
            arrive[k >> 2] |= self.by[k >> 2][k & 3] & 1 << d;
        }
        !wrong & (twice == 0) & (seen == self.full())
    }

    /// All walks at once, from their ends: sweeps up and down the routers until nothing is new, or
    /// nothing is left; where all routers arrive.
    #[inline(always)]
    fn reach(&self, arrive: &mut [u32; 32]) -> u32 {
        let full = self.full();
        loop {
            let (mut new, mut all) = (0, full);
            for x in 0..self.r {
                let v = self.pull(arrive, x);
                new |= v ^ arrive[x & 15];
                arrive[x & 15] = v;
                all &= v;
            }
            if new == 0 || all == full {
                return all;
            }
            all = full;
            for x in (0..self.r).rev() {
                let v = self.pull(arrive, x);
                arrive[x & 15] = v;
                all &= v;
            }
            if all == full {
                return all;
            }
        }
    }

    #[inline(always)]
    fn pull(&self, arrive: &[u32; 32], x: usize) -> u32 {
        let (by, next) = (&self.by[x & 15], &self.next[x & 15]);
        arrive[x & 15]
            | by[0] & arrive[next[0] as usize & 31]
            | by[1] & arrive[next[1] as usize & 31]
            | by[2] & arrive[next[2] as usize & 31]
            | by[3] & arrive[next[3] as usize & 31]
    }

    /// Served pairs. Where every router has a way back no walk need be looked at.
    #[inline(always)]
    fn serve(&mut self, arrive: &[u32; 32], everywhere: u32) -> Starts {
        let mut starts = Starts { live: 0, walks: [0; 16], routers: 0 };
        for x in 0..self.a {
            let h = (self.home[x & 31] >> 2) as usize & 15;
            let mut w = arrive[h] >> self.a << self.a;
            if everywhere >> x & 1 == 0 && w != 0 {
                let mut lost = 0;
                for (y, met) in self.spread(h, w).iter().enumerate() {
                    lost |= if arrive[y] >> x & 1 == 0 { *met } else { 0 };
                }
                w &= !lost;
            }
            self.served[x & 15] = (w >> self.a) as u16;
            if w != 0 {
                starts.live |= 1 << x;
                starts.walks[h] |= w;
                starts.routers |= 1 << h;
            }
        }
        starts
    }

    /// By router: the passives whose served walks meet it; and the routers that follow it on these.
    #[inline(always)]
    fn carried(&self, starts: &mut Starts, follow: &mut [u16; 16]) -> [u32; 32] {
        let Starts { walks: pend, routers: work, .. } = starts;
        let mut met = [0; 32];
        while *work != 0 {
            let x = work.trailing_zeros() as usize & 15;
            *work &= *work - 1;
            let m = core::mem::take(&mut pend[x]) & !met[x];
            met[x] |= m;
            for o in 0..4 {
                let (k, n) = (m & self.by[x][o], self.next[x][o]);
                if k != 0 && n < 16 {
                    follow[x] |= 1 << n;
                    pend[n as usize & 15] |= k;
                    *work |= 1 << n;
                }
            }
        }
        met
    }

    /// Whether routers may follow one another in a ring: some are left after those that nobody left
    /// follows are taken away, downwards and once more upwards. No ring of links is without one.
    #[inline(always)]
    fn may_ring(&self, follow: &[u16; 16]) -> bool {
        let mut left = (0xffffu32 >> (16 - self.r)) as u16;
        for x in (0..self.r).rev() {
            left &= !(((follow[x & 15] & left == 0) as u16) << x);
        }
        if left == 0 {
            return false;
        }
        for x in 0..self.r {
            left &= !(((follow[x & 15] & left == 0) as u16) << x);
        }
        left != 0
    }

    /// Which of these destinations' walks (they arrive) from router x meet each router.
    fn spread(&self, x: usize, to: u32) -> [u32; 16] {
        let mut met = [0u32; 16];
        let mut pend = [0u32; 16];
        pend[x & 15] = to;
        let mut work = 1u16 << x;
        while work != 0 {
            let x = work.trailing_zeros() as usize & 15;
            work &= work - 1;
            let m = core::mem::take(&mut pend[x]);
            met[x] |= m;
            for o in 0..4 {
                let (k, n) = (m & self.by[x][o], self.next[x][o]);
                if k != 0 && n < 16 {
                    pend[n as usize & 15] |= k;
                    work |= 1 << n;
                }
            }
        }
        met
    }

    /// The destinations of walks that leave by links which follow one another in a ring: of answers,
    /// and of set-ups where these count too. By router, a set of those that leave it; takes away those
    /// that leave by a link in no ring, until no more go.
    #[inline(always)]
    fn links_rings<const BOTH: bool>(&self, answers: &[u32; 32], carried: &[u32; 32]) -> u32 {
        let mut walks = *answers;
        if BOTH {
            for (walks, carried) in walks.iter_mut().zip(carried) {
                *walks |= carried;
            }
        }
        let mut leave = walks;
        let actives = (1u32 << self.a) - 1;
        loop {
            let (mut any, mut gone) = (0, 0);
            for x in 0..self.r {
                let stay = self.stay::<BOTH>(&leave, walks[x & 15], x, actives);
                leave[x & 15] = stay;
                any |= stay;
            }
            if any == 0 {
                return 0;
            }
            any = 0;
            for x in (0..self.r).rev() {
                let stay = self.stay::<BOTH>(&leave, walks[x & 15], x, actives);
                gone |= stay ^ leave[x & 15];
                leave[x & 15] = stay;
                any |= stay;
            }
            if any == 0 || gone == 0 {
                return any;
            }
        }
    }

    /// Of the walks that leave router x: those that leave by a side behind which one of them goes on,
    /// answers for themselves and set-ups for themselves.
    #[inline(always)]
    fn stay<const BOTH: bool>(&self, leave: &[u32; 32], walks: u32, x: usize, actives: u32) -> u32 {
        let (by, next) = (&self.by[x & 15], &self.next[x & 15]);
        let by_side = |o: usize| {
            let by_link = by[o] & walks;
            let on = by_link & leave[next[o] as usize & 31];
            if !BOTH {
                return if on != 0 { by_link } else { 0 };
            }
            let a = if on & actives != 0 { by_link & actives } else { 0 };
            let p = if on > actives { by_link & !actives } else { 0 };
            a | p
        };
        by_side(0) | by_side(1) | by_side(2) | by_side(3)
    }

    /// By port: the actives whose answers leave by it.
    fn leaving(&self) -> [u16; 64] {
        let mut leave = [0u16; 64];
        for x in 0..self.a {
            if self.served[x & 15] == 0 {
                continue;
            }
            let h = (self.home[x] >> 2) as usize;
            let met = self.spread(h, (self.served[x & 15] as u32) << self.a);
            let mut pass = 0u16;
            for (y, m) in met.iter().enumerate() {
                let mut y = y;
                while *m != 0 && pass >> y & 1 == 0 {
                    pass |= 1 << y;
                    let o = self.side(y, x);
                    leave[(4 * y + o) & 63] |= 1 << x;
                    if self.next[y & 15][o & 3] > 15 {
                        break;
                    }
                    y = self.next[y & 15][o & 3] as usize;
                }
            }
        }
        leave
    }

    /// A ring among the K queues, by counting in-degrees down. K[i,o] of r is 4 * port(r,i) + o.
    fn answers_ring(&self, leave: &[u16; 64]) -> bool {
        let mut succ = [0u8; 256]; // which K of the port beyond o
        let mut into = [0u8; 256];
        let mut node = [0u8; 256];
        let mut nodes = 0;
        for k in 0..4 * self.r {
            let j = self.joint[k & 63];
            if j >> 6 != 1 {
                continue;
            }
            let came = leave[(j & 63) as usize];
            if came == 0 {
                continue;
            }
            let r4 = k & 60;
            for o in 0..4 {
                let m = came & leave[r4 + o];
                let jo = self.joint[r4 + o];
                if m == 0 || jo >> 6 != 1 {
                    continue;
                }
                let q = (jo & 63) as usize;
                let mut f = 0u8;
                for o2 in 0..4 {
                    let e = (m & leave[(q & 60) + o2] != 0) as u8;
                    into[4 * q + o2] += e;
                    f |= e << o2;
                }
                succ[4 * k + o] = f;
                node[nodes & 255] = (4 * k + o) as u8;
                nodes += 1;
            }
        }
        // Nodes that feed another K; the others cannot be in a ring.
        let mut work = [0u8; 256];
        let mut n = 0;
        for &x in &node[..nodes] {
            work[n & 255] = x;
            n += (into[x as usize] == 0) as usize;
        }
        let mut at = 0;
        while at < n {
            let x = work[at & 255] as usize;
            at += 1;
            let mut f = succ[x];
            if f == 0 {
                continue;
            }
            // K[i,o] of r feeds those at the port joined to (r, o).
            let q = (self.joint[(x >> 2 & 60) + (x & 3)] & 63) as usize;
            while f != 0 {
                let y = 4 * q + f.trailing_zeros() as usize;
                f &= f - 1;
                into[y & 255] -= 1;
                if into[y & 255] == 0 && succ[y & 255] != 0 {
                    work[n & 255] = y as u8;
                    n += 1;
                }
            }
        }
        n != nodes
    }

    /// The side that the plan gives at a router for a destination.
    #[inline(always)]
    pub(crate) fn side(&self, r: usize, d: usize) -> usize {
        let b = &self.bit[r & 15];
        (b[0] >> d & 1 | (b[1] >> d & 1) << 1) as usize
    }
}

/// Eight fields of 3 bits from a bit of the plan on; what is behind the plan is 0.
#[inline(always)]
fn eight_fields(plan: &[u8], at: usize) -> u64 {
    let byte = (at >> 3).min(plan.len() - 4);
    let word = plan[byte..].first_chunk().map_or(0, |four| u32::from_be_bytes(*four));
    (word << (at - 8 * byte) >> 8) as u64
}

/// Eight fields of 3 bits, the first one highest, as eight bytes, the first one lowest.
#[inline(always)]
fn to_bytes(fields: u64) -> u64 {
    let v = fields >> 12 | (fields & 0xfff) << 32;
    let v = (v >> 6 & 0x3f_0000_003f) | (v & 0x3f_0000_003f) << 16;
    (v >> 3 & 0x0007_0007_0007_0007) | (v & 0x0007_0007_0007_0007) << 8
}

/// The lowest bit of each of eight bytes, as a set.
#[inline(always)]
fn gather(bytes: u64) -> u64 {
    (bytes & 0x0101_0101_0101_0101).wrapping_mul(0x0102_0408_1020_4080) >> 56
}

/// The lowest bit of each of four bytes, the first one highest, as a set.
#[inline(always)]
fn sides(bytes: u32) -> u64 {
    (bytes.wrapping_mul(0x0804_0201) >> 24 & 15) as u64
}

//! Which queue feeds which, and whether the feeding queues form a ring (Load's refusal 6).

use crate::fields::{Joint, SIDES};
use crate::plan::{Plan, Port};
use crate::walk::Hop;

/// The queues of a network.
#[derive(Clone, Copy, Debug, PartialEq, Eq)]
pub enum Queue {
    /// An active's out-queue.
    ActiveOut(usize),
    /// An active's in-queue.
    ActiveIn(usize),
    /// A passive's in-queue.
    PassiveIn(usize),
    /// A passive's out-queue.
    PassiveOut(usize),
    /// `U[from]` of a router: "system packets from side i, for the unit".
    U {
        /// The router.
        router: usize,
        /// The side its packets came in by.
        from: usize,
    },
    /// `Q[from]` of a router, "at the unit": "split Q by incoming side".
    Q {
        /// The router.
        router: usize,
        /// The side its packets came in by.
        from: usize,
    },
    /// `F[to]` of a router, "from unit to side o": "one queue for set-ups and tear-downs and one for
    /// answers".
    F {
        /// The router.
        router: usize,
        /// Which of the two.
        class: Class,
        /// The side its packets leave by.
        to: usize,
    },
    /// `K[from,to]` of a router: "answers crossing".
    K {
        /// The router.
        router: usize,
        /// The side its packets came in by.
        from: usize,
        /// The side its packets leave by.
        to: usize,
    },
}

/// What goes together from the unit to a side.
#[derive(Clone, Copy, Debug, PartialEq, Eq)]
pub enum Class {
    /// Set-ups and tear-downs.
    SetUps,
    /// ACKs and NACKs.
    Answers,
}

/// Numbers of the queues of one router: U, Q, both F, K (`K[i,i]` has a number and is never used).
const PER_ROUTER: usize = CROSSING + SIDES * SIDES;
/// The first of these that is a K.
const CROSSING: usize = 4 * SIDES;

impl Queue {
    /// This queue's number among `count(plan)`.
    pub fn index(self, plan: &Plan) -> usize {
        let routers = PER_ROUTER * plan.routers();
        let (actives, passives) = (plan.actives(), plan.passives());
        match self {
            Queue::U { router, from } => PER_ROUTER * router + from,
            Queue::Q { router, from } => PER_ROUTER * router + SIDES + from,
            Queue::F { router, class, to } => {
                PER_ROUTER * router + (2 + class as usize) * SIDES + to
            }
            Queue::K { router, from, to } => PER_ROUTER * router + CROSSING + SIDES * from + to,
            Queue::ActiveOut(number) => routers + number,
            Queue::ActiveIn(number) => routers + actives + number,
            Queue::PassiveIn(number) => routers + 2 * actives + number,
            Queue::PassiveOut(number) => routers + 2 * actives + passives + number,
        }
    }

    /// How many numbers there are.
    pub fn count(plan: &Plan) -> usize {
        PER_ROUTER * plan.routers() + 2 * (plan.actives() + plan.passives())
    }
}

/// Which queues document 02 (i) split. Neither split: document 01's queues.
#[derive(Clone, Copy, Debug, PartialEq, Eq)]
pub struct Split {
    /// "Split Q by incoming side."
    pub q: bool,
    /// "And `F[o]` into one queue for set-ups and tear-downs and one for answers."
    pub f: bool,
}

impl Split {
    /// The queues as they are.
    pub const BOTH: Split = Split { q: true, f: true };
    /// The queues as they were before the request.
    pub const NEITHER: Split = Split { q: false, f: false };

    /// The queue that stands for this one where not all are split.
    fn merged(self, queue: Queue) -> Queue {
        match queue {
            Queue::Q { router, .. } if !self.q => Queue::Q { router, from: 0 },
            Queue::F { router, to, .. } if !self.f => Queue::F { router, class: Class::SetUps, to },
            _ => queue,
        }
    }
}

/// The queues that one queue feeds: at most eight, for they are the queues behind one wire, or the
/// F of a router.
#[derive(Clone, Copy, Debug, Default)]
struct Fed {
    count: usize,
    queues: [u16; 2 * SIDES],
}

impl Fed {
    fn as_slice(&self) -> &[u16] {
        &self.queues[..self.count]
    }

    fn insert(&mut self, queue: u16) {
        if !self.as_slice().contains(&queue) {
            self.queues[self.count] = queue;
            self.count += 1;
        }
    }
}

/// "Queue X feeds Y if a packet of a served pair can go next from X to Y."
#[derive(Clone, Debug)]
pub struct Feeding<'a> {
    plan: &'a Plan,
    split: Split,
    fed: Vec<Fed>,
}

impl<'a> Feeding<'a> {
    /// All that feed, of all served pairs.
    pub fn of(plan: &'a Plan) -> Self {
        Feeding::with_split(plan, Split::BOTH)
    }

    /// The same where only these queues are split.
    pub fn with_split(plan: &'a Plan, split: Split) -> Self {
        let mut feeding = Feeding { plan, split, fed: vec![Fed::default(); Queue::count(plan)] };
        for active in 0..plan.actives() {
            feeding.add_active(active);
        }
        feeding
    }

    /// The served pairs of one active. A router that is on several of its walks sends its NACKs
    /// the same way for each of them, so these are added once for each side that walks come in by.
    fn add_active(&mut self, active: usize) {
        let plan = self.plan;
        let back = plan.ways_back(active);
        let mut declines = vec![[false; SIDES]; plan.routers()];
        for passive in 0..plan.passives() {
            let Some(walk) = plan.walk(active, passive) else { continue };
            if !walk.iter().all(|hop| back[hop.router].is_some()) {
                continue;
            }
            self.add_walk(active, passive, &walk);
            let last = plan.passive_port(passive);
            if let Some(back) = &back[last.router] {
                self.add_answers(passive, last, back);
            }
            for hop in &walk {
                declines[hop.router][hop.came_in] = true;
            }
        }
        for (back, sides) in back.iter().zip(declines) {
            for from in (0..SIDES).filter(|&from| sides[from]) {
                back.iter().for_each(|back| self.add_declines(from, back));
            }
        }
    }

    /// "Set-ups and tear-downs along the walk": active out, then U, Q, F of each router, then
    /// passive in.
    fn add_walk(&mut self, active: usize, passive: usize, walk: &[Hop]) {
        let mut before = Queue::ActiveOut(active);
        for &Hop { router, came_in: from, side: to } in walk {
            let u = Queue::U { router, from };
            let q = Queue::Q { router, from };
            let f = Queue::F { router, class: Class::SetUps, to };
            self.add(before, u);
            self.add(u, q);
            self.add(q, f);
            before = f;
        }
        self.add(before, Queue::PassiveIn(passive));
    }

    /// "ACKs back from the passive", and NACKs from it: passive out, then K of each router of the
    /// way back, then active in.
    fn add_answers(&mut self, passive: usize, last: Port, back: &[Port]) {
        let first = Queue::K { router: last.router, from: last.side, to: back[0].side };
        self.add(Queue::PassiveOut(passive), first);
        self.add_crossing(first, back);
    }

    /// "NACKs back from Q of each router on it": Q of the side that the walk comes in by, F towards
    /// the active, then K of each further router of the way back, then active in.
    fn add_declines(&mut self, from: usize, back: &[Port]) {
        let Port { router, side: to } = back[0];
        let first = Queue::F { router, class: Class::Answers, to };
        self.add(Queue::Q { router, from }, first);
        self.add_crossing(first, back);
    }

    /// An answer on its way back, from the queue `first` at the first router on.
    fn add_crossing(&mut self, first: Queue, back: &[Port]) {
        let mut from = first;
        for (at, &exit) in back.iter().enumerate() {
            let to = match self.plan.joint(exit) {
                Joint::Router { router, side } => {
                    Queue::K { router, from: side, to: back[at + 1].side }
                }
                Joint::Active(active) => Queue::ActiveIn(active),
                Joint::Nothing | Joint::Passive(_) => unreachable!("the way back arrives"),
            };
            self.add(from, to);
            from = to;
        }
    }

    fn add(&mut self, from: Queue, to: Queue) {
        let to = self.number(to) as u16;
        let from = self.number(from);
        self.fed[from].insert(to);
    }

    /// The number of the queue, or of the one that stands for it.
    fn number(&self, queue: Queue) -> usize {
        self.split.merged(queue).index(self.plan)
    }

    /// Whether X feeds Y.
    pub fn feeds(&self, x: Queue, y: Queue) -> bool {
        self.fed[self.number(x)].as_slice().contains(&(self.number(y) as u16))
    }

    /// Whether some queues feed each other in a ring.
    pub fn has_ring(&self) -> bool {
        self.has_ring_among(|_| true)
    }

    /// Whether there is a ring of queues other than K, and whether there is one of K: set-ups and
    /// tear-downs go round, or answers do.
    pub fn rings(&self) -> [bool; 2] {
        let crosses =
            |at: usize| at < PER_ROUTER * self.plan.routers() && at % PER_ROUTER >= CROSSING;
        [self.has_ring_among(|at| !crosses(at)), self.has_ring_among(crosses)]
    }

    /// Whether some of these queues feed each other in a ring: taking away, again and again, those
    /// that none of them feeds leaves some over.
    fn has_ring_among(&self, kept: impl Fn(usize) -> bool) -> bool {
        let fed = |from: usize| {
            let fed = self.fed[from].as_slice().iter().map(|&to| usize::from(to));
            fed.filter(|&to| kept(to))
        };
        let queues: Vec<usize> = (0..self.fed.len()).filter(|&at| kept(at)).collect();
        let mut feeders = vec![0_u16; self.fed.len()];
        for to in queues.iter().flat_map(|&from| fed(from)) {
            feeders[to] += 1;
        }
        let mut unfed: Vec<usize> = queues.iter().copied().filter(|&at| feeders[at] == 0).collect();
        let mut taken = 0;
        while let Some(from) = unfed.pop() {
            taken += 1;
            for to in fed(from) {
                feeders[to] -= 1;
                if feeders[to] == 0 {
                    unfed.push(to);
                }
            }
        }
        taken < queues.len()
    }
}

//! The calls of the pages: six lists, a caller that keeps a network busy, and one that waits until it is
//! empty.

use model::generate::Random;
use trace::net::Phase;
use trace::{Call, Connection, Kind, Queue, Run};

/// A number of whole rounds.
fn rounds(count: usize) -> Vec<Call> {
    [Call::Read, Call::Execute, Call::Write].repeat(count)
}

/// Document 01's first run: launched in round 0, accepted in round 4, dropped in round 7.
pub fn first() -> Vec<Call> {
    let launch = |slot| Call::Launch { active: 0, passive: 0, slot };
    let mut calls = vec![launch(0), launch(1)];
    calls.extend(rounds(4));
    calls.extend([Call::Read, Call::Execute, Call::Reply { passive: 0, choice: 1 }, Call::Write]);
    calls.extend(rounds(2));
    calls.extend([Call::Read, Call::Execute, Call::Drop { active: 0 }, Call::Write]);
    // The second set-up asks for the last free entry of the side.
    calls.push(launch(1));
    calls.extend(rounds(4));
    calls.extend([Call::Read, Call::Execute, Call::Drop { active: 0 }, Call::Write]);
    calls.extend([0, 1].map(|slot| Call::Entry { router: 0, side: 1, slot }));
    calls
}

/// "S=4, two routers, start 3, second declines": the second active takes the entry first.
pub fn declined() -> Vec<Call> {
    let mut calls = vec![Call::Launch { active: 1, passive: 0, slot: 0 }];
    calls.extend(rounds(4));
    calls.extend([Call::Read, Call::Execute, Call::Reply { passive: 0, choice: 1 }, Call::Write]);
    calls.extend(rounds(2));
    calls.extend([Call::Read, Call::Execute, Call::Drop { active: 1 }, Call::Write]);
    calls.push(Call::Launch { active: 0, passive: 0, slot: 3 });
    calls.extend(rounds(9));
    calls.extend([Call::Read, Call::Execute, Call::Drop { active: 0 }, Call::Write]);
    calls.extend(rounds(4));
    calls.extend([(0, 3), (1, 0)].map(|(router, slot)| Call::Entry { router, side: 1, slot }));
    calls
}

/// Two routers, start 3: opened, closed, and opened again from the same slot. Closed before its ACK
/// is dropped and closed twice it is refused.
pub fn closed() -> Vec<Call> {
    let close = Call::Close { active: 0, passive: 0, slot: 3 };
    let open = |late: &[Call]| {
        let mut calls = vec![Call::Launch { active: 0, passive: 0, slot: 3 }];
        calls.extend(rounds(8));
        let reply = Call::Reply { passive: 0, choice: 1 };
        calls.extend([Call::Read, Call::Execute, reply, Call::Write]);
        calls.extend(rounds(3));
        calls.extend_from_slice(late);
        calls.extend([Call::Read, Call::Execute, Call::Drop { active: 0 }, Call::Write]);
        calls
    };
    let mut calls = open(&[close]);
    calls.extend([close, close]);
    calls.extend(rounds(7));
    calls.extend(open(&[]));
    calls
}

/// One router: answers of the unit and of both passives take turns on the way to active 0, and before
/// that the set-ups of both actives on the way to the unit.
pub fn turns() -> Vec<Call> {
    let launch = |active, passive, slot| Call::Launch { active, passive, slot };
    let mut calls = vec![launch(1, 0, 4), launch(1, 1, 4), launch(0, 0, 0), launch(0, 1, 0)];
    calls.extend(rounds(6));
    // These two entries are active 1's: the unit declines.
    calls.extend([launch(0, 0, 4), launch(0, 1, 4)]);
    calls.extend(rounds(1));
    let replies = [0, 1].map(|passive| Call::Reply { passive, choice: 1 });
    calls.extend([Call::Read, Call::Execute, replies[0], replies[1], Call::Write]);
    calls.extend(rounds(6));
    calls.extend([Call::Read, Call::Execute, Call::Drop { active: 0 }, Call::Write]);
    calls
}

/// One router: in round 7 the third set-ups of both actives are heads of `Q[0]` and `Q[1]` and ask for the
/// same entry.
pub fn heads() -> Vec<Call> {
    let launch = |active, passive, slot| Call::Launch { active, passive, slot };
    let mut calls = vec![launch(0, 0, 0), launch(0, 0, 4), launch(0, 1, 1), launch(1, 0, 3)];
    calls.extend(rounds(2));
    calls.extend([launch(1, 0, 3), launch(1, 1, 1)]);
    calls.extend(rounds(9));
    calls
}

/// One router: two ACKs wait for active 0. Looked at in each phase, and only then dropped: then a Look
/// shows the second one, and a Drop must wait for the next round.
pub fn looked() -> Vec<Call> {
    let launch = |passive| Call::Launch { active: 0, passive, slot: 0 };
    let close = |passive| Call::Close { active: 0, passive, slot: 0 };
    let (look, drop) = (Call::Look { active: 0 }, Call::Drop { active: 0 });
    let mut calls = vec![launch(0), launch(1), look];
    calls.extend(rounds(6));
    let replies = [0, 1].map(|passive| Call::Reply { passive, choice: 1 });
    calls.extend([Call::Read, Call::Execute, replies[0], replies[1], Call::Write]);
    calls.extend(rounds(4));
    calls.extend([look, close(0), Call::Read, look, Call::Execute]);
    calls.extend([look, drop, look, drop, Call::Write, close(1), close(0)]);
    calls.extend([look, Call::Read, look, Call::Execute, look, drop, look, Call::Write]);
    calls.extend(rounds(3));
    calls
}

/// Waits before a wash: after some calls it asks Remaining in each phase, replies and drops where it can,
/// and ends when the network is empty.
#[derive(Clone, Debug)]
pub struct Waiter {
    before: std::vec::IntoIter<Call>,
    asked: Option<Phase>,
}

impl Waiter {
    /// Two set-ups under way, of which the second router declines one.
    pub fn new() -> Waiter {
        let launch = |active, slot| Call::Launch { active, passive: 0, slot };
        let before = [vec![launch(1, 0), launch(0, 3)], rounds(5)].concat();
        Waiter { before: before.into_iter(), asked: None }
    }

    /// The next call; none when it has told that nothing is under way.
    pub fn next(&mut self, run: &Run) -> Option<Call> {
        let phase = run.net().phase;
        if let Some(call) = self.before.next() {
            return Some(call);
        }
        if self.asked != Some(phase) {
            self.asked = Some(phase);
            return Some(Call::Remaining);
        }
        match phase {
            Phase::Read => (!run.net().is_empty()).then_some(Call::Read),
            Phase::Execute => Some(Call::Execute),
            Phase::Write => Some(act(run).unwrap_or(Call::Write)),
        }
    }
}

/// A Reply or a Drop that is not refused.
fn act(run: &Run) -> Option<Call> {
    let (plan, net) = (run.plan(), run.net());
    let head = |queue| {
        let row = net.row(plan, queue);
        row.packets.first().filter(|_| !row.flag)
    };
    let may_reply = |&passive: &usize| {
        let out = Queue::PassiveOut(passive);
        let room = net.row(plan, out).packets.len() < plan.capacity(out);
        head(Queue::PassiveIn(passive)).is_some() && room
    };
    let may_drop = |&active: &usize| {
        head(Queue::ActiveIn(active)).is_some_and(|head| head.kind != Kind::Nack || head.hub == 0)
    };
    let reply = (0..plan.passives()).find(may_reply);
    let reply = reply.map(|passive| Call::Reply { passive: passive as u32, choice: 1 });
    let drop = (0..plan.actives()).find(may_drop);
    reply.or(drop.map(|active| Call::Drop { active: active as u32 }))
}

/// Makes calls that keep a network busy, a few refused ones among them.
#[derive(Clone, Debug)]
pub struct Caller {
    random: Random,
    /// How often it goes on launching and answering, in parts of 16.
    eager: usize,
}

impl Caller {
    /// The caller of a seed.
    pub fn new(seed: u64, eager: usize) -> Caller {
        Caller { random: Random::new(seed), eager }
    }

    /// The next call, for the state as it is now.
    pub fn next(&mut self, run: &Run) -> Call {
        if self.random.chance(1, 30) {
            return self.stray(run);
        }
        if self.random.chance(1, 40) {
            return Call::Look { active: self.random.below(run.plan().actives()) as u32 };
        }
        match run.net().phase {
            Phase::Read => self.close(run).or(self.launch(run)).unwrap_or(Call::Read),
            Phase::Execute => Call::Execute,
            Phase::Write => self.answer(run).unwrap_or(Call::Write),
        }
    }

    /// Now and then a Close of an accepted connection.
    fn close(&mut self, run: &Run) -> Option<Call> {
        let closes = self.random.chance(1, 12);
        let Connection { active, passive, start } =
            self.random.pick(&run.net().accepted).filter(|_| closes)?;
        Some(Call::Close { active: active as u32, passive: passive as u32, slot: start as u32 })
    }

    /// A launch of a served pair whose active has allowance left.
    fn launch(&mut self, run: &Run) -> Option<Call> {
        let pairs = run.plan().pairs();
        let served = pairs.iter().filter(|pair| pair.served.is_ok());
        let can = served.filter(|pair| run.net().allowances[pair.active] > 0);
        let pairs: Vec<(usize, usize)> = can.map(|pair| (pair.active, pair.passive)).collect();
        let launches = self.random.chance(self.eager, 16);
        let (active, passive) = self.random.pick(&pairs).filter(|_| launches)?;
        let slot = self.random.below(run.plan().slots()) as u32;
        Some(Call::Launch { active: active as u32, passive: passive as u32, slot })
    }

    /// A Reply or a Drop where something waits.
    fn answer(&mut self, run: &Run) -> Option<Call> {
        let waits = |queue| {
            let row = run.net().row(run.plan(), queue);
            !row.flag && !row.packets.is_empty()
        };
        let passives = (0..run.plan().passives()).filter(|&n| waits(Queue::PassiveIn(n)));
        let actives = (0..run.plan().actives()).filter(|&n| waits(Queue::ActiveIn(n)));
        let choice = u32::from(self.random.chance(12, 16));
        let replies = passives.map(|n| Call::Reply { passive: n as u32, choice });
        let drops = actives.map(|n| Call::Drop { active: n as u32 });
        let calls: Vec<Call> = replies.chain(drops).collect();
        let answers = self.random.chance(self.eager, 16);
        self.random.pick(&calls).filter(|_| answers)
    }

    /// Any call, in any phase.
    fn stray(&mut self, run: &Run) -> Call {
        let plan = run.plan();
        let mut below = |bound: usize| self.random.below(bound + 1) as u32;
        let (active, passive) = (below(plan.actives()), below(plan.passives()));
        let (router, side, slot) = (below(plan.routers()), below(4), below(plan.slots()));
        match below(8) {
            0 => Call::Read,
            1 => Call::Execute,
            2 => Call::Write,
            3 => Call::Launch { active, passive, slot },
            4 => Call::Reply { passive, choice: slot % 3 },
            5 => Call::Look { active },
            6 => Call::Drop { active },
            7 => Call::Close { active, passive, slot },
            _ => Call::Entry { router, side, slot },
        }
    }
}

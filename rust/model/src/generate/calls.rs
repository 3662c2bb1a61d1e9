//! Random lists of calls that keep a network busy: real rounds with launches, closes, replies and
//! drops, looks and Remainings in every phase, and stray calls in any phase with any arguments.

use super::Random;
use crate::feeding::Queue;
use crate::fields::SIDES;
use crate::machine::list::Call;
use crate::machine::{Connection, Network, Phase, State};

/// How the callers behave for a while; each is a number of parts in 16.
#[derive(Clone, Copy, Debug)]
struct Mood {
    launch: usize,
    close: usize,
    reply: usize,
    accept: usize,
    look: usize,
    drop: usize,
    stray: usize,
    /// Launches ask for slots below this.
    slots: usize,
}

/// Makes the next call of a list.
#[derive(Clone, Debug)]
pub struct Caller {
    served: Vec<(usize, usize)>,
    mood: Mood,
    left: usize,
}

impl Caller {
    /// A caller for a network.
    pub fn new(random: &mut Random, network: &Network) -> Caller {
        let plan = network.plan();
        let pairs = (0..plan.actives()).flat_map(|a| (0..plan.passives()).map(move |p| (a, p)));
        let served = pairs.filter(|&(a, p)| network.journey(a, p).is_some()).collect();
        Caller { served, mood: Mood::new(random, network), left: 0 }
    }

    /// How many pairs there are to launch.
    pub fn pairs(&self) -> usize {
        self.served.len()
    }

    /// The next call, for the state as it is now.
    pub fn next(&mut self, random: &mut Random, network: &Network, state: &State) -> Call {
        if self.left == 0 && random.chance(1, 2) {
            self.mood = self.mood.crowd(random, network);
            self.left = random.within(30..=90);
        } else if self.left == 0 {
            self.mood = Mood::new(random, network);
            self.left = random.within(50..=300);
        }
        self.left -= 1;
        if random.chance(self.mood.stray, 160) {
            return stray(random, network);
        }
        if random.chance(1, 32) {
            return Call::Remaining;
        }
        let looks = random.chance(self.mood.look, 32);
        let look = if looks { look(random, network, state) } else { None };
        look.unwrap_or_else(|| match state.phase {
            Phase::Read => self.in_read(random, network, state),
            Phase::Execute => Call::Execute,
            Phase::Write => self.in_write(random, network, state),
        })
    }

    /// Launches mostly where the allowance is not spent.
    fn in_read(&self, random: &mut Random, network: &Network, state: &State) -> Call {
        let accepted = !state.marks.is_empty() || random.chance(1, 8);
        if accepted && random.chance(self.mood.close, 32) {
            return self.close(random, network, state);
        }
        let slot = random.below(self.mood.slots);
        let launches = random.chance(self.mood.launch, 16);
        match random.pick(&self.served).filter(|_| launches) {
            Some((active, passive)) if state.allowances[active] > 0 || random.chance(1, 8) => {
                Call::Launch { active, passive, slot }
            }
            _ => Call::Read,
        }
    }

    /// Mostly closes an accepted connection, and of these one whose out-queue is full, if there is
    /// one; else any connection of a served pair.
    fn close(&self, random: &mut Random, network: &Network, state: &State) -> Call {
        let accepted: Vec<Connection> = state.marks.iter().copied().collect();
        let full = |mark: &Connection| network.is_full(state, Queue::ActiveOut(mark.active));
        let held: Vec<Connection> = accepted.iter().copied().filter(full).collect();
        let held = random.pick(&held).filter(|_| random.chance(3, 4));
        let accepted = held.or(random.pick(&accepted)).filter(|_| !random.chance(1, 6));
        let slot = random.below(self.mood.slots);
        match (accepted, random.pick(&self.served)) {
            (Some(Connection { active, passive, start }), _) => {
                Call::Close { active, passive, slot: start.0 }
            }
            (None, Some((active, passive))) => Call::Close { active, passive, slot },
            (None, None) => Call::Read,
        }
    }

    /// Mostly where something waits, now and then where something was taken in this round already.
    fn in_write(&self, random: &mut Random, network: &Network, state: &State) -> Call {
        let plan = network.plan();
        let again = random.chance(1, 24);
        let waits = |queue| {
            let flag = state.flags[network.queue_index(queue)];
            if again {
                flag
            } else {
                !flag && !network.queue(state, queue).is_empty()
            }
        };
        let passives: Vec<usize> =
            (0..plan.passives()).filter(|&n| waits(Queue::PassiveIn(n))).collect();
        let actives: Vec<usize> =
            (0..plan.actives()).filter(|&n| waits(Queue::ActiveIn(n))).collect();
        let reply = random.pick(&passives).filter(|_| random.chance(self.mood.reply, 16));
        let drop = random.pick(&actives).filter(|_| random.chance(self.mood.drop, 16));
        match (reply, drop) {
            (Some(passive), _) => {
                let choice = usize::from(random.chance(self.mood.accept, 16));
                Call::Reply { passive, choice }
            }
            (None, Some(active)) => Call::Drop { active },
            (None, None) => Call::Write,
        }
    }
}

impl Mood {
    fn new(random: &mut Random, network: &Network) -> Mood {
        let often = |random: &mut Random| random.pick(&[0, 2, 8, 12, 15, 15, 15]).unwrap_or(8);
        Mood {
            launch: random.pick(&[0, 2, 6, 10, 14]).unwrap_or(6),
            close: random.pick(&[0, 1, 2, 6, 16]).unwrap_or(1),
            reply: often(random),
            accept: random.pick(&[0, 1, 2, 8, 14]).unwrap_or(1),
            look: random.pick(&[0, 1, 2, 6, 16]).unwrap_or(1),
            drop: often(random),
            stray: random.pick(&[0, 4, 16, 48]).unwrap_or(4),
            slots: random.within(1..=network.slots()),
        }
    }

    /// Everybody launches; passives hold their answers back until many wait, and then all answer at
    /// once, so that several senders compete at an output.
    fn crowd(&self, random: &mut Random, network: &Network) -> Mood {
        let reply = if self.reply == 0 { 16 } else { 0 };
        Mood { launch: 15, reply, drop: 15, slots: network.slots(), ..Mood::new(random, network) }
    }
}

/// Mostly where something waits, also with the flag up; else, now and then, wherever.
fn look(random: &mut Random, network: &Network, state: &State) -> Option<Call> {
    let actives = network.plan().actives();
    let waiting: Vec<usize> =
        (0..actives).filter(|&active| network.head(state, active).is_some()).collect();
    let any = random.chance(1, 16).then(|| random.below(actives));
    any.or(random.pick(&waiting)).map(|active| Call::Look { active })
}

/// Any call with any arguments, in range more often than not.
pub fn stray(random: &mut Random, network: &Network) -> Call {
    let plan = network.plan();
    let mut number = |bound: usize| {
        if random.chance(1, 12) {
            random.number() as usize
        } else {
            random.below(bound + 1)
        }
    };
    let (active, passive) = (number(plan.actives()), number(plan.passives()));
    let (router, side, slot) = (number(plan.routers()), number(SIDES), number(network.slots()));
    let choice = number(2);
    match random.below(10) {
        0 => Call::Read,
        1 => Call::Execute,
        2 => Call::Write,
        3 => Call::Launch { active, passive, slot },
        4 => Call::Reply { passive, choice },
        5 => Call::Look { active },
        6 => Call::Drop { active },
        7 => Call::Close { active, passive, slot },
        8 => Call::Remaining,
        _ => Call::Entry { router, side, slot },
    }
}

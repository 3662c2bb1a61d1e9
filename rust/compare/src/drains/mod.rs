//! Request (n), "Empty by a known round", on any implementation of the calls: random calls from Start,
//! and then, from a READ on, a program that waits. "The network is empty after at most 256 × S × N
//! rounds", it stays so, and "after that many rounds the table is the accepted connections' own".
//!
//! * `net`: calls on bytes, and what the bytes say. `busy`: random calls from Start.
//! * `slow`: lines on which a packet waits long at every router. `tally`: what was needed.

mod busy;
mod net;
mod slow;
mod tally;

use model::generate::states::{jam, scramble};
use model::generate::waiting::{Sight, Waiter};
use model::generate::{crossing, good, Draft, Random};
use model::machine::{Call, Network, Phase};
use model::{named, Plan, Queue};

use crate::calls::Calls;
use net::Net;
pub use tally::Drains;

/// Compares so many drains of each sort, all from a seed: from lists, from lines on which a packet waits
/// long, and from states that no list need reach. Panics where a network is not empty in time.
pub fn drains(calls: &Calls, seed: u64, [listed, slow, elsewhere]: [usize; 3]) -> Drains {
    let mut random = Random::new(seed);
    let mut tally = Drains::default();
    while tally.listed < listed {
        let plan = any_plan(&mut random, tally.listed);
        let mut net = Net::start(calls, Network::of(plan));
        let rounds = rounds(&mut random, &net);
        busy::busy(&mut net, &mut random, rounds);
        tally.note_queues(&net);
        let counts = drain(&mut net, &mut random, &mut tally);
        if let Some(&packets) = counts.first() {
            tally.note_first(&net, packets, counts.len());
            tally.listed += 1;
        }
    }
    for number in 0..slow {
        let mut net = slow::line(calls, &mut random, number);
        drain(&mut net, &mut random, &mut tally);
        tally.slow += 1;
    }
    while tally.elsewhere < elsewhere {
        let mut net = from_elsewhere(calls, &mut random);
        let counts = drain_from_elsewhere(&mut net, &mut random, &mut tally);
        tally.elsewhere += usize::from(!counts.is_empty());
    }
    tally
}

/// Some with a name, lines of sixteen and crossing ones among them; else random ones of all sizes,
/// every other one crossing, and most of them small and crowded.
fn any_plan(random: &mut Random, number: usize) -> Plan {
    let named: [fn() -> Draft; 6] = [
        named::largest,
        || crossing::line(16, 32, 7),
        || crossing::line(16, 4, 1),
        named::crossing_row,
        named::four_routers,
        named::plan_t,
    ];
    let draft = named.get(number % 64).map(|draft| draft());
    match (draft, number % 2, random.chance(3, 4)) {
        (Some(draft), _, _) => Plan::load(&draft.encode()).expect("loads"),
        (None, 0, false) => good::loadable(random),
        (None, _, false) => crossing::any(random),
        (None, 0, true) => narrowed(random, good::crowded),
        (None, _, true) => narrowed(random, crossing::crowded),
    }
}

/// Every other one has little room in out-queues.
fn narrowed(random: &mut Random, plan: fn(&mut Random) -> Plan) -> Plan {
    let mut fields = plan(random).fields().clone();
    if random.chance(1, 2) {
        fields.capacities.active_out = random.within(1..=2);
        fields.capacities.passive_out = random.within(1..=2);
    }
    Plan::load(&fields.encode()).expect("loads with any capacities")
}

/// Rounds of random calls: fewer where a call takes longer.
fn rounds(random: &mut Random, net: &Net) -> usize {
    let most = if net.network.plan().routers() > 5 { 60 } else { 90 };
    random.within(3..=most)
}

/// A state in READ that no list need reach.
fn from_elsewhere<'c>(calls: &'c Calls, random: &mut Random) -> Net<'c> {
    let plan = if random.chance(1, 2) { good::crowded(random) } else { crossing::crowded(random) };
    let mut net = Net::start(calls, Network::of(plan));
    let rounds = random.within(3..=40);
    busy::busy(&mut net, random, rounds);
    let mut state = net.network.decode(&net.bytes).expect("a state");
    scramble(random, &net.network, &mut state, 30);
    let mut jammed = state.clone();
    jam(random, &net.network, &mut jammed);
    let state = if net.network.is_state(&jammed) { jammed } else { state };
    net.bytes = net.network.encode(&state);
    net.accepted = state.marks;
    net
}

/// Waits until the network is empty, and S + 2 rounds longer; N at each READ before it was.
fn drain(net: &mut Net, random: &mut Random, tally: &mut Drains) -> Vec<usize> {
    let counts = wait(net, random, &mut |_| panic!("a list from start leaves a state"));
    tally.note_counts(net, &counts);
    assert!(net.table_is_their_own(), "the table of {:02X?}", net.network.plan().encode());
    tally.tables += usize::from(!net.accepted.is_empty());
    stays_empty(net, random);
    assert!(net.table_is_their_own(), "the table of {:02X?}", net.network.plan().encode());
    counts
}

/// The same from a state that no list need reach: the table may be another. A call there may part
/// accepted connections from the table; they are then forgotten, since nothing moves by them.
fn drain_from_elsewhere(net: &mut Net, random: &mut Random, tally: &mut Drains) -> Vec<usize> {
    let mut parted = 0;
    let counts = wait(net, random, &mut |net| {
        parted += 1;
        net.forget_connections();
    });
    tally.parted += parted;
    tally.note_counts(net, &counts);
    net.forget_connections();
    stays_empty(net, random);
    counts
}

/// A program that waits, until every queue and wire is empty; N at each READ on the way. At none of
/// them it is more than at the one before.
fn wait(net: &mut Net, random: &mut Random, parted: &mut dyn FnMut(&mut Net)) -> Vec<usize> {
    let mut waiter = Waiter::new(random);
    let mut counts: Vec<usize> = Vec::new();
    while net.packets() > 0 {
        let call = next(&mut waiter, random, net);
        if net.phase() == Phase::Read && call == Call::Read {
            let (packets, before) = (net.remaining(), counts.last().copied());
            assert!(before.is_none_or(|before| packets <= before), "N grew to {packets}");
            counts.push(packets);
            let [first, slots] = [counts[0], net.network.slots()];
            assert!(counts.len() <= 256 * slots * first, "not empty in time: {counts:?}");
        }
        if net.call(call) == 7 {
            parted(net);
            assert_ne!(net.call(call), 7, "{call:?}");
        }
    }
    counts
}

/// The waiting program's next call; where it is a Write, everybody has acted who could.
fn next(waiter: &mut Waiter, random: &mut Random, net: &Net) -> Call {
    let call = waiter.next(random, &net.network, net);
    let ends = call == Call::Write && net.phase() == Phase::Write;
    assert!(!ends || net.all_have_acted(), "somebody can still reply or drop");
    call
}

fn stays_empty(net: &mut Net, random: &mut Random) {
    let mut waiter = Waiter::new(random);
    let mut left = net.network.slots() + 2;
    while left > 0 {
        let call = next(&mut waiter, random, net);
        let answer = net.call(call);
        left -= usize::from(call == Call::Write && answer == 0);
        assert_eq!(net.remaining(), 0);
    }
}

/// "Each passive replies in every WRITE where it can": with one passive that never replies, and all
/// else as supposed, the packets that are left after 256 × S × N rounds, and N. The plan is T, or a
/// crowded one that is drawn until the passive has a set-up to wait for.
pub fn without_one_reply(calls: &Calls, seed: u64) -> (usize, usize) {
    let mut random = Random::new(seed);
    loop {
        let plan =
            if seed == 0 { Plan::load(&named::T) } else { Ok(crossing::crowded(&mut random)) };
        let mut net = Net::start(calls, Network::of(plan.expect("loads")));
        busy::busy(&mut net, &mut random, 12);
        let full = |&passive: &usize| net.is_full(Queue::PassiveIn(passive));
        let silent = (0..net.network.plan().passives()).find(full);
        let packets = net.remaining();
        if let Some(silent) = silent.filter(|_| packets * net.network.slots() <= 400) {
            for _ in 0..256 * net.network.slots() * packets {
                all_but_one_act(&mut net, silent);
            }
            return (net.remaining(), packets);
        }
    }
}

/// A round in which one passive does not reply.
fn all_but_one_act(net: &mut Net, silent: usize) {
    busy::turn(net, Call::Read);
    busy::turn(net, Call::Execute);
    let (actives, passives) = (net.network.plan().actives(), net.network.plan().passives());
    let replies = (0..passives).filter(|&passive| passive != silent);
    let replies = replies.map(|passive| Call::Reply { passive, choice: 1 });
    let drops = (0..actives).map(|active| Call::Drop { active });
    for act in replies.chain(drops).collect::<Vec<_>>() {
        if net.may(act) {
            assert_eq!(net.call(act), 0);
        }
    }
    busy::turn(net, Call::Write);
}

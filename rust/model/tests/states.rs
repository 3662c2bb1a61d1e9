//! Refusal 7, condition by condition, and states that no list reaches.

use std::collections::BTreeMap;

use model::generate::calls::Caller;
use model::generate::states::{scramble, CHANGES};
use model::generate::{crossing, good, Random};
use model::machine::claims::Claims;
use model::machine::{
    Call, Connection, Credit, Hub, Kind, Link, Network, Packet, Phase, Slot, State,
};
use model::{named, Class, Port, Queue};

const Q: Queue = Queue::Q { router: 0, from: 0 };
const TO_PASSIVE: Link = Link::Side(Port { router: 0, side: 1 });

fn t() -> Network {
    Network::load(&named::T).expect("loads")
}

/// Plan T after a launch in round 0 and so many accepted calls Read, Execute, Write.
fn t_after(phases: usize) -> (Network, State) {
    let network = t();
    let mut state = network.start();
    assert_eq!(network.launch(&mut state, 0, 0, 0), Ok(()));
    for _ in 0..phases {
        let call = match state.phase {
            Phase::Read => Call::Read,
            Phase::Execute => Call::Execute,
            Phase::Write => Call::Write,
        };
        assert!(network.call(&mut state, call).is_ok());
    }
    (network, state)
}

/// The change makes a state into none, by this fault, and every call refuses it with 7.
fn refused(phases: usize, fault: &str, change: impl Fn(&Network, &mut State)) {
    let (network, mut state) = t_after(phases);
    assert_eq!(network.fault(&state), None);
    change(&network, &mut state);
    let found = network.fault(&state).expect("not a state");
    assert!(found.contains(fault), "{found}");
    let before = state.clone();
    for call in [
        Call::Read,
        Call::Execute,
        Call::Write,
        Call::Launch { active: 0, passive: 0, slot: 0 },
        Call::Close { active: 9, passive: 0, slot: 0 },
        Call::Reply { passive: 0, choice: 1 },
        Call::Look { active: 9 },
        Call::Drop { active: 9 },
        Call::Entry { router: 0, side: 9, slot: 0 },
        Call::Remaining,
    ] {
        assert_eq!(network.call(&mut state, call), Err(7));
        assert_eq!(state, before);
    }
}

fn packet(kind: Kind, slot: usize, hub: usize) -> Packet {
    Packet { kind, active: 0, passive: 0, slot: Slot(slot), hub: Hub(hub) }
}

#[test]
fn form_and_ranges() {
    refused(0, "no state", |_, state| state.wires.truncate(3));
    refused(0, "no state", |network, state| {
        state.flags[network.queue_index(Queue::ActiveOut(0))] = true;
    });
    refused(0, "out of range", |_, state| state.slot = Slot(2));
    refused(0, "out of range", |_, state| state.table.set(0, 0, Slot(0), Some(4)));
    refused(0, "no free entry", |_, state| {
        state.table.set(0, 3, Slot(0), Some(3));
        state.table.set(0, 3, Slot(1), Some(0));
    });
}

#[test]
fn queues_and_packets() {
    refused(0, "over capacity", |network, state| {
        let out = &mut state.queues[network.queue_index(Queue::ActiveOut(0))];
        out.push_back(packet(Kind::Tdown, 0, 1));
    });
    for wrong in [
        packet(Kind::Setup, 2, 0),
        packet(Kind::Setup, 0, 1),
        packet(Kind::Tdown, 0, 0),
        packet(Kind::Tdown, 0, 2),
        packet(Kind::Nack, 0, 0),
        packet(Kind::Ack, 0, 1),
        Packet { active: 1, ..packet(Kind::Setup, 0, 0) },
        Packet { passive: 1, ..packet(Kind::Setup, 0, 0) },
    ] {
        refused(0, "packet", |network, state| {
            state.queues[network.queue_index(Queue::ActiveOut(0))][0] = wrong;
        });
    }
}

/// After seven phases the SETUP is in Q, not yet handled; after eight it is handled and picked.
#[test]
fn a_head_in_q_before_and_after_handling() {
    for wrong in [packet(Kind::Setup, 0, 1), packet(Kind::Tdown, 0, 2), packet(Kind::Nack, 0, 0)] {
        refused(7, "packet", |network, state| state.queues[network.queue_index(Q)][0] = wrong);
    }
    refused(7, "packet", |_, state| state.handled[0][0] = true);
    refused(8, "packet", |_, state| state.handled[0][0] = false);
    // Handled by the last router, no router is ahead of a TDOWN.
    refused(8, "packet", |network, state| {
        state.queues[network.queue_index(Q)][0] = packet(Kind::Tdown, 0, 1);
        state.allowances[0] += 1;
    });
    // A declined one is a NACK with hub 0, or, from the passive only, 1.
    let (network, mut state) = t_after(8);
    let head = network.queue_index(Q);
    state.queues[head][0] = packet(Kind::Nack, 0, 0);
    // It goes back to the active, so nothing is picked for the passive's side.
    assert_eq!(network.fault(&state), None);
    state.queues[head][0] = packet(Kind::Nack, 0, 1);
    assert!(!network.is_state(&state));
}

#[test]
fn wires_choices_flags_marks() {
    refused(3, "packet", |network, state| {
        let wire = network.link_index(Link::Active(0));
        state.wires[wire] = Some(packet(Kind::Ack, 0, 1));
    });
    refused(3, "wire full outside READ", |_, state| state.phase = Phase::Execute);
    refused(2, "choice", |_, state| state.phase = Phase::Read);
    refused(2, "choice", |network, state| {
        let f = Queue::F { router: 0, class: Class::SetUps, to: 1 };
        state.choices[network.link_index(TO_PASSIVE)] = Some(f);
    });
    refused(2, "choice", |network, state| {
        state.choices[network.link_index(TO_PASSIVE)] = Some(Queue::ActiveOut(0));
    });
    refused(1, "flag up in EXECUTE", |network, state| {
        let at = network.queue_index(Q);
        (state.flags[at], state.credits[at]) = (true, Credit(0));
    });
    refused(5, "flag up in EXECUTE or on a queue whose head is picked", |network, state| {
        state.flags[network.queue_index(Queue::U { router: 0, from: 0 })] = true;
    });
    for from in 0..4 {
        refused(0, "handled mark", |_, state| state.handled[0][from] = true);
    }
    // The mark of one Q is no other's.
    refused(8, "handled mark", |_, state| state.handled[0][1] = true);
}

/// "A packet where no journey of its pair puts it": in Q of another side than the walk comes in by,
/// a set-up in an answer F, an answer in a set-up F.
#[test]
fn packets_in_the_other_queues() {
    let class = [Class::SetUps, Class::Answers];
    let moved = |from: Queue, to: Queue| {
        move |network: &Network, state: &mut State| {
            let [from, to] = [from, to].map(|queue| network.queue_index(queue));
            let packet = state.queues[from].pop_front().expect("it is here");
            state.queues[to].push_back(packet);
            (state.credits[from], state.credits[to]) = (Credit(1), Credit(0));
        }
    };
    for from in 1..4 {
        refused(7, "out of place", moved(Q, Queue::Q { router: 0, from }));
    }
    let [set_up, answer] = class.map(|class| Queue::F { router: 0, class, to: 1 });
    refused(10, "out of place", moved(set_up, answer));
    // A NACK of the unit stands in the answer F of side 0 and in no other F.
    for (class, to) in [(class[0], 0), (class[0], 1), (class[1], 1), (class[1], 2)] {
        refused(0, "out of place", nack_in(Queue::F { router: 0, class, to }));
    }
    let (network, mut state) = t_after(0);
    nack_in(Queue::F { router: 0, class: Class::Answers, to: 0 })(&network, &mut state);
    assert_eq!(network.fault(&state), None);
}

/// The launched SETUP's place is empty and a NACK of the unit stands in this queue.
fn nack_in(queue: Queue) -> impl Fn(&Network, &mut State) {
    move |network, state| {
        state.queues[network.queue_index(Queue::ActiveOut(0))].clear();
        let at = network.queue_index(queue);
        state.queues[at].push_back(packet(Kind::Nack, 0, 0));
        state.credits[at] = Credit(0);
    }
}

/// The wire to the unit does not say which Q its packet joins, and no more does the sender that the
/// output remembers: the pair's walk does. After six phases the SETUP is on that wire.
#[test]
fn the_walk_tells_which_q_is_joined() {
    for rank in 0..4 {
        let (network, mut state) = t_after(6);
        let unit = network.link_index(Link::Unit(0));
        assert!(state.wires[unit].is_some());
        state.last[unit] = rank;
        assert_eq!(network.fault(&state), None);
        assert_eq!(network.read(&mut state), Ok(()));
        assert_eq!(network.queue(&state, Q).len(), 1);
        assert_eq!(network.fault(&state), None);
    }
    // Each Q has a credit of its own.
    for from in 1..4 {
        refused(6, "capacity", |network, state| {
            state.credits[network.queue_index(Q)] = Credit(1);
            state.credits[network.queue_index(Queue::Q { router: 0, from })] = Credit(0);
        });
    }
}

#[test]
fn sums() {
    refused(0, "capacity", |network, state| state.credits[network.queue_index(Q)] = Credit(0));
    refused(0, "capacity", |network, state| state.flags[network.queue_index(Q)] = true);
    refused(3, "capacity", |network, state| {
        state.credits[network.queue_index(Queue::U { router: 0, from: 0 })] = Credit(1);
    });
    refused(0, "allowance", |_, state| state.allowances[0] = 1);
    refused(3, "allowance", |_, state| state.allowances[0] = 1);
}

/// All four Q and all eight F have flag and credit, also those of sides that are not joined: the wires
/// to the unit and back feed them.
#[test]
fn queues_at_the_unit_are_fed() {
    for side in 0..4 {
        for queue in [
            Queue::Q { router: 0, from: side },
            Queue::F { router: 0, class: Class::SetUps, to: side },
            Queue::F { router: 0, class: Class::Answers, to: side },
        ] {
            let (network, mut state) = t_after(0);
            let at = network.queue_index(queue);
            state.flags[at] = true;
            assert!(network.fault(&state).is_some_and(|fault| fault.contains("capacity")));
            state.credits[at] = Credit(0);
            assert_eq!(network.fault(&state), None);
        }
    }
}

/// Of T's router sides 0 and 1 are joined: a raised flag stands for a credit in U and K of these. No
/// wire enters sides 2 and 3, so their U and K have neither flag nor credit, as Start left them.
#[test]
fn queues_that_no_wire_feeds() {
    let flagged = |network: &Network, state: &mut State, queue, credit| {
        let at = network.queue_index(queue);
        (state.flags[at], state.credits[at]) = (true, Credit(credit));
    };
    for (from, to) in [(0, 1), (1, 0), (0, 2), (1, 3)] {
        for queue in [Queue::U { router: 0, from }, Queue::K { router: 0, from, to }] {
            let (network, mut state) = t_after(0);
            flagged(&network, &mut state, queue, 0);
            assert_eq!(network.fault(&state), None);
            refused(0, "capacity", |network, state| flagged(network, state, queue, 1));
        }
    }
    for (from, to) in [(2, 0), (2, 3), (3, 1), (3, 2)] {
        for queue in [Queue::U { router: 0, from }, Queue::K { router: 0, from, to }] {
            refused(0, "no state", |network, state| flagged(network, state, queue, 0));
            refused(0, "no state", |network, state| flagged(network, state, queue, 1));
            refused(0, "no state", |network, state| {
                state.credits[network.queue_index(queue)] = Credit(1);
            });
        }
    }
}

/// Plan T's one connection from slot 0, and its entry of router 0, side 1.
const FROM_0: Connection = Connection { active: 0, passive: 0, start: Slot(0) };

/// "Refusal 7 covers a mark for an unserved pair, one lacking any of its entries"; and a bit for no
/// passive or slot of the plan.
#[test]
fn accepted_connections() {
    let (network, mut state) = t_after(0);
    state.marks.insert(FROM_0);
    state.table.set(0, 1, Slot(0), Some(0));
    assert_eq!(network.fault(&state), None);
    refused(0, "lacks an entry", |_, state| {
        state.marks.insert(FROM_0);
    });
    for other in 1..4 {
        refused(0, "lacks an entry", |_, state| {
            state.marks.insert(FROM_0);
            state.table.set(0, 1, Slot(0), Some(other));
        });
    }
    refused(0, "lacks an entry", |_, state| {
        state.marks.insert(Connection { start: Slot(1), ..FROM_0 });
        state.table.set(0, 1, Slot(0), Some(0));
    });
    for mark in [
        Connection { start: Slot(2), ..FROM_0 },
        Connection { start: Slot(31), ..FROM_0 },
        Connection { passive: 1, ..FROM_0 },
        Connection { passive: 15, ..FROM_0 },
    ] {
        refused(0, "mark or rank out of range", |_, state| {
            state.marks.insert(mark);
        });
    }
    for mark in [
        Connection { active: 1, ..FROM_0 },
        Connection { passive: 16, ..FROM_0 },
        Connection { start: Slot(32), ..FROM_0 },
    ] {
        refused(0, "no state", |_, state| {
            state.marks.insert(mark);
        });
    }
}

/// Actives 0 and 1 come in by sides 0 and 1; neither is served with passive 1.
#[test]
fn a_mark_for_an_unserved_pair() {
    let network = Network::load(&named::all_sides().encode()).expect("loads");
    for (active, served) in [(0, false), (1, false), (2, true)] {
        let mut state = network.start();
        let mark = Connection { active, passive: 1, start: Slot(3) };
        state.marks.insert(mark);
        for entry in network.entries_of(mark).into_iter().flatten() {
            entry.put(&mut state.table);
        }
        assert_eq!(network.fault(&state), (!served).then_some("a mark for an unserved pair"));
    }
}

/// The fault of a state where these are accepted, one booked after the other.
fn fault_of(network: &Network, accepted: [(usize, usize, usize); 2]) -> Option<&'static str> {
    let mut state = network.start();
    for (active, passive, start) in accepted {
        let mark = Connection { active, passive, start: Slot(start) };
        state.marks.insert(mark);
        for entry in network.entries_of(mark).expect("served") {
            entry.put(&mut state.table);
        }
    }
    network.fault(&state)
}

/// "Or two that share an entry": the walks of active 0 to passives 0 and 1 leave the first two
/// routers by the same sides. Each of two from one start slot has all its entries.
#[test]
fn two_marks_that_share_an_entry() {
    let network = Network::load(&named::four_routers().encode()).expect("loads");
    for start in 0..8 {
        let shares = (start == 3).then_some("two marks that share an entry");
        assert_eq!(fault_of(&network, [(0, 0, 3), (0, 1, start)]), shares);
        // Active 1 comes into the first router by another side, so one of the two lacks an entry.
        let lacks = (start == 3).then_some("a mark that lacks an entry");
        assert_eq!(fault_of(&network, [(0, 0, 3), (1, 0, start)]), lacks);
    }
    // By another side of the router in the middle: the first router's entry is shared all the same.
    assert_eq!(fault_of(&network, [(0, 0, 3), (0, 2, 3)]), Some("two marks that share an entry"));
    assert_eq!(fault_of(&network, [(0, 0, 3), (2, 0, 3)]), None);
}

/// What an output remembers is the rank of one of its senders; of T's sides 2 and 3 are not joined
/// and remember the last in order, as at start.
#[test]
fn senders_last_served() {
    let side = |side| Link::Side(Port { router: 0, side });
    let last = |link: Link, rank| {
        move |network: &Network, state: &mut State| state.last[network.link_index(link)] = rank
    };
    for (link, ranks) in [(side(0), 5), (side(1), 5), (Link::Unit(0), 4), (Link::Back(0), 4)] {
        for rank in 0..ranks {
            let (network, mut state) = t_after(2);
            last(link, rank)(&network, &mut state);
            assert_eq!(network.fault(&state), None);
        }
    }
    for side in [0, 1, 2, 3].map(side) {
        refused(1, "rank out of range", last(side, 5));
        refused(1, "rank out of range", last(side, 255));
    }
    for link in [Link::Unit(0), Link::Back(0)] {
        refused(1, "rank out of range", last(link, 4));
        refused(1, "rank out of range", last(link, 255));
    }
    for link in [Link::Active(0), Link::Passive(0)] {
        refused(1, "rank out of range", last(link, 1));
    }
    for (link, rank) in [(side(2), 0), (side(2), 3), (side(3), 1)] {
        refused(1, "a side that is not joined", last(link, rank));
    }
    refused(1, "no state", |_, state| state.last.truncate(3));
}

#[test]
fn a_candidate_may_stand_without_a_choice() {
    let (network, mut state) = t_after(2);
    state.choices.fill(None);
    assert_eq!(network.fault(&state), None);
}

#[test]
fn refusals_come_in_order() {
    let (network, mut state) = t_after(0);
    assert_eq!(network.reply(&mut state, 9, 9), Err(8));
    assert_eq!(network.drop(&mut state, 9), Err(8));
    assert_eq!((network.look(&state, 1), network.look(&state, 0)), (Err(9), Err(13)));
    assert_eq!(network.launch(&mut state, 1, 0, 0), Err(9));
    assert_eq!(network.launch(&mut state, 0, 1, 0), Err(9));
    assert_eq!(network.launch(&mut state, 0, 0, 2), Err(9));
    assert_eq!(network.launch(&mut state, 0, 0, 0), Err(11));
    assert_eq!(network.entry(&state, 1, 0, 0), Err(9));
    assert_eq!(network.entry(&state, 0, 3, 1), Ok(4));
    let (network, mut state) = t_after(14);
    assert_eq!(network.launch(&mut state, 9, 9, 9), Err(8));
    assert_eq!(network.reply(&mut state, 1, 0), Err(9));
    assert_eq!(network.reply(&mut state, 0, 2), Err(9));
    assert_eq!(network.reply(&mut state, 0, 0), Ok(()));
    assert_eq!(network.reply(&mut state, 0, 0), Err(14));
    assert_eq!((network.drop(&mut state, 1), network.drop(&mut state, 0)), (Err(9), Err(13)));
    assert_eq!((network.look(&state, 1), network.look(&state, 0)), (Err(9), Err(13)));
    let unserved = named::all().into_iter().find(|plan| plan.name == "no-served-pair");
    let network = Network::load(&unserved.expect("named").bytes).expect("loads");
    assert_eq!(network.launch(&mut network.start(), 0, 0, 0), Err(10));
}

/// What was met on states that no list reaches.
#[derive(Debug, Default)]
struct Met {
    calls: usize,
    /// Changes that left a state.
    kept: usize,
    /// Changes that left none, by their fault.
    faults: BTreeMap<&'static str, usize>,
    /// States with a mark, after the changes.
    marked: usize,
    /// Calls that parted the accepted connections from the table.
    parted: usize,
    longest_wait: usize,
}

/// Every call on a state leaves one but for what ties the accepted connections to the table, and
/// packets go on moving, also from states that no list reaches; what is no state is refused with 7
/// by every call.
#[test]
fn states_that_no_list_reaches() {
    let mut random = Random::new(41);
    let mut met = Met::default();
    while met.calls < 400_000 {
        let crossed = [crossing::any, crossing::crowded][random.below(2)];
        let plan = if random.chance(1, 2) { crossed } else { good::loadable };
        let network = Network::of(plan(&mut random));
        let mut caller = Caller::new(&mut random, &network);
        if caller.pairs() < 2 {
            continue;
        }
        let mut state = network.start();
        for _ in 0..20 {
            met.kept += scramble(&mut random, &network, &mut state, 60);
            met.marked += usize::from(!state.marks.is_empty());
            if let Some(fault) = refuses_a_change(&mut random, &network, &state) {
                *met.faults.entry(fault).or_default() += 1;
            }
            run_from(&mut random, &network, &mut caller, &mut state, &mut met);
        }
    }
    println!("{met:?}");
    let no_states: usize = met.faults.values().sum();
    assert!(met.kept > 10_000 && no_states > 1_000 && met.marked > 1_000, "{met:?}");
    assert!(met.parted > 100, "{met:?}");
    for fault in [
        "slot, entry, mark or rank out of range",
        "a side that is not joined and has served a sender",
        "a mark for an unserved pair",
        "a mark that lacks an entry",
        "two marks that share an entry",
    ] {
        assert!(met.faults.get(fault).is_some_and(|&count| count > 10), "{fault}: {met:?}");
    }
}

/// Some calls from a state. One that leaves no state is undone, after every call refused what it
/// left.
fn run_from(
    random: &mut Random,
    network: &Network,
    caller: &mut Caller,
    state: &mut State,
    met: &mut Met,
) {
    let mut claims = Claims::new(network, state);
    for _ in 0..random.within(1..=150) {
        let call = caller.next(random, network, state);
        let before = state.clone();
        let answer = network.call(state, call);
        let claim = claims.after_from_any_state(call, answer, &before, state);
        let plan = network.plan();
        claim.unwrap_or_else(|fault| panic!("{fault} after {call:?}: {plan:?} {before:?}"));
        met.calls += 1;
        if !network.is_state(state) {
            assert_eq!(network.call(state, Call::Read), Err(7));
            met.parted += 1;
            *state = before;
            return;
        }
    }
    met.longest_wait = met.longest_wait.max(claims.longest_wait);
}

/// Changes a state once; if that leaves no state, a call refuses it with 7 and alters nothing. The
/// fault, then.
fn refuses_a_change(random: &mut Random, network: &Network, state: &State) -> Option<&'static str> {
    let mut changed = state.clone();
    CHANGES[random.below(CHANGES.len())](random, network, &mut changed);
    let fault = network.fault(&changed)?;
    let before = changed.clone();
    assert_eq!(network.call(&mut changed, Call::Read), Err(7));
    assert_eq!(changed, before);
    Some(fault)
}

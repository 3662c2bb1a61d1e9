//! Random runs: every packet is followed, and every booked entry has exactly one owner, the one
//! that the packets and the accepted connections tell.

use std::collections::{BTreeSet, HashMap};

use model::generate::{calls::Caller, crossing, good, Random};
use model::machine::{self, Network, Rules};
use trace::place::SIDES;
use trace::run::{Cell, Seated};
use trace::{
    words, Answer, Call, Calls, Entry, Hold, Kind, Modelled, Names, Net, Plan, Port, Proved, Queue,
    Run, Step,
};

/// The same call of the crate `trace`.
fn call(call: machine::Call) -> Call {
    let n = |number: usize| number as u32;
    match call {
        machine::Call::Read => Call::Read,
        machine::Call::Execute => Call::Execute,
        machine::Call::Write => Call::Write,
        machine::Call::Launch { active, passive, slot } => {
            Call::Launch { active: n(active), passive: n(passive), slot: n(slot) }
        }
        machine::Call::Close { active, passive, slot } => {
            Call::Close { active: n(active), passive: n(passive), slot: n(slot) }
        }
        machine::Call::Reply { passive, choice } => {
            Call::Reply { passive: n(passive), choice: n(choice) }
        }
        machine::Call::Look { active } => Call::Look { active: n(active) },
        machine::Call::Drop { active } => Call::Drop { active: n(active) },
        machine::Call::Entry { router, side, slot } => {
            Call::Entry { router: n(router), side: n(side), slot: n(slot) }
        }
        machine::Call::Remaining => Call::Remaining,
    }
}

/// A random loadable plan, every third a small one whose set-ups cross, and the model's network of it.
fn random_plan(random: &mut Random) -> (Plan, Network) {
    let bytes = match random.chance(1, 3) {
        true => crossing::crowded(random).encode(),
        false => good::loadable(random).encode(),
    };
    let network = Network::load(&bytes).unwrap();
    let plan = network.plan();
    let names = Names::numbered(plan.routers(), plan.actives(), plan.passives());
    (Plan::load(&bytes, names).unwrap(), network)
}

/// The entries that a packet tells of: a SETUP, ACK or unmarked NACK of hub routers from slot minus
/// hub on; a TDOWN of hub routers from the router it has not handled yet.
fn told(run: &Run, seated: &Seated) -> Vec<Cell> {
    let (plan, packet) = (run.plan(), seated.packet);
    let walk = &plan.served(packet.active.into(), packet.passive.into()).unwrap().walk;
    let (slots, hub, slot) = (plan.slots(), usize::from(packet.hub), usize::from(packet.slot));
    let launch = run.book().launch_of(seated.id);
    let start = run.book().connections[launch.connection].start;
    // A tear-down's slot is start + n at the n-th router.
    let first = (0..walk.len()).find(|n| (start + n) % slots == slot).unwrap_or(0);
    let from = if packet.kind == Kind::Tdown { first } else { 0 };
    let cell = |n: usize| {
        let port = Port { router: walk[n].router, side: walk[n].side };
        Cell { port, slot: (start + n) % slots }
    };
    (from..from + hub).map(cell).collect()
}

/// How a packet's launch holds what the packet tells of.
fn hold(run: &Run, seated: &Seated) -> Hold {
    match seated.packet.kind {
        Kind::Setup | Kind::Ack => Hold::UnderWay,
        Kind::Nack => Hold::LeftBehind,
        Kind::Tdown if run.book().launch_of(seated.id).closed => Hold::Closing,
        Kind::Tdown => Hold::TearingDown,
    }
}

fn check_owners(run: &Run) {
    let plan = run.plan();
    let mut owners: HashMap<Cell, (usize, Hold)> = HashMap::new();
    for seated in run.packets() {
        let connection = run.book().connection_of(seated.id);
        for cell in told(run, &seated) {
            let other = owners.insert(cell, (connection, hold(run, &seated)));
            assert_eq!(other, None, "two packets own {cell:?}");
        }
    }
    for &connection in &run.book().accepted {
        for (cell, _) in Run::entries_of(plan, run.book().connections[connection]).unwrap() {
            let other = owners.insert(cell, (connection, Hold::Accepted));
            assert_eq!(other, None, "two own {cell:?}");
        }
    }
    for router in 0..plan.routers() {
        for (side, slot) in (0..SIDES).flat_map(|s| (0..plan.slots()).map(move |t| (s, t))) {
            let port = Port { router, side };
            let owner = run.owner(port, slot);
            let found = owner.map(|owner| (owner.connection, owner.hold));
            assert_eq!(found, owners.get(&Cell { port, slot }).copied());
            assert_eq!(owner.is_some(), run.net().entry(port, slot) != Entry::Free);
        }
    }
}

#[test]
fn random_runs_are_followed() {
    let mut random = Random::new(10);
    let (mut declined, mut left, mut accepted, mut closed) = (0, 0, 0, 0);
    for _ in 0..150 {
        let (plan, network) = random_plan(&mut random);
        if plan.slots() <= plan.routers() {
            // A walk may then use one slot twice, and the slot does not tell the router.
            continue;
        }
        let proved = Proved::new(&plan);
        let modelled = Modelled::new(&plan, Rules::default());
        let mut run = Run::new(&plan, &proved);
        let mut other = Run::new(&plan, &modelled);
        let mut caller = Caller::new(&mut random, &network);
        let mut told = BTreeSet::new();
        for _ in 0..400 {
            let state = network.decode(run.bytes()).unwrap();
            let next = call(caller.next(&mut random, &network, &state));
            let before = run.net().clone();
            let (step, same) = (run.call(next), other.call(next));
            assert_eq!((step.answer, &step.events), (same.answer, &same.events));
            assert_eq!(run.bytes(), other.bytes());
            assert!(!words::step(&run, &step).is_empty());
            check_owners(&run);
            tell(&mut told, &plan, &before, &step);
            let kept = run.net().accepted.iter().map(|c| (c.active, c.passive, c.start));
            assert!(kept.eq(told.iter().copied()));
        }
        let book = run.book();
        accepted += book.accepted.len();
        closed += book.launches.iter().filter(|launch| launch.closed).count();
        declined += book.launches.iter().filter(|launch| launch.declined.is_some()).count();
        left += book.packets.iter().filter(|made| made.parent.is_some()).count();
    }
    assert!(accepted > 30 && closed > 40, "{accepted} {closed}");
    assert!(declined > 400 && left > 50, "{declined} {left}");
}

/// The accepted connections as the calls and the states before them tell them; and a Look shows the
/// head, and nothing is changed.
fn tell(told: &mut BTreeSet<(usize, usize, usize)>, plan: &Plan, before: &Net, step: &Step) {
    let head = |active: u32| {
        let row = before.row(plan, Queue::ActiveIn(active as usize));
        row.packets.first().copied()
    };
    match (step.call, step.answer) {
        (Call::Look { active }, Ok(answer)) => {
            assert_eq!(Some(answer), head(active).map(Answer::Packet));
        }
        (Call::Drop { active }, Ok(answer)) => {
            assert_eq!(answer, Answer::Done);
            let packet = head(active).expect("something was dropped");
            if packet.kind == Kind::Ack {
                let (slots, hub) = (plan.slots(), usize::from(packet.hub));
                let start = (usize::from(packet.slot) + slots - hub % slots) % slots;
                told.insert((packet.active.into(), packet.passive.into(), start));
            }
        }
        (Call::Close { active, passive, slot }, Ok(_)) => {
            assert!(told.remove(&(active as usize, passive as usize, slot as usize)));
        }
        _ => {}
    }
}

#[test]
fn every_place_has_its_number() {
    let mut random = Random::new(11);
    for _ in 0..50 {
        let (plan, _) = random_plan(&mut random);
        for number in 0..plan.queue_count() {
            assert_eq!(plan.queue_number(plan.queue(number)), number);
            let name = plan.names().queue(plan.queue(number));
            assert_eq!(plan.names().find_queue(&name), Some(plan.queue(number)));
        }
        for number in 0..plan.output_count() {
            assert_eq!(plan.output_number(plan.output(number)), number);
        }
        assert_eq!(plan.fields().encode(), plan.bytes());
    }
}

/// Two routers by a student's rule: launched again and again, the passive accepts or declines, what
/// is accepted is closed in every READ.
fn follow_rule(set: fn(&mut Rules), choice: u32) -> usize {
    let bytes = model::named::two_routers().encode();
    let plan = Plan::load(&bytes, Names::numbered(2, 1, 1)).unwrap();
    let mut rules = Rules::default();
    set(&mut rules);
    let modelled = Modelled::new(&plan, rules);
    assert_eq!(modelled.start(), Proved::new(&plan).start());
    let mut run = Run::new(&plan, &modelled);
    let (mut closed, slots) = (0, 0..4);
    for round in 0..60 {
        let launch = Call::Launch { active: 0, passive: 0, slot: round % 4 };
        let closes = slots.clone().map(|slot| Call::Close { active: 0, passive: 0, slot });
        let reply = Call::Reply { passive: 0, choice };
        let (look, drop) = (Call::Look { active: 0 }, Call::Drop { active: 0 });
        let rest = [launch, look, Call::Read, look, Call::Execute, reply, look, drop, look];
        for call in closes.chain(rest).chain([Call::Write]) {
            let step = run.call(call);
            assert!(!words::step(&run, &step).is_empty());
            closed += usize::from(step.answer.is_ok() && matches!(call, Call::Close { .. }));
        }
    }
    assert_eq!(run.round(), 60);
    closed
}

#[test]
fn another_rule_is_followed_too() {
    assert_eq!(follow_rule(|rules| rules.tear_down_one_too_far = true, 0), 0);
    assert!(follow_rule(|rules| rules.close_one_too_far = true, 1) > 1);
    assert!(follow_rule(|rules| rules.close_clears_at_once = true, 1) > 1);
    assert!(follow_rule(|rules| rules.close_frees_early = true, 1) > 1);
    assert!(follow_rule(|rules| rules.accepted_until_torn_down = true, 1) > 1);
    assert!(follow_rule(|rules| rules.accepted_at_the_arrival = true, 1) > 1);
    assert!(follow_rule(|rules| rules.accepted_at_the_look = true, 1) > 1);
    assert!(follow_rule(|rules| rules.next_head_accepted = true, 1) > 1);
    // Who looks cannot drop.
    assert_eq!(follow_rule(|rules| rules.look_raises_the_flag = true, 1), 0);
    assert!(follow_rule(|_| {}, 1) > 1);
}

/// A unit by a student's rule, on small plans whose set-ups cross: every packet is followed.
fn follow_unit(random: &mut Random, set: fn(&mut Rules)) -> usize {
    let network = Network::of(crossing::crowded(random));
    let (bytes, plan) = (network.plan().encode(), network.plan());
    let names = Names::numbered(plan.routers(), plan.actives(), plan.passives());
    let plan = Plan::load(&bytes, names).unwrap();
    let mut rules = Rules::default();
    set(&mut rules);
    let modelled = Modelled::new(&plan, rules);
    let mut run = Run::new(&plan, &modelled);
    let mut caller = Caller::new(random, &network);
    for _ in 0..300 {
        let state = network.decode(run.bytes()).unwrap();
        let step = run.call(call(caller.next(random, &network, &state)));
        assert!(!words::step(&run, &step).is_empty());
    }
    run.book().launches.len()
}

#[test]
fn another_unit_is_followed_too() {
    let mut random = Random::new(13);
    let others: [fn(&mut Rules); 3] = [
        |rules| rules.one_head_a_unit = true,
        |rules| rules.highest_side_first = true,
        |rules| rules.unit_sends_lowest_first = true,
    ];
    let launched: usize =
        (0..60).map(|number| follow_unit(&mut random, others[number % others.len()])).sum();
    assert!(launched > 300, "{launched}");
}

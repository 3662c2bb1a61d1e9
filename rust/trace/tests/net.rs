//! A state read from its bytes is the model's state, thing by thing.

use model::generate::{calls::Caller, crossing, good, Random};
use model::machine::{self, Network, Slot};
use trace::place::SIDES;
use trace::{Entry, Heading, Names, Net, Output, Packet, Plan, Port, Queue};

fn queue(queue: Queue) -> model::Queue {
    match queue {
        Queue::ActiveOut(number) => model::Queue::ActiveOut(number),
        Queue::PassiveOut(number) => model::Queue::PassiveOut(number),
        Queue::U(port) => model::Queue::U { router: port.router, from: port.side },
        Queue::Q(port) => model::Queue::Q { router: port.router, from: port.side },
        Queue::F(heading, Port { router, side: to }) => {
            let class = match heading {
                Heading::Ahead => model::Class::SetUps,
                Heading::Back => model::Class::Answers,
            };
            model::Queue::F { router, class, to }
        }
        Queue::K(from, port) => model::Queue::K { router: port.router, from, to: port.side },
        Queue::ActiveIn(number) => model::Queue::ActiveIn(number),
        Queue::PassiveIn(number) => model::Queue::PassiveIn(number),
    }
}

fn link(output: Output) -> machine::Link {
    match output {
        Output::Active(number) => machine::Link::Active(number),
        Output::Passive(number) => machine::Link::Passive(number),
        Output::Side(Port { router, side }) => machine::Link::Side(model::Port { router, side }),
        Output::ToUnit(router) => machine::Link::Unit(router),
        Output::FromUnit(router) => machine::Link::Back(router),
    }
}

/// Kind, active, passive, slot, hub.
fn told(packet: &Packet) -> [usize; 5] {
    let Packet { kind, active, passive, slot, hub } = *packet;
    [kind as usize, active.into(), passive.into(), slot.into(), hub.into()]
}

fn modelled(packet: &machine::Packet) -> [usize; 5] {
    let machine::Packet { kind, active, passive, slot, hub } = *packet;
    [kind as usize, active, passive, slot.0, hub.0]
}

fn compare(plan: &Plan, network: &Network, state: &machine::State) {
    let net = Net::decode(plan, &network.encode(state)).unwrap();
    assert_eq!((net.phase as u8, net.slot), (state.phase as u8, state.slot.0));
    assert_eq!(net.allowances, state.allowances);
    let kept = net.accepted.iter().map(|told| (told.active, told.passive, told.start));
    let marks = state.marks.iter().map(|mark| (mark.active, mark.passive, mark.start.0));
    assert!(kept.eq(marks));
    for place in plan.queues() {
        let (row, at) = (net.row(plan, place), network.queue_index(queue(place)));
        let packets: Vec<_> = row.packets.iter().map(told).collect();
        assert_eq!(packets, state.queues[at].iter().map(modelled).collect::<Vec<_>>());
        assert_eq!(row.flag, state.flags[at]);
        if network.is_fed_by_a_wire(queue(place)) {
            assert_eq!(row.credit, state.credits[at].0);
        }
        assert_eq!(row.handled, state.is_handled(queue(place)));
        assert_eq!(plan.capacity(place), network.capacity(queue(place)));
    }
    for output in plan.outputs() {
        let (out, at) = (net.out(plan, output), network.link_index(link(output)));
        assert_eq!(out.wire.as_ref().map(told), state.wires[at].as_ref().map(modelled));
        let chosen = out.choice.map(|rank| queue(plan.senders(output)[rank]));
        assert_eq!(chosen, state.choices[at]);
        assert_eq!(out.last, state.last[at]);
        turns(plan, network, &net, output, state);
        if let (Some(packet), Some(same)) = (&out.wire, &state.wires[at]) {
            let next = plan.next_queue(output, packet).map(queue);
            assert_eq!(next, network.next_queue(link(output), same));
        }
    }
    for (router, side) in (0..plan.routers()).flat_map(|r| (0..SIDES).map(move |s| (r, s))) {
        for slot in 0..plan.slots() {
            let entry = match net.entry(Port { router, side }, slot) {
                Entry::Free => None,
                Entry::Booked(side) => Some(usize::from(side)),
            };
            assert_eq!(entry, state.table.entry(router, side, Slot(slot)));
        }
    }
}

/// Whom an output served last, and that a pick is one of those that wait, none before it a candidate.
fn turns(plan: &Plan, network: &Network, net: &Net, output: Output, state: &machine::State) {
    let (link, senders) = (link(output), plan.senders(output));
    let last = net.last_served(plan, output).map(queue);
    let several = senders.len() > 1;
    assert_eq!(last, several.then(|| queue(senders[state.last[network.link_index(link)]])));
    assert!(senders.iter().all(|&sender| plan.output_of(sender) == Some(output)));
    let waiting: Vec<model::Queue> = net.in_turn(plan, output).into_iter().map(queue).collect();
    if let Some(picked) = state.choices[network.link_index(link)] {
        let before = waiting.iter().take_while(|&&queue| queue != picked);
        assert!(waiting.contains(&picked));
        assert!(before.into_iter().all(|&queue| !network.is_candidate(state, link, queue)));
    }
}

#[test]
fn states_are_read() {
    let mut random = Random::new(12);
    for number in 0..100 {
        let bytes = match number % 3 {
            0 => crossing::any(&mut random).encode(),
            _ => good::loadable(&mut random).encode(),
        };
        let network = Network::load(&bytes).unwrap();
        let loaded = network.plan();
        let names = Names::numbered(loaded.routers(), loaded.actives(), loaded.passives());
        let plan = Plan::load(&bytes, names).unwrap();
        let mut caller = Caller::new(&mut random, &network);
        let mut state = network.start();
        for _ in 0..150 {
            let call = caller.next(&mut random, &network, &state);
            let _ = network.call(&mut state, call);
            compare(&plan, &network, &state);
        }
    }
}

//! The table of docs/STATE.md, which hub counts fit at each place: each packet is put at each place
//! with each hub count, and refusal 7 judges as the table says.

use model::generate::Draft;
use model::machine::places::Place;
use model::machine::{Credit, Hub, Kind, Network, Packet, Slot, State};
use model::{Class, Port, Queue};

/// A plan with one pair, and its ways.
struct Ways {
    network: Network,
    /// For each router: the side by which the walk comes in, by which it leaves, and the active's.
    walk: Vec<[usize; 3]>,
    /// The K that answers pass, with their hub counts.
    crossed: Vec<(Queue, Vec<usize>)>,
}

/// Routers 0, 1, .. side 1 to side 0; the active at the first, the passive at the last.
fn line(length: usize) -> Ways {
    let mut draft = Draft::new(length, 4, 2);
    for router in 1..length {
        draft.join((router - 1, 1), (router, 0));
    }
    draft.active(0, 0).passive(length - 1, 1).shortest_routes();
    let network = Network::load(&draft.encode()).expect("loads");
    let k = |router| (Queue::K { router, from: 1, to: 0 }, (router + 1..=length).collect());
    Ways { network, walk: vec![[0, 1, 0]; length], crossed: (0..length).map(k).collect() }
}

/// The walk is 0, 1, 2; answers go from 1 over 2, and from 2 straight to 0.
fn triangle() -> Ways {
    let mut draft = Draft::new(3, 4, 2);
    draft.join((0, 1), (1, 0)).join((1, 1), (2, 0)).join((2, 2), (0, 2)).active(0, 0).passive(2, 1);
    draft.route_passive(0, 0, 1).route_passive(1, 0, 1).route_passive(2, 0, 1);
    draft.route_active(0, 0, 0).route_active(1, 0, 1).route_active(2, 0, 2);
    let network = Network::load(&draft.encode()).expect("loads");
    let k = |router, from, to, hubs: &[usize]| (Queue::K { router, from, to }, hubs.to_vec());
    let crossed = vec![k(2, 1, 2, &[3]), k(2, 0, 2, &[1]), k(0, 2, 0, &[1, 2, 3])];
    Ways { network, walk: vec![[0, 1, 0], [0, 1, 1], [0, 1, 2]], crossed }
}

impl Ways {
    /// The table: a place, how many routers a SETUP or TDOWN has passed there, and the hub counts of
    /// answers.
    fn rows(&self) -> Vec<(Place, Option<usize>, Vec<usize>)> {
        let length = self.walk.len();
        let mut rows = vec![
            (Place::In(Queue::ActiveOut(0)), Some(0), vec![]),
            (Place::In(Queue::PassiveIn(0)), Some(length), vec![]),
            (Place::In(Queue::PassiveOut(0)), None, vec![length]),
            (Place::In(Queue::ActiveIn(0)), None, (0..=length).collect()),
        ];
        for (router, &[from, to, back]) in self.walk.iter().enumerate() {
            let f = |class, to| Place::In(Queue::F { router, class, to });
            rows.push((Place::In(Queue::U { router, from }), Some(router), vec![]));
            rows.push((Place::In(Queue::Q { router, from }), Some(router), vec![]));
            let handled = Place::Handled(Port { router, side: from });
            rows.push((handled, Some(router + 1), vec![router]));
            rows.push((f(Class::SetUps, to), Some(router + 1), vec![]));
            rows.push((f(Class::Answers, back), None, vec![router]));
        }
        rows.extend(self.crossed.iter().map(|(k, hubs)| (Place::In(*k), None, hubs.clone())));
        rows
    }

    /// Whether the table has it; on a wire as in the queue that the packet is bound for.
    fn fits(&self, place: Place, packet: &Packet) -> bool {
        let (hub, length) = (packet.hub.0, self.walk.len());
        let place = match (place, self.queue(place, packet)) {
            (Place::On(_), Some(queue)) => Place::In(queue),
            (place, _) => place,
        };
        self.rows().iter().filter(|row| row.0 == place).any(|(_, passed, answers)| {
            match packet.kind {
                Kind::Setup => *passed == Some(hub),
                Kind::Tdown => passed.is_some_and(|passed| 1 <= hub && passed + hub <= length),
                Kind::Ack => hub == length && answers.contains(&hub),
                Kind::Nack => answers.contains(&hub),
            }
        })
    }

    fn queue(&self, place: Place, packet: &Packet) -> Option<Queue> {
        match place {
            Place::In(queue) => Some(queue),
            Place::Handled(Port { router, side: from }) => Some(Queue::Q { router, from }),
            Place::On(link) => self.network.next_queue(link, packet),
        }
    }

    /// Puts a packet at a place; credit and allowance fall.
    fn put(&self, state: &mut State, place: Place, packet: Packet) {
        let queue = self.queue(place, &packet).map(|queue| self.network.queue_index(queue));
        match (place, queue) {
            (Place::On(link), _) => state.wires[self.network.link_index(link)] = Some(packet),
            (_, queue) => state.queues[queue.expect("a queue")].push_back(packet),
        }
        if let Place::Handled(Port { router, side }) = place {
            state.handled[router][side] = true;
        }
        if let Some(credit) = queue.map(|queue| &mut state.credits[queue]) {
            *credit = Credit(credit.0.saturating_sub(1));
        }
        state.allowances[packet.active] -= usize::from(packet.kind != Kind::Tdown);
    }

    /// Compares all hub counts at a place, and gives how many fit.
    fn judge(&self, state: &State, place: Place) -> usize {
        let kinds = [Kind::Setup, Kind::Tdown, Kind::Ack, Kind::Nack];
        let judged = kinds.iter().flat_map(|&kind| (0..=17).map(move |hub| packet(kind, hub)));
        let fits = |&packet: &Packet| {
            let mut state = state.clone();
            self.put(&mut state, place, packet);
            let fault = self.network.fault(&state);
            let fits = self.fits(place, &packet);
            assert_eq!(fault.is_none(), fits, "{place:?} {packet:?}: {fault:?}");
            fits
        };
        judged.filter(fits).count()
    }

    /// The same at all places, and in Q also behind a handled head.
    fn judge_all(&self) -> usize {
        let (network, start) = (&self.network, self.network.start());
        let port = |n| Port { router: n / 4, side: n % 4 };
        let handled = (0..4 * self.walk.len()).map(|n| Place::Handled(port(n)));
        let queues = network.queues().iter().map(|&queue| Place::In(queue));
        let places = network.links().iter().map(|&link| Place::On(link)).chain(queues);
        let alone: usize = places.chain(handled).map(|place| self.judge(&start, place)).sum();
        let behind = (0..self.walk.len()).map(|router| {
            let (mut state, from) = (start.clone(), self.walk[router][0]);
            let head = packet(Kind::Setup, router + 1);
            self.put(&mut state, Place::Handled(Port { router, side: from }), head);
            self.judge(&state, Place::In(Queue::Q { router, from }))
        });
        alone + behind.sum::<usize>()
    }
}

fn packet(kind: Kind, hub: usize) -> Packet {
    Packet { kind, active: 0, passive: 0, slot: Slot(0), hub: Hub(hub) }
}

#[test]
fn hubs_fit_as_the_table_says() {
    let fitting = [line(1), line(2), line(3), triangle()].map(|ways| ways.judge_all());
    assert_eq!(fitting, [32, 65, 108, 104], "so many packets fit");
}

//! The state's bytes: the figures of docs/STATE.md, and that reading undoes writing.

use model::generate::calls::Caller;
use model::generate::states::scramble;
use model::generate::{crossing, good, Random};
use model::machine::{Connection, Link, Network, Slot};
use model::{named, Class, Port, Queue};

fn t() -> Network {
    Network::load(&named::T).expect("loads")
}

/// "R = A = P = 1, S = 2: 32 queues, 8 outputs, 1,635 bytes."
#[test]
fn figures_of_plan_t() {
    let network = t();
    let router = 0;
    let mut rows = vec![Queue::ActiveOut(0), Queue::PassiveOut(0)];
    rows.extend((0..4).map(|from| Queue::U { router, from }));
    rows.extend((0..4).map(|from| Queue::Q { router, from }));
    for to in 0..4 {
        rows.extend([Class::SetUps, Class::Answers].map(|class| Queue::F { router, class, to }));
        let others = (0..4).filter(|&from| from != to);
        rows.extend(others.map(|from| Queue::K { router, from, to }));
    }
    rows.extend([Queue::ActiveIn(0), Queue::PassiveIn(0)]);
    assert_eq!((rows.len(), network.queues().len()), (32, 32));
    for (number, queue) in rows.into_iter().enumerate() {
        assert_eq!(network.queue_at(queue), 2 + 39 * number, "{queue:?}");
    }
    let side = |side| Link::Side(Port { router, side });
    let outputs = [Link::Active(0), Link::Passive(0), side(0), side(1), side(2), side(3)];
    let outputs = outputs.into_iter().chain([Link::Unit(router), Link::Back(router)]);
    for (number, link) in outputs.enumerate() {
        assert_eq!(network.output_at(link), 1250 + 7 * number, "{link:?}");
        assert_eq!(network.last_at(link), 1627 + number, "{link:?}");
    }
    assert_eq!(network.allowance_at(0), 1306);
    assert_eq!([0, 1, 2, 3].map(|side| network.entry_at(0, side, 0)), [1307, 1371, 1435, 1499]);
    assert_eq!(network.marks_at(0), 1563);
    assert_eq!(network.size(), 1635);
}

/// Some rows of the page's table for plan T.
#[test]
fn rows_of_plan_t() {
    let router = 0;
    for (queue, row) in [
        (Queue::U { router, from: 3 }, 197),
        (Queue::Q { router, from: 0 }, 236),
        (Queue::Q { router, from: 3 }, 353),
        (Queue::F { router, class: Class::SetUps, to: 0 }, 392),
        (Queue::F { router, class: Class::Answers, to: 0 }, 431),
        (Queue::K { router, from: 1, to: 0 }, 470),
        (Queue::K { router, from: 0, to: 1 }, 665),
        (Queue::K { router, from: 3, to: 2 }, 938),
        (Queue::F { router, class: Class::Answers, to: 3 }, 1016),
        (Queue::K { router, from: 2, to: 3 }, 1133),
        (Queue::ActiveIn(0), 1172),
        (Queue::PassiveIn(0), 1211),
    ] {
        assert_eq!(t().queue_at(queue), row, "{queue:?}");
    }
}

/// The mark of (a, p, t) is bit t%8 of byte begin + 64a + 4p + t/8, where the part begins at
/// 2 + 86A + 85P + 1390R.
#[test]
fn figures_of_the_marks() {
    let network = Network::load(&named::largest().encode()).expect("loads");
    let begin = 2 + (86 + 85 + 1390) * 16;
    let at = |active, passive, start| {
        network.mark_at(Connection { active, passive, start: Slot(start) })
    };
    assert_eq!(at(0, 0, 0), (begin, 1));
    assert_eq!(at(0, 0, 7), (begin, 128));
    assert_eq!(at(0, 0, 8), (begin + 1, 1));
    assert_eq!(at(3, 5, 30), (begin + 3 * 64 + 5 * 4 + 3, 1 << 6));
    assert_eq!(at(15, 15, 31), (begin + 16 * 64 - 1, 128));
    assert_eq!(network.last_at(Link::Active(0)), begin + 16 * 64);
    assert_eq!(network.last_at(Link::Back(15)), network.size() - 1);
}

/// Every bit of the marks' part is one mark's, also those that the plan has no use for.
#[test]
fn every_bit_is_a_mark() {
    let (network, start) = (t(), t().encode(&t().start()));
    for passive in 0..16 {
        for slot in (0..32).map(Slot) {
            let mark = Connection { active: 0, passive, start: slot };
            let mut bytes = start.clone();
            let (at, bit) = network.mark_at(mark);
            bytes[at] |= bit;
            let state = network.decode(&bytes).expect("has a state's form");
            assert_eq!(state.marks.iter().collect::<Vec<_>>(), [&mark]);
            assert!(!network.is_state(&state));
        }
    }
}

/// "After Start all bytes are 0 but the credits and the allowance, these 33 are 1, the turns of the
/// sides, these four are 4, and the turns of the ways to the unit and back, these two are 3."
#[test]
fn start_of_plan_t() {
    let bytes = t().encode(&t().start());
    let rows: Vec<usize> = (2..=1211).step_by(39).chain([1306]).collect();
    assert_eq!(rows.len(), 33);
    let mut expected = vec![0; 1635];
    rows.into_iter().for_each(|at| expected[at] = 1);
    expected[1629..1633].fill(4);
    expected[1633..1635].fill(3);
    assert_eq!(bytes, expected);
}

/// "At most 26,130 bytes (R, A, P = 16)."
#[test]
fn largest_state() {
    let network = Network::load(&named::largest().encode()).expect("loads");
    assert_eq!(network.size(), 26_130);
}

/// Rows of queues and outputs, allowances, tables, marks and senders last served fill the state,
/// none on another.
#[test]
fn every_byte_has_one_place() {
    let mut random = Random::new(61);
    for _ in 0..50 {
        let network = Network::of(good::loadable(&mut random));
        let mut places = vec![0; network.size()];
        let mut put = |at: usize, width| places[at..at + width].iter_mut().for_each(|n| *n += 1);
        put(0, 2);
        network.queues().iter().for_each(|&queue| put(network.queue_at(queue), 39));
        network.links().iter().for_each(|&link| put(network.output_at(link), 7));
        network.links().iter().for_each(|&link| put(network.last_at(link), 1));
        (0..network.plan().actives()).for_each(|active| put(network.allowance_at(active), 1));
        (0..network.plan().routers()).for_each(|router| put(network.entry_at(router, 0, 0), 256));
        (0..network.plan().actives()).for_each(|active| put(network.marks_at(active), 64));
        assert!(places.iter().all(|&count| count == 1));
    }
}

/// Equal states have equal bytes, and equal bytes come from equal states.
#[test]
fn reading_undoes_writing() {
    let mut random = Random::new(62);
    for turn in 0..60 {
        let plan = if turn % 2 == 0 { good::loadable } else { crossing::any };
        let network = Network::of(plan(&mut random));
        let mut caller = Caller::new(&mut random, &network);
        let mut state = network.start();
        for round in 0..200 {
            let call = caller.next(&mut random, &network, &state);
            let _ = network.call(&mut state, call);
            if round % 50 == 0 {
                scramble(&mut random, &network, &mut state, 20);
            }
            let mut bytes = network.encode(&state);
            bytes.push(9);
            assert_eq!(network.decode(&bytes).as_ref(), Some(&state));
            assert_eq!(network.decode(&bytes[..network.size() - 1]), None);
        }
    }
}

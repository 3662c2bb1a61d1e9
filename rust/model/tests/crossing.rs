//! Request (i), "cameras at both ends": set-ups cross, and a unit has a queue for each side.

mod common;

use common::queues::q;
use common::watch::{
    calls, done, drop, launch, moments, numbers, reply, rounds, Execute, Read, Write,
};
use common::{ack, packet_of, set_up, Run};
use model::generate::Draft;
use model::machine::{Kind, Link, Rules};
use model::{named, Class, Queue};

/// The crossing two-router plan, S=4.
const CROSSING: [u8; 17] = [
    0x10, 0x84, 0x21, 0x24, 0x92, 0x4C, 0x06, 0x02, 0x30, 0x04, 0x26, 0x22, 0x10, 0x00, 0x45, 0x20,
    0x88,
];

/// The entries that the set-ups (0, 1, 0) and (1, 0, 0) make, first routers first.
fn booked(run: &Run) -> [u32; 4] {
    [(0, 2, 0), (1, 2, 0), (1, 1, 1), (0, 1, 1)].map(|(r, side, slot)| run.entry(r, side, slot))
}

/// The run of these two up to the passives, which accept in round 7.
fn accepted_both_ways() -> Run {
    let mut run = Run::new(&CROSSING);
    assert_eq!((run.launch(0, 1, 0), run.launch(1, 0, 0)), (Ok(()), Ok(())));
    // Round 2: booked where they begin. Round 5: at the other router, where they come in by side 2.
    let booking = [(2, 0, [4; 4], [0, 0, 4, 4]), (5, 2, [0, 0, 4, 4], [0, 0, 2, 2])];
    for (round, from, before, after) in booking {
        run.read_of(round);
        assert_eq!(booked(&run), before);
        run.execute();
        assert_eq!(booked(&run), after);
        assert_eq!([0, 1].map(|router| run.len(q(router, from))), [1, 1]);
        run.end();
    }
    run.read_of(7);
    let there = [0, 1].map(|passive| run.queue(Queue::PassiveIn(passive)));
    assert_eq!(there.concat(), [set_up(1, 0, 2, 2), set_up(0, 1, 2, 2)]);
    run.execute();
    assert_eq!((run.reply(0, 1), run.reply(1, 1)), (Ok(()), Ok(())));
    run.end();
    run
}

/// "The crossing two-router plan loads": both set-ups are booked at both routers, and both answers
/// come back, in round 11 and not before, with slot 2 and hub 2.
#[test]
fn set_ups_cross_both_ways() {
    let mut run = accepted_both_ways();
    run.up_to(10);
    run.run_to_write();
    assert_eq!((run.look(0), run.look(1)), (Err(13), Err(13)));
    run.end();
    run.run_to_write();
    assert_eq!((run.look(0), run.look(1)), (Ok(ack(0, 1, 2, 2)), Ok(ack(1, 0, 2, 2))));
    assert_eq!((run.drop(0), run.drop(1)), (Ok(()), Ok(())));
    assert_eq!((run.accepted(), run.no_packets()), (vec![(0, 1, 0), (1, 0, 0)], true));
    assert_eq!(booked(&run), [0, 0, 2, 2]);
}

/// `Crossing.crosses_both_ways`, which is evaluated: the same calls, moments and figures.
#[test]
fn crosses_both_ways() {
    let list = [
        // Rounds 0 and 1; round 2: at the first unit, in Q[0].
        calls(&[&[launch(0, 1, 0), launch(1, 0, 0)], &rounds(2), &[Read, Execute]]),
        // Rounds 3 and 4; round 5: at the second unit, in Q[2].
        calls(&[&[Write], &rounds(2), &[Read, Execute]]),
        // Round 6; round 7: at the passives, which accept.
        calls(&[&[Write], &rounds(1), &[Read, Execute]]),
        // Rounds 8 to 10; round 11: the answers are there.
        calls(&[&[reply(0, 1), reply(1, 1), Write], &rounds(3), &[Read, Execute]]),
        vec![drop(0), drop(1), Write],
    ];
    let entries = [(0, 2, 0), (1, 1, 1), (1, 2, 0), (0, 1, 1)];
    let look =
        |run: &Run| numbers(&entries.map(|(router, side, slot)| run.entry(router, side, slot)));
    let queues = [q(0, 0), q(1, 2), q(1, 0), q(0, 2), Queue::ActiveIn(0), Queue::ActiveIn(1)];
    let (none, first, second) = (&[][..], [0, 4, 0, 4], [0, 2, 0, 2]);
    let expected = [
        done(&first, &[&[set_up(0, 1, 1, 1)], none, &[set_up(1, 0, 1, 1)], none, none, none]),
        done(&second, &[none, &[set_up(0, 1, 2, 2)], none, &[set_up(1, 0, 2, 2)], none, none]),
        done(&second, &[none; 6]),
        done(&second, &[none, none, none, none, &[ack(0, 1, 2, 2)], &[ack(1, 0, 2, 2)]]),
        done(&second, &[none; 6]),
    ];
    assert_eq!(moments(&CROSSING, look, &queues, &list), expected);
}

/// Both are closed at once; the tear-downs cross too.
#[test]
fn closed_both_ways() {
    let mut run = Run::new(&CROSSING);
    run.open(0, 1, 0);
    run.open(1, 0, 0);
    assert_eq!(booked(&run), [0, 0, 2, 2]);
    assert_eq!((run.close(0, 1, 0), run.close(1, 0, 0)), (Ok(()), Ok(())));
    run.run_empty();
    assert_eq!((booked(&run), run.accepted()), ([4; 4], vec![]));
}

/// Each router declines the set-up of the other end while its own waits: the NACKs cross set-ups.
#[test]
fn declined_both_ways() {
    let mut run = Run::new(&CROSSING);
    run.open(0, 0, 1);
    run.open(1, 1, 1);
    // Slot 1 of the sides to the passives is booked, so the second routers decline.
    assert_eq!((run.launch(0, 1, 0), run.launch(1, 0, 0)), (Ok(()), Ok(())));
    let start = run.round;
    run.read_of(start + 5);
    run.execute();
    let nack = |active, passive| packet_of((active, passive), Kind::Nack, 1, 1);
    assert_eq!([run.queue(q(0, 2)), run.queue(q(1, 2))].concat(), [nack(1, 0), nack(0, 1)]);
    run.end();
    // By the answer F, not by that of set-ups.
    run.read_of(start + 6);
    for router in 0..2 {
        let f = [Class::SetUps, Class::Answers].map(|class| Queue::F { router, class, to: 2 });
        assert_eq!(f.map(|f| run.len(f)), [0, 1]);
    }
    run.execute();
    run.end();
    run.up_to(start + 9);
    run.run_to_write();
    let marked = |active, passive| packet_of((active, passive), Kind::Nack, 1, 0);
    assert_eq!((run.look_and_drop(0), run.look_and_drop(1)), (Ok(marked(0, 1)), Ok(marked(1, 0))));
    run.end();
    run.run_empty();
    // The tear-downs have freed what the first routers had booked.
    assert_eq!([run.side(0, 2), run.side(1, 2)], [vec![4; 4], vec![4; 4]]);
    assert_eq!(run.accepted(), [(0, 0, 1), (1, 1, 1)]);
}

/// One router with actives at sides 0 and 1 and a passive at side 2; room for one behind the unit.
fn two_at_one_unit(rules: Rules) -> Run {
    let mut draft = Draft::new(1, 8, 1);
    draft.capacities([4, 4, 2, 2, 1, 1, 1, 4]);
    draft.active(0, 0).active(0, 1).passive(0, 2).shortest_routes();
    Run::with_rules(&draft.encode(), rules)
}

/// Up to the Execute in which a set-up of each active is the head of its Q and not yet handled; both
/// ask for slot 5.
fn both_ask_for_slot_5(rules: Rules) -> Run {
    let mut run = two_at_one_unit(rules);
    for slot in [0, 1, 2, 5] {
        assert_eq!(run.launch(1, 0, slot), Ok(()));
    }
    run.up_to(10);
    // Behind the unit it is full: the third waits handled, and behind it the one for slot 5.
    assert_eq!(run.queue(q(0, 1)), [set_up(1, 0, 3, 1), set_up(1, 0, 5, 0)]);
    run.run_to_write();
    assert_eq!(run.reply(0, 1), Ok(()));
    run.end();
    assert_eq!(run.launch(0, 0, 5), Ok(()));
    run.read_of(13);
    assert_eq!(
        [run.queue(q(0, 0)), run.queue(q(0, 1))].concat(),
        [set_up(0, 0, 5, 0), set_up(1, 0, 5, 0)]
    );
    assert_eq!(run.state.handled[0], [false; 4]);
    run.execute();
    run
}

/// "A unit handles each queue's unhandled head once in a round, side 0 first": two set-ups for one
/// entry in one Execute, and side 0's is booked.
#[test]
fn side_0_is_handled_first() {
    let run = both_ask_for_slot_5(Rules::default());
    assert_eq!(run.entry(0, 2, 5), 0);
    assert_eq!(run.queue(q(0, 0)), [set_up(0, 0, 6, 1)]);
    assert_eq!(run.queue(q(0, 1)), [packet_of((1, 0), Kind::Nack, 5, 0)]);
    assert_eq!(run.state.handled[0], [true, true, false, false]);
    // Side 0 is next in turn, but its set-up F is full; the NACK goes by an answer F.
    let back = run.network.link_index(Link::Back(0));
    assert_eq!((run.state.last[back], run.state.choices[back]), (1, Some(q(0, 1))));
}

/// A student's unit that begins with side 3.
#[test]
fn the_highest_side_first() {
    let run = both_ask_for_slot_5(Rules { highest_side_first: true, ..Rules::default() });
    assert_eq!(run.entry(0, 2, 5), 1);
    assert_eq!(run.queue(q(0, 0)), [packet_of((0, 0), Kind::Nack, 5, 0)]);
    assert_eq!(run.queue(q(0, 1)), [set_up(1, 0, 6, 1)]);
}

/// A student's unit that handles one head in a round: the other waits for the next round.
#[test]
fn one_head_a_unit() {
    let run = both_ask_for_slot_5(Rules { one_head_a_unit: true, ..Rules::default() });
    assert_eq!(run.state.handled[0], [true, false, false, false]);
    assert_eq!(run.queue(q(0, 1)), [set_up(1, 0, 5, 0)]);
}

/// Set-ups come to the router in the middle by all four sides: each Q fills by itself, and no more
/// than its capacity.
#[test]
fn each_queue_at_the_unit_has_its_own_room() {
    let mut draft = named::crossing_star();
    draft.capacities([7, 7, 1, 1, 1, 7, 1, 7]).fields_mut().slots = 32;
    let mut run = Run::new(&draft.encode());
    for slot in 0..7 {
        for active in 0..4 {
            assert_eq!(run.launch(active, (active + 1) % 4, 4 * slot + active), Ok(()));
        }
    }
    let credits = |run: &Run| {
        [0, 1, 2, 3].map(|from| [q(0, from), Queue::U { router: 0, from }].map(|n| run.credit(n)))
    };
    run.up_to(60);
    assert_eq!(credits(&run), [[0, 0]; 4]);
    run.run_to_write();
    assert_eq!(run.reply(1, 1), Ok(()));
    run.end();
    // Active 0's go on by one, and there are no more of them; the others wait on.
    run.up_to(80);
    assert_eq!(credits(&run), [[0, 1], [0, 0], [0, 0], [0, 0]]);
}

//! Request (b): "each output remembers the last sender that a WRITE served and looks from the next
//! one on, cyclically, in the old order".

mod common;

use common::lists::both_wait;
use common::watch::{
    calls, done, in_write, launch, launches, moments, reply, rounds, Execute, Read, Write, ROUND,
};
use common::{ack, nack, plans, queues, set_up, Run};
use model::generate::Draft;
use model::machine::{Hub, Kind, Link, Network, Packet, Phase, Rules, Slot, State};
use model::{named, Class, Port, Queue};

/// One router with an active at side 0 and passives at sides 1 to 3; much room.
fn star() -> Network {
    let mut draft = Draft::new(1, 16, 7);
    draft.active(0, 0).passive(0, 1).passive(0, 2).passive(0, 3).shortest_routes();
    Network::load(&draft.encode()).expect("loads")
}

/// The star's output to the active.
const TO_ACTIVE: Link = Link::Side(Port { router: 0, side: 0 });

fn side(router: usize, side: usize) -> Link {
    Link::Side(Port { router, side })
}

fn u(from: usize) -> Queue {
    Queue::U { router: 0, from }
}

fn k(from: usize) -> Queue {
    Queue::K { router: 0, from, to: 0 }
}

/// The answer F of side 0, and the set-up F.
const F: Queue = Queue::F { router: 0, class: Class::Answers, to: 0 };
const SET_UPS: Queue = Queue::F { router: 0, class: Class::SetUps, to: 0 };

fn packet(kind: Kind, (active, passive): (usize, usize), slot: usize, hub: usize) -> Packet {
    Packet { kind, active, passive, slot: Slot(slot), hub: Hub(hub) }
}

/// A packet joins a queue, its credit and allowance with it.
fn put(network: &Network, state: &mut State, queue: Queue, packet: Packet) {
    let at = network.queue_index(queue);
    state.queues[at].push_back(packet);
    state.credits[at].0 -= 1;
    state.allowances[packet.active] -= usize::from(packet.kind != Kind::Tdown);
    assert_eq!(network.fault(state), None);
}

/// An answer of passive p, or of the unit for a set-up to it.
fn answer(network: &Network, state: &mut State, queue: Queue, passive: usize) {
    let (kind, hub) = if queue == F { (Kind::Nack, 0) } else { (Kind::Ack, 1) };
    put(network, state, queue, packet(kind, (0, passive), 5, hub));
}

fn last(network: &Network, state: &State, link: Link) -> usize {
    state.last[network.link_index(link)]
}

/// A whole round; whom the output served.
fn served(network: &Network, state: &mut State, link: Link) -> Option<Queue> {
    let remembered = state.last.clone();
    assert_eq!(network.read(state), Ok(()));
    assert_eq!(network.execute(state), Ok(()));
    // "The last sender that a WRITE served": the pick alone changes nothing.
    assert_eq!(state.last, remembered);
    let choice = state.choices[network.link_index(link)];
    assert_eq!(network.write(state), Ok(()));
    choice
}

fn served_in_turn(network: &Network, state: &mut State, link: Link, rounds: usize) -> Vec<Queue> {
    (0..rounds).filter_map(|_| served(network, state, link)).collect()
}

/// "It starts as if the last in order had sent."
#[test]
fn start_is_as_if_the_last_in_order_had_sent() {
    let network = star();
    let mut state = network.start();
    for side_of in 0..4 {
        assert_eq!(last(&network, &state, side(0, side_of)), 4);
    }
    assert_eq!([Link::Unit(0), Link::Back(0)].map(|link| last(&network, &state, link)), [3; 2]);
    for link in [Link::Active(0), Link::Passive(2)] {
        assert_eq!((last(&network, &state, link), network.senders(link).len()), (0, 1));
    }
    // So the first in order goes first.
    for queue in [F, k(1), k(2), k(3)] {
        answer(&network, &mut state, queue, passive_of(queue));
    }
    assert_eq!(served(&network, &mut state, TO_ACTIVE), Some(F));
}

/// The passive whose answers come by this queue; of F any.
fn passive_of(queue: Queue) -> usize {
    match queue {
        Queue::K { from, .. } => from - 1,
        _ => 0,
    }
}

/// "With two force sensors talking, the answers for the higher side wait as long as the lower side
/// talks": no longer.
#[test]
fn two_senders_take_turns() {
    let network = star();
    let mut state = network.start();
    for _ in 0..3 {
        answer(&network, &mut state, k(1), 0);
        answer(&network, &mut state, k(3), 2);
    }
    let order = served_in_turn(&network, &mut state, TO_ACTIVE, 8);
    assert_eq!(order, [k(1), k(3), k(1), k(3), k(1), k(3)]);
    assert_eq!(last(&network, &state, TO_ACTIVE), 4);
    // As before the request: the lower side as long as it talks.
    let network = star().with_rules(Rules { lowest_first: true, ..Rules::default() });
    let mut state = network.start();
    for _ in 0..3 {
        answer(&network, &mut state, k(1), 0);
        answer(&network, &mut state, k(3), 2);
    }
    let order = served_in_turn(&network, &mut state, TO_ACTIVE, 8);
    assert_eq!(order, [k(1), k(1), k(1), k(3), k(3), k(3)]);
}

/// The unit's own answers stand in the same order and wait their turn too.
#[test]
fn three_senders_take_turns_and_the_unit_is_one() {
    let network = star();
    let mut state = network.start();
    for _ in 0..2 {
        answer(&network, &mut state, F, 0);
        answer(&network, &mut state, k(2), 1);
        answer(&network, &mut state, k(3), 2);
    }
    let order = served_in_turn(&network, &mut state, TO_ACTIVE, 8);
    assert_eq!(order, [F, k(2), k(3), F, k(2), k(3)]);
}

/// The last sender that side 1 of router 0 served.
fn last_at_side_1(run: &Run) -> Vec<usize> {
    vec![run.last(side(0, 1))]
}

/// `Turns.two_in_turn`: at side 1 the answer `F[1]`, of rank 1, has NACKs of the unit, and `K[0,1]`, of
/// rank 2, has ACKs of passive 0.
#[test]
fn two_in_turn_from_start() {
    // Round 6: after Write; then after Read and Write of rounds 7 to 9.
    let [seven, eight, nine] = [(); 3].map(|()| vec![vec![Read], vec![Execute, Write]]);
    let list = [both_wait(), vec![vec![Write]], seven, eight, nine].concat();
    let queues = [queues::answers(0, 1), queues::k(0, 0, 1)];
    let seen = moments(&named::narrow_back().encode(), last_at_side_1, &queues, &list);
    let nack = nack(0, 0, 8, 0);
    let (first, second) = ([ack(0, 0, 9, 1)], [ack(0, 0, 11, 1)]);
    let expected = [
        done(&[4], &[&[], &[]]),
        // Round 5: the answer F[1] goes, and is remembered.
        done(&[4], &[&[nack], &[]]),
        done(&[1], &[&[], &[]]),
        // Round 6: both wait. It is K[0,1]'s turn; Execute picks it and remembers nothing yet.
        done(&[1], &[&[nack], &first]),
        done(&[1], &[&[nack], &first]),
        done(&[2], &[&[nack], &[]]),
        // Round 7: the answer F[1] has two, and goes.
        done(&[2], &[&[nack, nack], &[]]),
        done(&[1], &[&[nack], &[]]),
        // Round 8: both wait, and it is K[0,1]'s turn again; round 9: the answer F[1]'s.
        done(&[1], &[&[nack], &second]),
        done(&[2], &[&[nack], &[]]),
        done(&[2], &[&[nack], &[]]),
        done(&[1], &[&[], &[]]),
    ];
    assert_eq!(seen, expected);
}

/// `Turns.three_in_turn`: also `K[3,1]`, of rank 4, with passive 1's ACK.
#[test]
fn three_in_turn_from_start() {
    let list = [
        // Round 0: a set-up to each passive, one more to passive 0, then two for an entry that is
        // booked. Rounds 4 and 5: a passive accepts.
        calls(&[
            &[launch(0, 0, 8), launch(0, 1, 8)],
            &launches(0, 0, &[10, 8, 8]),
            &rounds(4),
            &in_write(reply(0, 1)),
            &[Write],
            &in_write(reply(1, 1)),
        ]),
        // Round 6: a NACK and an ACK wait; passive 0 accepts again.
        vec![Write, Read],
        vec![Execute, reply(0, 1), Write],
        // Rounds 7 to 10: after Read and Write of each; round 11: after Read.
        vec![Read],
        vec![Execute, Write],
        vec![Read],
        vec![Execute, Write],
        vec![Read],
        vec![Execute, Write],
        vec![Read],
        vec![Execute, Write, Read],
    ];
    let queues =
        [queues::answers(0, 1), queues::k(0, 0, 1), queues::k(0, 3, 1), Queue::ActiveIn(0)];
    let seen = moments(&named::narrow_back().encode(), last_at_side_1, &queues, &list);
    let (declined, other) = (nack(0, 0, 8, 0), ack(0, 1, 9, 1));
    let (nack, first, second) = ([declined], [ack(0, 0, 9, 1)], [ack(0, 0, 11, 1)]);
    // In the order in which they come to the active.
    let came = [declined, first[0], other, declined, second[0]];
    let expected = [
        done(&[4], &[&[], &[], &[], &[]]),
        // Round 6: "as if the last in order had sent": the answer F[1] goes first.
        done(&[4], &[&nack, &first, &[], &[]]),
        done(&[1], &[&[], &first, &[], &[]]),
        // Round 7: all three wait, the answer F[1] with a second NACK. It is K[0,1]'s turn.
        done(&[1], &[&nack, &first, &[other], &came[..1]]),
        done(&[2], &[&nack, &[], &[other], &came[..1]]),
        // Round 8: K[3,1]'s.
        done(&[2], &[&nack, &[], &[other], &came[..2]]),
        done(&[4], &[&nack, &[], &[], &came[..2]]),
        // Round 9: the answer F[1]'s, though K[0,1] has an ACK again.
        done(&[4], &[&nack, &second, &[], &came[..3]]),
        done(&[1], &[&[], &second, &[], &came[..3]]),
        // Round 10: K[0,1]'s.
        done(&[1], &[&[], &second, &[], &came[..4]]),
        done(&[2], &[&[], &[], &[], &came]),
    ];
    assert_eq!(seen, expected);
}

/// A router in the middle; by each of its sides set-ups and answers come and go.
fn crossing_star() -> Network {
    Network::load(&named::crossing_star().encode()).expect("loads")
}

/// What goes by side 0 of the star's middle, to the router of active 0 and passive 0: a set-up from
/// active 1, a NACK of the middle's unit, the answers of passives 1 to 3.
fn by_side_0() -> [(Queue, Packet); 5] {
    let ack = |passive| packet(Kind::Ack, (0, passive), 5, 3);
    [
        (SET_UPS, packet(Kind::Setup, (1, 0), 7, 2)),
        (F, packet(Kind::Nack, (0, 1), 5, 1)),
        (k(1), ack(1)),
        (k(2), ack(2)),
        (k(3), ack(3)),
    ]
}

/// "A side's order is now set-up F, answer F, then K, so at most four others go first there": the one
/// just behind the last served sees none, the last served itself four.
#[test]
fn five_senders_take_turns() {
    for first in 0..5 {
        let network = crossing_star();
        let mut state = network.start();
        state.last[network.link_index(side(0, 0))] = (first + 4) % 5;
        for (queue, packet) in by_side_0().into_iter().chain([by_side_0()[first]]) {
            put(&network, &mut state, queue, packet);
        }
        let mut expected = by_side_0().map(|(queue, _)| queue).to_vec();
        expected.rotate_left(first);
        expected.push(expected[0]);
        assert_eq!(served_in_turn(&network, &mut state, side(0, 0), 6), expected);
    }
}

/// A student's order: answers before set-ups.
#[test]
fn answers_before_set_ups() {
    let rules = Rules { answers_before_set_ups: true, ..Rules::default() };
    let network = crossing_star().with_rules(rules);
    let mut state = network.start();
    for (queue, packet) in by_side_0() {
        put(&crossing_star(), &mut state, queue, packet);
    }
    let order = served_in_turn(&network, &mut state, side(0, 0), 5);
    assert_eq!(order, [F, SET_UPS, k(1), k(2), k(3)]);
}

/// Who has nothing to send is passed over, and is first in turn when it comes next.
#[test]
fn one_that_is_no_candidate_is_passed_over() {
    let network = star();
    let mut state = network.start();
    for _ in 0..2 {
        answer(&network, &mut state, k(1), 0);
        answer(&network, &mut state, k(3), 2);
    }
    assert_eq!(served_in_turn(&network, &mut state, TO_ACTIVE, 2), [k(1), k(3)]);
    answer(&network, &mut state, k(2), 1);
    // After K[3,0] the order begins anew: K[1,0], then K[2,0].
    assert_eq!(served_in_turn(&network, &mut state, TO_ACTIVE, 4), [k(1), k(2), k(3)]);
}

/// Set-ups come by all four sides and take turns on the way to the unit, and on the way back from it.
#[test]
fn four_take_turns_at_the_unit() {
    let q = |from| Queue::Q { router: 0, from };
    for (link, hub, queues) in
        [(Link::Unit(0), 1, [0, 1, 2, 3].map(u)), (Link::Back(0), 1, [0, 1, 2, 3].map(q))]
    {
        let network = crossing_star();
        let mut state = network.start();
        for turn in 0..2 {
            for (from, &queue) in queues.iter().enumerate() {
                let pair = (from, (from + 1) % 4);
                put(&network, &mut state, queue, packet(Kind::Setup, pair, 4 + turn, hub));
            }
        }
        let order = served_in_turn(&network, &mut state, link, 8);
        assert_eq!(order, [queues, queues].concat());
        assert_eq!(last(&network, &state, link), 3);
    }
}

/// "And sends one packet a round, turn about": heads of all four sides are handled in one Execute, and
/// leave one in a round.
#[test]
fn four_heads_are_handled_at_once() {
    let network = crossing_star();
    let mut state = network.start();
    for from in 0..4 {
        let set_up = packet(Kind::Setup, (from, (from + 1) % 4), 4, 1);
        put(&network, &mut state, Queue::Q { router: 0, from }, set_up);
    }
    for sent in 0..4 {
        assert_eq!((network.read(&mut state), network.execute(&mut state)), (Ok(()), Ok(())));
        assert_eq!(state.handled[0], [0, 1, 2, 3].map(|from| from >= sent));
        assert_eq!(network.write(&mut state), Ok(()));
        assert_eq!(state.handled[0], [0, 1, 2, 3].map(|from| from > sent));
    }
    let booked = [0, 1, 2, 3].map(|side| state.table.entry(0, side, Slot(4)));
    assert_eq!(booked, [Some(3), Some(0), Some(1), Some(2)]);
}

/// A student's unit that always sends the lowest side's head first.
#[test]
fn the_lowest_side_first_from_the_unit() {
    let rules = Rules { unit_sends_lowest_first: true, ..Rules::default() };
    let network = crossing_star().with_rules(rules);
    let mut state = network.start();
    let q = |from| Queue::Q { router: 0, from };
    for slot in 4..7 {
        for from in [0, 2] {
            let set_up = packet(Kind::Setup, (from, (from + 1) % 4), slot, 1);
            put(&crossing_star(), &mut state, q(from), set_up);
        }
    }
    let order = served_in_turn(&network, &mut state, Link::Back(0), 6);
    assert_eq!(order, [q(0), q(0), q(0), q(2), q(2), q(2)]);
}

/// `Turns.unit_in_turn`: an active at each of three sides, whose set-ups take turns on the way to the
/// unit.
#[test]
fn the_ways_to_the_unit_take_turns() {
    let list = [
        // Round 0: each active launches twice; then after Write of rounds 1 to 6.
        calls(&[
            &launches(0, 0, &[15, 14]),
            &launches(1, 0, &[13, 12]),
            &launches(2, 0, &[11, 10]),
            &ROUND,
        ]),
        rounds(1),
        rounds(1),
        rounds(1),
        rounds(1),
        rounds(1),
        rounds(1),
    ];
    let to_unit = |run: &Run| vec![run.last(Link::Unit(0))];
    let seen = moments(&named::narrow_there().encode(), to_unit, &[u(1), u(2), u(3)], &list);
    let of = |active, slot| set_up(active, 0, slot, 0);
    let expected = [
        done(&[3], &[&[], &[], &[]]),
        // Round 1: U[1] goes; then U[2], U[3], and U[1] again.
        done(&[1], &[&[], &[of(1, 13)], &[of(2, 11)]]),
        done(&[2], &[&[of(0, 14)], &[of(1, 12)], &[of(2, 11), of(2, 10)]]),
        done(&[3], &[&[of(0, 14)], &[of(1, 12)], &[of(2, 10)]]),
        done(&[1], &[&[], &[of(1, 12)], &[of(2, 10)]]),
        done(&[2], &[&[], &[], &[of(2, 10)]]),
        done(&[3], &[&[], &[], &[]]),
    ];
    assert_eq!(seen, expected);
}

/// At side 0 of its router 0, which may be booked, F and K compete.
fn detour() -> Network {
    Network::load(&named::detour().encode()).expect("loads")
}

/// "Only a WRITE that serves": in a round whose slot is booked nobody goes and nothing changes, and
/// the turn is not lost.
#[test]
fn a_booked_round_changes_nothing() {
    let network = detour();
    let out = side(0, 0);
    for first in 0..5 {
        let mut state = network.start();
        // The slot of round 0 and round 2 is booked.
        state.table.set(0, 0, Slot(0), Some(1));
        state.table.set(0, 0, Slot(2), Some(1));
        state.last[network.link_index(out)] = (first + 4) % 5;
        for _ in 0..2 {
            put(&network, &mut state, SET_UPS, packet(Kind::Setup, (0, 0), 1, 1));
            put(&network, &mut state, k(2), packet(Kind::Ack, (1, 1), 1, 2));
        }
        let before = last(&network, &state, out);
        assert_eq!(served(&network, &mut state, out), None);
        assert_eq!(last(&network, &state, out), before);
        // Of the set-up F, rank 0, and K[2,0], rank 3, the next from `first` on.
        let order = if (1..=3).contains(&first) { [k(2), SET_UPS] } else { [SET_UPS, k(2)] };
        assert_eq!(served(&network, &mut state, out), Some(order[0]));
        let served_last = last(&network, &state, out);
        assert_eq!(served(&network, &mut state, out), None);
        assert_eq!(last(&network, &state, out), served_last);
        assert_eq!(served(&network, &mut state, out), Some(order[1]));
    }
}

/// `Turns.skipped_changes_nothing`: in round 10 active 0's set-up waits in the set-up `F[1]` of router
/// 0 and an ACK in `K[2,1]`, and the side's entry for slot 10 is booked, by that set-up itself.
#[test]
fn a_skipped_round_from_start() {
    let list = [
        // Round 0: active 1's set-up to passive 1, accepted in round 7; round 7: active 0's to passive
        // 0. Round 10: after Read.
        calls(&[
            &[launch(1, 1, 0)],
            &rounds(7),
            &[launch(0, 0, 10)],
            &in_write(reply(1, 1)),
            &[Write],
            &rounds(2),
            &[Read],
        ]),
        // Rounds 10, 11 and 12: after Write.
        vec![Execute, Write],
        rounds(1),
        rounds(1),
    ];
    let queues = [queues::set_ups(0, 1), queues::k(0, 2, 1)];
    let seen = moments(&plans::long_way_back().encode(), last_at_side_1, &queues, &list);
    let (set_up, ack) = ([set_up(0, 0, 11, 1)], [ack(1, 1, 2, 2)]);
    let expected = [
        // Round 10: both wait, nobody goes, and it is still the set-up F[1]'s turn.
        done(&[4], &[&set_up, &ack]),
        done(&[4], &[&set_up, &ack]),
        // Round 11: the set-up F[1], of rank 0, goes; round 12: K[2,1], of rank 3.
        done(&[0], &[&[], &ack]),
        done(&[3], &[&[], &[]]),
    ];
    assert_eq!(seen, expected);
}

/// A student's turn that goes on in a booked round: it passes over the one that waits.
#[test]
fn a_turn_that_is_lost_in_a_booked_round() {
    let network = detour().with_rules(Rules { turn_lost_when_booked: true, ..Rules::default() });
    let out = side(0, 0);
    let mut state = network.start();
    state.table.set(0, 0, Slot(0), Some(1));
    put(&detour(), &mut state, SET_UPS, packet(Kind::Setup, (0, 0), 1, 1));
    put(&detour(), &mut state, k(2), packet(Kind::Ack, (1, 1), 1, 2));
    assert_eq!(served_in_turn(&network, &mut state, out, 2), [k(2)]);
}

/// Both Q are full, so neither of the two that wait for them is a candidate: nothing changes either.
#[test]
fn a_round_without_candidates_changes_nothing() {
    let network = Network::load(&named::narrow_there().encode()).expect("loads");
    let mut state = network.start();
    for launch in 0..6 {
        assert_eq!(network.launch(&mut state, 0, 0, 15 - launch), Ok(()));
        assert_eq!(network.launch(&mut state, 1, 0, 9 - launch), Ok(()));
    }
    let order = served_in_turn(&network, &mut state, Link::Unit(0), 12);
    assert_eq!(order, [u(1), u(2), u(1), u(2), u(1), u(2), u(1), u(2), u(1)]);
    let remembered = state.last.clone();
    for _ in 0..3 {
        assert_eq!([u(1), u(2)].map(|queue| network.queue(&state, queue).len()), [1, 2]);
        assert_eq!(served(&network, &mut state, Link::Unit(0)), None);
    }
    assert_eq!(state.last, remembered);
}

/// "Write remembers the stored one": a state's choice may be any candidate, whoever's turn it is.
#[test]
fn what_is_stored_is_remembered() {
    for (rank, queue) in (1..).zip([F, k(1), k(2), k(3)]) {
        let network = star();
        let mut state = network.start();
        for queue in [F, k(1), k(2), k(3)] {
            answer(&network, &mut state, queue, passive_of(queue));
        }
        assert_eq!((network.read(&mut state), network.execute(&mut state)), (Ok(()), Ok(())));
        assert_eq!(state.choices[network.link_index(TO_ACTIVE)], Some(F));
        state.choices[network.link_index(TO_ACTIVE)] = Some(queue);
        assert_eq!((network.fault(&state), state.phase), (None, Phase::Write));
        assert_eq!(network.write(&mut state), Ok(()));
        assert_eq!(last(&network, &state, TO_ACTIVE), rank);
    }
}

/// A whole run from start: two passives answer in every round, and the active gets one of each.
#[test]
fn answers_of_two_passives_from_start() {
    let network = star();
    let mut state = network.start();
    for launch in 0..3 {
        assert_eq!(network.launch(&mut state, 0, 0, 4 * launch), Ok(()));
        assert_eq!(network.launch(&mut state, 0, 1, 4 * launch + 1), Ok(()));
    }
    let mut order = Vec::new();
    for round in 0..40 {
        assert_eq!((network.read(&mut state), network.execute(&mut state)), (Ok(()), Ok(())));
        // From round 13 on all six wait; both answer in every round.
        if round >= 13 {
            let _ = (network.reply(&mut state, 0, 1), network.reply(&mut state, 1, 1));
        }
        let head = network.look(&state, 0).ok();
        order.extend(head.filter(|_| network.drop(&mut state, 0) == Ok(())).map(|p| p.passive));
        assert_eq!(network.write(&mut state), Ok(()));
    }
    assert_eq!(order, [0, 1, 0, 1, 0, 1]);
}

/// Four routers. By side 1 of router 0 go active 0's set-ups to passive 0, in `F[1]`, and the
/// answers of passives 1 and 2 to active 1, in `K[2,1]` and `K[3,1]`; a K has room for one.
fn three_ways_to_one_side() -> Network {
    let mut draft = Draft::new(4, 32, 7);
    draft.capacities([7, 7, 7, 7, 7, 1, 7, 7]);
    draft.join((0, 1), (1, 0)).join((0, 2), (2, 1)).join((0, 3), (3, 0));
    draft.join((1, 1), (2, 0)).join((2, 3), (3, 1)).active(0, 0).active(1, 2);
    draft.passive(1, 3).passive(2, 2).passive(3, 2);
    for (router, [to_0, to_1]) in [[0, 1], [0, 2], [1, 1], [0, 0]].into_iter().enumerate() {
        draft.route_active(router, 0, to_0).route_active(router, 1, to_1);
    }
    for (router, side) in [(0, 1), (1, 3), (2, 0)] {
        draft.route_passive(router, 0, side);
    }
    for (router, side) in [(0, 2), (1, 1), (2, 2)] {
        draft.route_passive(router, 1, side);
    }
    for (router, side) in [(0, 3), (1, 1), (2, 3), (3, 2)] {
        draft.route_passive(router, 2, side);
    }
    Network::load(&draft.encode()).expect("loads")
}

/// A head that stays a candidate sees each other sender go once at most: one that is a candidate only
/// now and then may see more. The next K has a credit every second round; with it `K[2,1]`
/// goes, and without it `F[1]`, behind which `K[2,1]` comes before `K[3,1]` again.
#[test]
fn a_candidate_now_and_then_is_passed_seven_times() {
    let network = three_ways_to_one_side();
    let mut state = network.start();
    assert_eq!(network.launch(&mut state, 1, 2, 0), Ok(()));
    for slot in 25..31 {
        assert_eq!(network.launch(&mut state, 1, 1, slot), Ok(()));
    }
    let (waits, at) = (Queue::K { router: 0, from: 3, to: 1 }, network.link_index(side(0, 1)));
    let mut before = Vec::new();
    for round in 0.. {
        if round == 17 {
            for slot in 20..27 {
                assert_eq!(network.launch(&mut state, 0, 0, slot), Ok(()));
            }
        }
        assert_eq!((network.read(&mut state), network.execute(&mut state)), (Ok(()), Ok(())));
        let picked = state.choices[at];
        if picked == Some(waits) {
            break;
        }
        before.extend(picked.filter(|_| network.is_candidate(&state, side(0, 1), waits)));
        if round >= 17 {
            let _ = (network.reply(&mut state, 1, 1), network.reply(&mut state, 2, 1));
        }
        assert_eq!(network.write(&mut state), Ok(()));
    }
    let f = Queue::F { router: 0, class: Class::SetUps, to: 1 };
    let k = Queue::K { router: 0, from: 2, to: 1 };
    assert_eq!(before, [f, k, k, k, k, k, k]);
}

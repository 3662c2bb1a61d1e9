//! The runs of document 01 and of document 02's requests, round by round, and more of the same
//! kind: those that are proved by evaluation.

mod common;

use common::queues::{answers, k, q, set_ups, u};
use common::watch::{
    calls, credits, done, drop, in_write, launch, launches, lengths, look, moments, numbers,
    one_by_one, refused, reply, rounds, shows, steady, watching, Execute, Read, Write, ROUND,
};
use common::{ack, nack, packet, plans, set_up, tear_down, Run};
use model::machine::{Kind, Network, Packet, Rules, Slot};
use model::{named, Queue};

/// Plan T's queue between unit and passive.
const TO_PASSIVE: Queue = set_ups(0, 1);

#[test]
fn launch_in_round_0() {
    let mut run = Run::new(&named::T);
    assert_eq!(run.launch(0, 0, 0), Ok(()));
    run.up_to(2);
    // "Booked in round 2", by its Execute and not before.
    assert_eq!(run.network.read(&mut run.state), Ok(()));
    assert_eq!((run.entry(0, 1, 0), run.entry(0, 1, 1)), (4, 4));
    assert_eq!(run.network.execute(&mut run.state), Ok(()));
    assert_eq!((run.entry(0, 1, 0), run.entry(0, 1, 1)), (0, 4));
    run.end();
    // "Waits at the passive from round 4."
    run.run_to_write();
    assert_eq!(run.queue(Queue::PassiveIn(0)), []);
    assert_eq!(run.reply(0, 1), Err(13));
    run.end();
    run.run_to_write();
    assert_eq!(run.queue(Queue::PassiveIn(0)), [packet(Kind::Setup, 1, 1)]);
    // "Accepted there."
    assert_eq!(run.reply(0, 1), Ok(()));
    run.end();
    // "Consumed in round 7 with slot 1, hub 1", and not before: a Look, and a Drop.
    while run.round < 7 {
        run.run_to_write();
        assert_eq!((run.look(0), run.drop(0)), (Err(13), Err(13)));
        run.end();
    }
    run.run_to_write();
    assert_eq!((run.look(0), run.drop(0)), (Ok(packet(Kind::Ack, 1, 1)), Ok(())));
    assert!(run.no_packets());
    assert_eq!((run.entry(0, 1, 0), run.entry(0, 1, 1)), (0, 4));
}

#[test]
fn launch_in_round_1() {
    let mut run = Run::new(&named::T);
    run.up_to(1);
    assert_eq!(run.launch(0, 0, 0), Ok(()));
    run.up_to(4);
    // "F[1] waits in round 4 (slot 0 booked)."
    run.run_to_write();
    assert_eq!((run.state.slot, run.entry(0, 1, 0)), (Slot(0), 0));
    assert_eq!(run.queue(TO_PASSIVE), [packet(Kind::Setup, 1, 1)]);
    assert!(run.state.choices.iter().all(Option::is_none));
    run.end();
    run.run_to_write();
    assert_eq!(run.queue(TO_PASSIVE), [packet(Kind::Setup, 1, 1)]);
    assert_eq!(run.queue(Queue::PassiveIn(0)), []);
    run.end();
    // "Reaches the passive in round 6."
    run.run_to_write();
    assert_eq!(run.queue(TO_PASSIVE), []);
    assert_eq!(run.queue(Queue::PassiveIn(0)), [packet(Kind::Setup, 1, 1)]);
}

/// The run of round 0 up to the dropped ACK.
fn after_the_first_ack() -> Run {
    let mut run = Run::new(&named::T);
    assert_eq!(run.launch(0, 0, 0), Ok(()));
    run.up_to(4);
    run.run_to_write();
    assert_eq!(run.reply(0, 1), Ok(()));
    run.end();
    run.up_to(7);
    run.run_to_write();
    assert_eq!((run.look(0), run.drop(0)), (Ok(packet(Kind::Ack, 1, 1)), Ok(())));
    run.end();
    run
}

#[test]
fn last_free_entry_is_declined() {
    let mut run = after_the_first_ack();
    assert_eq!(run.launch(0, 0, 1), Ok(()));
    let nack = loop {
        run.run_to_write();
        match run.look_and_drop(0) {
            Ok(packet) => break packet,
            Err(refusal) => assert_eq!(refusal, 13),
        }
        run.end();
    };
    // "NACK with hub 0": nothing was booked, no TDOWN follows.
    assert_eq!(nack, packet(Kind::Nack, 1, 0));
    assert!(run.no_packets());
    assert_eq!((run.entry(0, 1, 0), run.entry(0, 1, 1)), (0, 4));
}

/// `LastFree.slot_0_is_left`: slot 1 of side 1 is booked, for with slot 0 free too it is not "the only
/// free entry of o".
#[test]
fn slot_0_is_left() {
    // Round 2: after Execute.
    let list = [calls(&[&[launch(0, 0, 1)], &rounds(2), &[Read, Execute]])];
    let side_1 = |run: &Run| numbers(&run.side(0, 1));
    let seen = moments(&named::T, side_1, &[q(0, 0)], &list);
    assert_eq!(seen, [done(&[4, 0], &[&[set_up(0, 0, 0, 1)]])]);
}

/// `Declined.second_declines_lem`, looked at after each call: "S=4, two routers, start 3, second declines:
/// NACK slot 0 hub 1, TDOWN slot 3 hub 1; the second router keeps its entry".
#[test]
fn a_declined_set_up_is_torn_down() {
    let list = calls(&[
        // Round 0: active 1 launches with slot 0; round 4: accepted; round 7: looked at and dropped.
        &[launch(1, 0, 0)],
        &rounds(4),
        &in_write(reply(0, 1)),
        &[Write],
        &rounds(2),
        &in_write(look(1)),
        &[drop(1), Write],
        // Round 8: active 0 launches with slot 3; round 17: the NACK is looked at and dropped.
        &[launch(0, 0, 3)],
        &rounds(9),
        &in_write(look(0)),
        &[drop(0), Write],
        // Rounds 18 to 24.
        &rounds(7),
    ]);
    let queues = [Queue::ActiveOut(0), q(0, 0), q(1, 0), q(1, 2), Queue::ActiveIn(0)];
    let mut run = Run::new(&named::declining().encode());
    let seen = watching(&mut run, both_sides, &queues, &one_by_one(&list));
    // The second router has booked slot 0 for active 1, which came in by side 2; and then the first one
    // slot 3 for active 0.
    let free = [4; 8];
    let second = [4, 4, 4, 4, 2, 4, 4, 4];
    let both = [4, 4, 4, 0, 2, 4, 4, 4];
    // Active 0's set-up as launched, as the first router sends it on, as the NACK that it becomes, and
    // marked; its TDOWN.
    let (launched, sent_on) = ([set_up(0, 0, 3, 0)], [set_up(0, 0, 0, 1)]);
    let (declined, marked) = ([nack(0, 0, 0, 1)], [nack(0, 0, 0, 0)]);
    let torn = [tear_down(0, 0, 3, 1)];
    let quiet: [&[Packet]; 5] = [&[]; 5];
    let [out, at_first, at_second, by_side_2, within] = [0, 1, 2, 3, 4];
    let marked_and_torn: [&[Packet]; 5] = [&torn, &[], &[], &[], &marked];
    let expected = [
        // Rounds 0 and 1.
        vec![done(&free, &quiet)],
        steady(&free, &quiet),
        steady(&free, &quiet),
        // Round 2: the second router books slot 0 for active 1.
        vec![
            done(&free, &only(by_side_2, &[set_up(1, 0, 0, 0)])),
            done(&second, &only(by_side_2, &[set_up(1, 0, 1, 1)])),
            done(&second, &quiet),
        ],
        // Round 3; round 4: accepted; rounds 5 and 6.
        steady(&second, &quiet),
        vec![done(&second, &quiet); 4],
        steady(&second, &quiet),
        steady(&second, &quiet),
        // Round 7: the ACK is looked at and dropped.
        vec![done(&second, &quiet); 2],
        vec![shows(ack(1, 0, 1, 1), &second, &quiet)],
        vec![done(&second, &quiet); 2],
        // Round 8: active 0 launches; round 9.
        vec![done(&second, &only(out, &launched)); 3],
        vec![done(&second, &quiet)],
        steady(&second, &quiet),
        // Round 10: the first router books slot 3.
        vec![
            done(&second, &only(at_first, &launched)),
            done(&both, &only(at_first, &sent_on)),
            done(&both, &quiet),
        ],
        // Rounds 11 to 13.
        [(); 3].map(|()| steady(&both, &quiet)).concat(),
        // Round 14: the second router declines.
        vec![
            done(&both, &only(at_second, &sent_on)),
            done(&both, &only(at_second, &declined)),
            done(&both, &quiet),
        ],
        // Rounds 15 and 16.
        steady(&both, &quiet),
        steady(&both, &quiet),
        // Round 17: the NACK has come; Execute puts a TDOWN into the out-queue and marks it.
        vec![
            done(&both, &only(within, &declined)),
            done(&both, &marked_and_torn),
            shows(marked[0], &both, &marked_and_torn),
            done(&both, &only(out, &torn)),
            done(&both, &only(out, &torn)),
        ],
        // Round 18: the TDOWN is sent; round 19.
        vec![done(&both, &only(out, &torn)), done(&both, &only(out, &torn)), done(&both, &quiet)],
        steady(&both, &quiet),
        // Round 20: the first router frees slot 3, and the TDOWN ends there.
        vec![done(&both, &only(at_first, &torn)), done(&second, &quiet), done(&second, &quiet)],
        // Rounds 21 to 24.
        [(); 4].map(|()| steady(&second, &quiet)).concat(),
    ];
    assert_eq!(seen, expected.concat());
    assert!(run.no_packets());
}

/// Of the five queues that are looked at only this one has packets.
fn only(at: usize, packets: &[Packet]) -> [&[Packet]; 5] {
    let mut queues: [&[Packet]; 5] = [&[]; 5];
    queues[at] = packets;
    queues
}

/// "S=4, two routers": the entries of side 1 of the first one, then of the second.
fn both_sides(run: &Run) -> Vec<usize> {
    numbers(&[run.side(0, 1), run.side(1, 1)].concat())
}

#[test]
fn second_launch_with_the_allowance_spent() {
    let mut run = Run::new(&named::T);
    assert_eq!(run.launch(0, 0, 0), Ok(()));
    assert_eq!(run.launch(0, 0, 0), Err(11));
    run.up_to(2);
    // The out-queue is empty again; the allowance is not back.
    assert_eq!(run.queue(Queue::ActiveOut(0)), []);
    assert_eq!(run.launch(0, 0, 1), Err(11));
}

/// Document 01's last run: "two routers, each with an active and a passive, set-ups crossing both ways:
/// 6". Since document 02 (i) the plan loads; what happens then is in `crossing.rs`.
#[test]
fn crossing_set_ups_load() {
    assert!(Network::load(&named::crossing().encode()).is_ok());
}

/// The bytes of the plans whose runs are proved.
#[test]
fn plans_of_the_proved_runs() {
    let plans = [
        (named::declining(), "10822124924C022000020E0420002422"),
        (named::wider_t(), "0842426924940600000020"),
        (named::narrow_there(), "08C286F1AA66040424414C00"),
        (named::narrow_back(), "088486BDB316040426214180"),
        (named::all_sides(), "10C42124924C0426023E200442182D76D300"),
        (named::row_of_four(), "20821924924C022000020A4420022A6000024E0000002422010080"),
        (named::crossing_four_slots(), "10842124924C0602300426221000452088"),
        (plans::narrow_unit(), "08C286F0BAA6040424414C00"),
        (plans::long_way_back(), "18848491B514022248020A4426022A1620002504C92100"),
        (plans::two_to_one(), "08822369124C0426000028"),
        (plans::wider_crossing(), "10842244924C0602300426221000452088"),
        (plans::line_of_three(), "19044248928C04222242144600021C66200029A60108000840"),
        (plans::drives_around(), "18884489248E062242221C0640021426600340B44008020040"),
        (plans::roomy_crossing(), "10844484924C0602300426221000452088"),
        (plans::narrow_side(), "08C286F19A66040424414C00"),
    ];
    for (draft, told) in plans {
        let hex: String = draft.encode().iter().map(|byte| format!("{byte:02X}")).collect();
        assert_eq!(hex, told);
    }
}

/// `TornDown.torn_over_two`.
#[test]
fn a_passives_decline_over_two_routers() {
    let list = [
        // Rounds 0 to 6; round 7: it has come to the passive, which declines.
        calls(&[&[launch(0, 0, 2)], &rounds(7)]),
        vec![Read, Execute],
        vec![reply(0, 0)],
        // Rounds 8 to 10; round 11: the NACK comes, and is marked.
        calls(&[&[Write], &rounds(3), &[Read]]),
        vec![Execute],
        // Round 12: a launch is tried; the NACK is looked at and dropped, and the TDOWN is sent.
        vec![Write, launch(0, 0, 0)],
        in_write(look(0)).to_vec(),
        vec![drop(0)],
        // Round 13; round 14: the TDOWN is at the first router's unit.
        calls(&[&[Write], &rounds(1), &[Read]]),
        vec![Execute],
        // Rounds 15 and 16; round 17: it is at the second one's.
        calls(&[&[Write], &rounds(2), &[Read]]),
        vec![Execute],
        // Rounds 18 and 19.
        calls(&[&[Write], &rounds(2)]),
    ];
    let queues = [Queue::ActiveOut(0), Queue::ActiveIn(0), q(0, 0), q(1, 0), Queue::PassiveIn(0)];
    let look = |run: &Run| [vec![run.state.allowances[0]], both_sides(run)].concat();
    let mut run = Run::new(&named::declining().encode());
    let seen = watching(&mut run, look, &queues, &list);
    // With that allowance: both booked, slot 2 and then slot 3; only the second; all free.
    let both = |allowance| [allowance, 4, 4, 0, 4, 4, 4, 4, 0];
    let second = |allowance| [allowance, 4, 4, 4, 4, 4, 4, 4, 0];
    let free = |allowance| [allowance, 4, 4, 4, 4, 4, 4, 4, 4];
    let (came, marked) = ([nack(0, 0, 0, 2)], [nack(0, 0, 0, 0)]);
    let (torn, torn_on) = ([tear_down(0, 0, 2, 2)], [tear_down(0, 0, 3, 1)]);
    let quiet: [&[Packet]; 5] = [&[]; 5];
    let marked_and_torn: [&[Packet]; 5] = [&torn, &marked, &[], &[], &[]];
    let expected = [
        done(&both(0), &quiet),
        done(&both(0), &[&[], &[], &[], &[], &[set_up(0, 0, 0, 2)]]),
        done(&both(0), &quiet),
        // Round 11: the allowance is not back, neither at the arrival nor at the mark.
        done(&both(0), &[&[], &came, &[], &[], &[]]),
        done(&both(0), &marked_and_torn),
        refused(11, &both(0), &marked_and_torn),
        // Round 12: nor at the Look; it is back at the Drop.
        shows(marked[0], &both(0), &marked_and_torn),
        done(&both(1), &[&torn, &[], &[], &[], &[]]),
        // Freed router by router.
        done(&both(1), &[&[], &[], &torn, &[], &[]]),
        done(&second(1), &[&[], &[], &torn_on, &[], &[]]),
        done(&second(1), &[&[], &[], &[], &torn_on, &[]]),
        done(&free(1), &quiet),
        done(&free(1), &quiet),
    ];
    assert_eq!(seen, expected);
    assert!(run.no_packets());
}

/// `TornDown.torn_over_three`.
#[test]
fn a_passives_decline_over_three_routers() {
    let list = [
        // Rounds 0 to 10; round 11: it has come to the passive, which declines.
        calls(&[&[launch(1, 0, 1)], &rounds(11)]),
        vec![Read, Execute],
        vec![reply(0, 0)],
        // Rounds 12 to 15; round 16: the NACK comes, and is marked.
        calls(&[&[Write], &rounds(4), &[Read]]),
        vec![Execute],
        // Round 17: a launch is tried; the NACK is looked at and dropped, and the TDOWN is sent.
        vec![Write, launch(1, 0, 0)],
        in_write(look(1)).to_vec(),
        vec![drop(1)],
        // Rounds 19, 22 and 25: the TDOWN is at the units of routers 1, 2 and 3.
        calls(&[&[Write], &rounds(1), &[Read]]),
        vec![Execute],
        calls(&[&[Write], &rounds(2), &[Read]]),
        vec![Execute],
        calls(&[&[Write], &rounds(2), &[Read]]),
        vec![Execute],
        calls(&[&[Write], &rounds(2)]),
    ];
    let queues = [Queue::ActiveOut(1), Queue::ActiveIn(1), q(1, 2), q(2, 0), q(3, 0)];
    let look = |run: &Run| {
        let sides = [1, 2, 3].map(|router| run.side(router, 1));
        [vec![run.state.allowances[1]], numbers(&sides.concat())].concat()
    };
    let mut run = Run::new(&named::row_of_four().encode());
    let seen = watching(&mut run, look, &queues, &list);
    // With that allowance: all three booked, slots 1, 2 and 0; the last two; the last; none.
    let three = |allowance| [allowance, 4, 2, 4, 4, 4, 0, 0, 4, 4];
    let last_two = |allowance| [allowance, 4, 4, 4, 4, 4, 0, 0, 4, 4];
    let last_one = |allowance| [allowance, 4, 4, 4, 4, 4, 4, 0, 4, 4];
    let free = |allowance| [allowance, 4, 4, 4, 4, 4, 4, 4, 4, 4];
    let (came, marked) = ([nack(1, 0, 1, 3)], [nack(1, 0, 1, 0)]);
    let torn = [[tear_down(1, 0, 1, 3)], [tear_down(1, 0, 2, 2)], [tear_down(1, 0, 0, 1)]];
    let still: [&[Packet]; 5] = [&[]; 5];
    let marked_and_torn: [&[Packet]; 5] = [&torn[0], &marked, &[], &[], &[]];
    let expected = [
        done(&three(0), &still),
        done(&three(0), &still),
        done(&three(0), &still),
        // Round 16: the allowance is not back; round 17: it is back at the Drop.
        done(&three(0), &[&[], &came, &[], &[], &[]]),
        done(&three(0), &marked_and_torn),
        refused(11, &three(0), &marked_and_torn),
        shows(marked[0], &three(0), &marked_and_torn),
        done(&three(1), &[&torn[0], &[], &[], &[], &[]]),
        // Freed one by one.
        done(&three(1), &[&[], &[], &torn[0], &[], &[]]),
        done(&last_two(1), &[&[], &[], &torn[1], &[], &[]]),
        done(&last_two(1), &[&[], &[], &[], &torn[1], &[]]),
        done(&last_one(1), &[&[], &[], &[], &torn[2], &[]]),
        done(&last_one(1), &[&[], &[], &[], &[], &torn[2]]),
        done(&free(1), &still),
        done(&free(1), &still),
    ];
    assert_eq!(seen, expected);
    assert!(run.no_packets());
}

/// `Order.lower_side_first`.
#[test]
fn the_lower_side_goes_first_to_the_unit() {
    let list = [
        // Round 1: after Read and Write; rounds 2 to 4: after Execute, and the Write of 2 and 3.
        calls(&[&[launch(0, 0, 5), launch(1, 0, 5), launch(2, 0, 5)], &ROUND, &[Read]]),
        vec![Execute, Write],
        vec![Read, Execute],
        vec![Write],
        vec![Read, Execute],
        vec![Write],
        vec![Read, Execute],
    ];
    let queues = [u(0, 1), u(0, 2), u(0, 3), q(0, 1), q(0, 2), q(0, 3)];
    let slot_5 = |run: &Run| numbers(&[run.entry(0, 0, 5)]);
    let seen = moments(&named::narrow_there().encode(), slot_5, &queues, &list);
    let of = [0, 1, 2].map(|active| [set_up(active, 0, 5, 0)]);
    let (booked, declined) = ([set_up(0, 0, 6, 1)], [1, 2].map(|active| [nack(active, 0, 5, 0)]));
    let expected = [
        // Round 1: all wait; U[1] goes first.
        done(&[4], &[&of[0], &of[1], &of[2], &[], &[], &[]]),
        done(&[4], &[&[], &of[1], &of[2], &[], &[], &[]]),
        // Round 2: active 0 gets the entry; U[2] goes.
        done(&[1], &[&[], &of[1], &of[2], &booked, &[], &[]]),
        done(&[1], &[&[], &[], &of[2], &[], &[], &[]]),
        // Round 3: active 1 comes too late; U[3] goes. Round 4: and so does active 2.
        done(&[1], &[&[], &[], &of[2], &[], &declined[0], &[]]),
        done(&[1], &[&[], &[], &[], &[], &[], &[]]),
        done(&[1], &[&[], &[], &[], &[], &[], &declined[1]]),
    ];
    assert_eq!(seen, expected);
}

/// `Order.unit_first_then_sides`.
#[test]
fn the_unit_goes_first_by_a_side_then_the_lower_side() {
    let list = [
        // Round 0: a set-up to each passive; round 6: another to passive 0, for a booked entry.
        calls(&[&[launch(0, 0, 8), launch(0, 1, 8)], &rounds(6), &[launch(0, 0, 8)], &ROUND]),
        // Round 7: both passives accept; round 8; round 9: after Read and Write.
        calls(&[&[Read, Execute, reply(0, 1), reply(1, 1), Write], &ROUND, &[Read]]),
        vec![Execute, Write],
        // Rounds 10, 11 and 12: after Read, and after the Write of 10 and 11.
        vec![Read],
        vec![Execute, Write],
        vec![Read],
        vec![Execute, Write],
        vec![Read],
    ];
    let queues = [answers(0, 1), k(0, 0, 1), k(0, 3, 1), Queue::ActiveIn(0)];
    let seen = moments(&named::narrow_back().encode(), |_| vec![], &queues, &list);
    let all = [nack(0, 0, 8, 0), ack(0, 0, 9, 1), ack(0, 1, 9, 1)];
    let [nack, ack_0, ack_1] = all.map(|packet| [packet]);
    let expected = [
        done(&[], &[&[], &[], &[], &[]]),
        // Round 9: all three wait; the answer F[1] goes first, then K[0,1], then K[3,1].
        done(&[], &[&nack, &ack_0, &ack_1, &[]]),
        done(&[], &[&[], &ack_0, &ack_1, &[]]),
        done(&[], &[&[], &ack_0, &ack_1, &nack]),
        done(&[], &[&[], &[], &ack_1, &nack]),
        done(&[], &[&[], &[], &ack_1, &all[..2]]),
        done(&[], &[&[], &[], &[], &all[..2]]),
        done(&[], &[&[], &[], &[], &all]),
    ];
    assert_eq!(seen, expected);
}

/// `U[2]`, `U[3]`, `Q[1]`, `Q[2]`, `Q[3]`, the set-up `F[0]`, passive 0's in-queue.
const WAY_AHEAD: [Queue; 7] =
    [u(0, 2), u(0, 3), q(0, 1), q(0, 2), q(0, 3), set_ups(0, 0), Queue::PassiveIn(0)];

/// The allowances of the three actives, the packets in their out-queues, then in the seven; the credits
/// of the seven, and the flag of the last.
fn way_ahead(run: &Run) -> Vec<usize> {
    let out = lengths(run, &[0, 1, 2].map(Queue::ActiveOut));
    let (filled, room) = (lengths(run, &WAY_AHEAD), credits(run, &WAY_AHEAD));
    [&run.state.allowances[..], &out, &filled, &room, &[run.flag(Queue::PassiveIn(0))]].concat()
}

/// `Capacities.filled_there`: with an allowance of 6 active 0 fills the way from the unit on, and then
/// actives 1 and 2 their Q and their U.
#[test]
fn capacities_on_the_way_to_a_passive() {
    let list = [
        // Round 0: active 0 launches six times, and once more.
        launches(0, 0, &[15, 14, 13, 12, 11, 10]),
        vec![launch(0, 0, 9)],
        // Rounds 0 to 9; round 10: actives 1 and 2 launch six times each.
        calls(&[
            &rounds(10),
            &launches(1, 0, &[9, 8, 7, 6, 5, 4]),
            &launches(2, 0, &[3, 2, 1, 0, 9, 8]),
        ]),
        // Rounds 10 to 15; round 16.
        rounds(6),
        rounds(1),
        // Round 17: the passive replies; rounds 18 to 22: after Read of each.
        in_write(reply(0, 1)).to_vec(),
        vec![Write, Read],
        vec![Execute, Write, Read],
        vec![Execute, Write, Read],
        vec![Execute, Write, Read],
        vec![Execute, Write, Read],
    ];
    let seen = moments(&plans::narrow_unit().encode(), way_ahead, &[], &list);
    // The seven at their capacities, and at 0.
    let (full, zeros) = ([4, 4, 1, 1, 1, 3, 2], [0; 7]);
    let first = [&[0, 6, 6, 6, 0, 0][..], &zeros, &full, &[0]].concat();
    // The allowances are spent, and so many wait in the out-queues.
    let spent = |out: [usize; 3], filled: [usize; 7], room: [usize; 7], flag: usize| {
        done(&[&[0; 3][..], &out, &filled, &room, &[flag]].concat(), &[])
    };
    let expected = [
        // Round 0: the allowance is 6, not 7; 11 comes before 12.
        done(&first, &[]),
        refused(11, &first, &[]),
        // Round 10: of active 0's six two are at the passive, two in F, one is on the wire to the unit,
        // one in U[1].
        spent([0, 6, 6], [0, 0, 0, 0, 0, 2, 2], [4, 4, 0, 1, 1, 1, 0], 0),
        // Round 15: each is full, with credit 0, and a set-up waits in the out-queues of actives 1 and
        // 2; round 16: still.
        spent([0, 1, 1], full, zeros, 0),
        spent([0, 1, 1], full, zeros, 0),
        // Round 17: the reply makes room and the flag rises; round 18: the credit comes with Read.
        spent([0, 1, 1], [4, 4, 1, 1, 1, 3, 1], zeros, 1),
        spent([0, 1, 1], [4, 4, 1, 1, 1, 3, 1], [0, 0, 0, 0, 0, 0, 1], 0),
        // Rounds 19 to 22: one packet follows from F, one from Q[2], for Q[1] has sent last, one from
        // U[2], one from active 1.
        spent([0, 1, 1], [4, 4, 1, 1, 1, 2, 2], [0, 0, 0, 0, 0, 1, 0], 0),
        spent([0, 1, 1], [4, 4, 1, 0, 1, 3, 2], [0, 0, 0, 1, 0, 0, 0], 0),
        spent([0, 1, 1], [3, 4, 1, 1, 1, 3, 2], [1, 0, 0, 0, 0, 0, 0], 0),
        spent([0, 0, 1], full, zeros, 0),
    ];
    assert_eq!(seen, expected);
}

/// All three launch at once: U[1] to U[3] take turns on the way to the unit and Q[1] to Q[3] on the way
/// back, so as many wait for the one as for the other.
#[test]
fn capacities_where_three_take_turns() {
    let mut run = Run::new(&named::narrow_there().encode());
    for launch in 0..5 {
        for active in 0..3 {
            assert_eq!(run.launch(active, 0, 15 - 3 * launch - active), Ok(()));
        }
    }
    let at_sides = |run: &Run| {
        [1, 2, 3].map(|from| [Queue::U { router: 0, from }, q(0, from)].map(|n| run.len(n)))
    };
    let behind = |run: &Run| [run.len(set_ups(0, 0)), run.len(Queue::PassiveIn(0))];
    run.up_to(20);
    assert_eq!((at_sides(&run), behind(&run)), ([[1, 3]; 3], [2, 1]));
    run.run_to_write();
    assert_eq!(run.reply(0, 1), Ok(()));
    run.end();
    // One of each has gone, so side 1 is the next, at the unit and on the way to it.
    let sides = |side_1| [side_1, [1, 3], [1, 3]];
    let rounds = [([1, 3], [2, 0]), ([1, 3], [1, 1]), ([1, 2], [2, 1]), ([0, 3], [2, 1])];
    for (round, (side_1, then)) in (21..).zip(rounds) {
        run.read_of(round);
        assert_eq!((at_sides(&run), behind(&run)), (sides(side_1), then));
        run.execute();
        run.end();
    }
}

#[test]
fn capacities_on_the_way_back() {
    let mut run = Run::new(&named::narrow_back().encode());
    for slot in [15, 14, 13, 12] {
        assert_eq!(run.launch(0, 1, slot), Ok(()));
    }
    assert_eq!((run.launch(0, 0, 15), run.launch(0, 0, 14)), (Ok(()), Err(11)));
    run.up_to(8);
    assert_eq!((run.len(Queue::PassiveIn(1)), run.credit(Queue::PassiveIn(1))), (4, 0));
    run.run_to_write();
    assert_eq!((run.reply(0, 1), run.reply(1, 1), run.reply(1, 1)), (Ok(()), Ok(()), Err(14)));
    run.end();
    let mut answers = Vec::new();
    for _ in 9..14 {
        run.run_to_write();
        answers.push(run.reply(1, 1));
        run.end();
        let crossing = Queue::K { router: 0, from: 3, to: 1 };
        assert!(run.len(crossing) <= 1 && run.len(Queue::PassiveOut(1)) <= 2);
    }
    assert_eq!(answers, [Ok(()), Ok(()), Err(12), Err(12), Ok(())]);
    run.up_to(21);
    assert_eq!((run.len(Queue::ActiveIn(0)), run.credit(Queue::ActiveIn(0))), (5, 0));
}

#[test]
fn a_full_out_queue() {
    let mut run = Run::new(&named::wider_t().encode());
    assert_eq!(run.launch(0, 0, 6), Ok(()));
    run.up_to(4);
    run.run_to_write();
    assert_eq!(run.reply(0, 0), Ok(()));
    run.end();
    run.up_to(7);
    run.run_to_write();
    assert_eq!((run.look(0), run.drop(0)), (Ok(packet(Kind::Nack, 7, 0)), Ok(())));
    run.end();
    // The TDOWN is in the out-queue, the whole allowance is back.
    assert_eq!(run.state.allowances[0], 2);
    assert_eq!((run.launch(0, 0, 4), run.launch(0, 0, 5)), (Ok(()), Err(12)));
    run.up_to(9);
    assert_eq!(run.launch(0, 0, 5), Ok(()));
}

#[test]
fn a_walk_of_four_routers_that_wraps() {
    let mut run = Run::new(&named::row_of_four().encode());
    assert_eq!(run.launch(0, 0, 2), Ok(()));
    run.up_to(16);
    run.run_to_write();
    let sides = [0, 1, 2, 3].map(|router| run.side(router, 1));
    assert_eq!(sides, [vec![4, 4, 0], vec![0, 4, 4], vec![4, 0, 4], vec![4, 4, 0]]);
    assert_eq!(run.reply(0, 1), Ok(()));
    run.end();
    run.up_to(22);
    run.run_to_write();
    let ack = packet(Kind::Ack, 0, 4);
    assert_eq!((run.look(0), run.drop(0)), (Ok(ack), Ok(())));
    // Slot 0 minus hub 4 modulo 3: the start slot.
    assert_eq!(ack.slot.minus(ack.hub, run.network.slots()), Slot(2));
}

/// `Heads.one_head_a_round`: a handled set-up that must wait, behind it a TDOWN that ends at this unit,
/// behind it another set-up, all in `Q[1]`.
#[test]
fn no_second_head_in_a_round() {
    let list = [
        // Rounds 0 to 3: active 0 launches, and again: these set-ups fill the way to passive 0.
        calls(&[&[launch(0, 0, 15)], &rounds(3), &launches(0, 0, &[0, 1, 2, 3]), &ROUND]),
        // Round 4: the first one is declined; rounds 5 to 7: its TDOWN joins the out-queue.
        calls(&[&in_write(reply(0, 0)), &[Write], &rounds(3)]),
        // Rounds 8 to 10: active 0 launches behind it; round 11.
        calls(&[&[launch(0, 0, 4)], &rounds(3), &[Read, Execute]]),
        // Passive 0 replies; rounds 12 and 13: the way is free for one.
        calls(&[&[reply(0, 1), Write], &rounds(2)]),
        // Round 14; round 15: Read and Execute.
        vec![Read],
        vec![Execute],
        vec![Write],
        vec![Read],
        vec![Execute],
    ];
    let watched = |run: &Run| {
        let entries = numbers(&[run.entry(0, 0, 15), run.entry(0, 0, 4)]);
        [&entries[..], &[run.credit(q(0, 1)), run.flag(q(0, 1))]].concat()
    };
    let seen = moments(&named::narrow_there().encode(), watched, &[q(0, 1)], &list);
    let all = [set_up(0, 0, 4, 1), tear_down(0, 0, 15, 1), set_up(0, 0, 4, 0)];
    let expected = [
        done(&[1, 4, 3, 0], &[&[]]),
        done(&[1, 4, 1, 1], &[&[]]),
        // Round 11: the handled head waits, and nothing behind it is handled; round 13: it has left.
        done(&[1, 4, 0, 0], &[&all]),
        done(&[1, 4, 0, 1], &[&all[1..]]),
        // Round 14: the TDOWN frees slot 15 and ends, the flag rises; the next head is not handled.
        done(&[1, 4, 1, 0], &[&all[1..]]),
        done(&[4, 4, 1, 1], &[&all[2..]]),
        done(&[4, 4, 1, 1], &[&all[2..]]),
        // Round 15: the credit is back, and it is handled.
        done(&[4, 4, 2, 0], &[&all[2..]]),
        done(&[4, 1, 2, 0], &[&[set_up(0, 0, 5, 1)]]),
    ];
    assert_eq!(seen, expected);
}

/// "S=4, two routers": the entries that a connection from slot 3 makes.
fn opened_from_3() -> [Vec<u32>; 2] {
    [vec![4, 4, 4, 0], vec![0, 4, 4, 4]]
}

#[test]
fn opened_closed_and_opened_again() {
    let mut run = Run::new(&named::two_routers().encode());
    run.open(0, 0, 3);
    assert_eq!((run.round, run.accepted()), (13, vec![(0, 0, 3)]));
    assert_eq!([run.side(0, 1), run.side(1, 1)], opened_from_3());
    // "A TDOWN in the active's out-queue, slot the start slot, hub the number of routers on the
    // walk, and the connection leaves the accepted ones"; the allowance stays, and the table too.
    assert_eq!(run.close(0, 0, 3), Ok(()));
    assert_eq!(run.queue(Queue::ActiveOut(0)), [packet(Kind::Tdown, 3, 2)]);
    assert_eq!((run.accepted(), run.state.allowances[0]), (vec![], 1));
    assert_eq!([run.side(0, 1), run.side(1, 1)], opened_from_3());
    // Freed router by router, in rounds 15 and 18.
    run.read_of(15);
    assert_eq!([run.side(0, 1), run.side(1, 1)], opened_from_3());
    run.execute();
    assert_eq!([run.side(0, 1), run.side(1, 1)], [vec![4; 4], vec![0, 4, 4, 4]]);
    run.end();
    run.read_of(18);
    assert_eq!(run.queue(q(1, 0)), [packet(Kind::Tdown, 0, 1)]);
    run.execute();
    assert_eq!([run.side(0, 1), run.side(1, 1)], [vec![4; 4], vec![4; 4]]);
    assert!(run.no_packets());
    run.end();
    // The same start again.
    run.open(0, 0, 3);
    assert_eq!((run.round, run.accepted()), (31, vec![(0, 0, 3)]));
    assert_eq!([run.side(0, 1), run.side(1, 1)], opened_from_3());
    assert!(run.no_packets());
}

/// A set-up that follows the tear-down may ask for the same slots: it comes after it everywhere.
#[test]
fn opened_again_behind_the_tear_down() {
    let mut run = Run::new(&named::two_routers().encode());
    run.open(0, 0, 3);
    assert_eq!((run.close(0, 0, 3), run.launch(0, 0, 3)), (Ok(()), Err(12)));
    run.up_to(run.round + 1);
    run.open(0, 0, 3);
    assert_eq!(run.accepted(), [(0, 0, 3)]);
    assert_eq!([run.side(0, 1), run.side(1, 1)], opened_from_3());
}

#[test]
fn closed_twice() {
    let mut run = Run::new(&named::two_routers().encode());
    run.open(0, 0, 3);
    assert_eq!(run.close(0, 0, 3), Ok(()));
    // 16 comes before 12: the out-queue is full.
    assert_eq!((run.len(Queue::ActiveOut(0)), run.close(0, 0, 3)), (1, Err(16)));
    while !run.no_packets() {
        run.up_to(run.round + 1);
        assert_eq!(run.close(0, 0, 3), Err(16));
    }
    assert_eq!([run.side(0, 1), run.side(1, 1)], [vec![4; 4], vec![4; 4]]);
}

#[test]
fn closed_before_the_ack_is_dropped() {
    let mut run = Run::new(&named::two_routers().encode());
    assert_eq!(run.launch(0, 0, 3), Ok(()));
    while run.queue(Queue::ActiveIn(0)).is_empty() {
        assert_eq!(run.close(0, 0, 3), Err(16));
        run.run_to_write();
        let _ = run.reply(0, 1);
        run.end();
    }
    // The ACK has arrived and waits.
    assert_eq!((run.close(0, 0, 3), run.accepted()), (Err(16), vec![]));
    run.run_to_write();
    assert_eq!(run.close(0, 0, 3), Err(8));
    assert_eq!((run.look(0), run.drop(0)), (Ok(packet(Kind::Ack, 1, 2)), Ok(())));
    assert_eq!((run.close(0, 0, 3), run.accepted()), (Err(8), vec![(0, 0, 3)]));
    run.end();
    assert_eq!((run.close(0, 0, 2), run.close(0, 0, 3)), (Err(16), Ok(())));
}

#[test]
fn closed_with_the_out_queue_full() {
    let mut run = Run::new(&named::two_routers().encode());
    run.open(0, 0, 3);
    assert_eq!(run.launch(0, 0, 1), Ok(()));
    // A refusal alters nothing: the connection stays accepted.
    assert_eq!((run.close(0, 0, 3), run.accepted()), (Err(12), vec![(0, 0, 3)]));
    run.up_to(run.round + 1);
    assert_eq!((run.close(0, 0, 3), run.accepted()), (Ok(()), vec![]));
    // The allowance is spent by the set-up, not by the Close.
    assert_eq!(run.state.allowances[0], 0);
}

#[test]
fn refusals_of_close_come_in_order() {
    let mut run = Run::new(&named::all_sides().encode());
    for (active, passive, slot) in [(3, 0, 0), (0, 2, 0), (0, 0, 4), (99, 99, 99)] {
        assert_eq!(run.close(active, passive, slot), Err(9));
    }
    assert_eq!((run.close(0, 1, 0), run.close(0, 0, 0)), (Err(10), Err(16)));
    run.run_to_write();
    assert_eq!(run.close(99, 99, 99), Err(8));
}

/// Two actives with a connection each; one is closed, then the other.
#[test]
fn every_other_connection_keeps_its_entries() {
    let mut run = Run::new(&named::declining().encode());
    run.open(1, 0, 0);
    run.open(0, 0, 0);
    assert_eq!(run.accepted(), [(0, 0, 0), (1, 0, 0)]);
    assert_eq!([run.side(0, 1), run.side(1, 1)], [vec![0, 4, 4, 4], vec![2, 0, 4, 4]]);
    assert_eq!(run.close(0, 0, 0), Ok(()));
    while !run.no_packets() {
        assert_eq!(run.entry(1, 1, 0), 2);
        run.up_to(run.round + 1);
    }
    assert_eq!(run.accepted(), [(1, 0, 0)]);
    assert_eq!([run.side(0, 1), run.side(1, 1)], [vec![4; 4], vec![2, 4, 4, 4]]);
    run.open(0, 0, 2);
    assert_eq!(run.close(1, 0, 0), Ok(()));
    run.run_empty();
    assert_eq!(run.accepted(), [(0, 0, 2)]);
    assert_eq!([run.side(0, 1), run.side(1, 1)], [vec![4, 4, 0, 4], vec![4, 4, 4, 0]]);
}

/// Four routers and S=3: the tear-down's slot goes round, and the last free entries are free again.
#[test]
fn a_walk_that_wraps_is_closed() {
    let mut run = Run::new(&named::row_of_four().encode());
    run.open(0, 0, 2);
    assert_eq!(run.accepted(), [(0, 0, 2)]);
    assert_eq!(run.close(0, 0, 2), Ok(()));
    assert_eq!(run.queue(Queue::ActiveOut(0)), [packet(Kind::Tdown, 2, 4)]);
    run.run_empty();
    assert_eq!([0, 1, 2, 3].map(|router| run.side(router, 1)), [(); 4].map(|()| vec![4; 3]));
}

/// The run of a student's rule up to an opened connection from slot 3 over two routers.
fn students(set: fn(&mut Rules)) -> Run {
    let mut rules = Rules::default();
    set(&mut rules);
    let mut run = Run::with_rules(&named::two_routers().encode(), rules);
    run.open(0, 0, 3);
    assert_eq!(run.accepted(), [(0, 0, 3)]);
    run
}

#[test]
fn a_close_with_hub_one_too_many() {
    let mut run = students(|rules| rules.close_one_too_far = true);
    assert_eq!(run.close(0, 0, 3), Ok(()));
    assert_eq!(run.queue(Queue::ActiveOut(0)), [packet(Kind::Tdown, 3, 3)]);
    run.up_to(run.round + 8);
    // Past the last router it comes to the passive, which knows of no tear-downs.
    assert_eq!(run.queue(Queue::PassiveIn(0)), [packet(Kind::Tdown, 1, 1)]);
}

#[test]
fn a_close_that_clears_at_once() {
    let mut run = students(|rules| rules.close_clears_at_once = true);
    assert_eq!(run.launch(0, 0, 1), Ok(()));
    // No packet is made, so a full out-queue does not matter; routers far away lose their entries.
    assert_eq!((run.close(0, 0, 3), run.len(Queue::ActiveOut(0))), (Ok(()), 1));
    assert_eq!([run.side(0, 1), run.side(1, 1)], [vec![4; 4], vec![4; 4]]);
}

#[test]
fn a_close_that_frees_early() {
    let rules = Rules { close_frees_early: true, ..Rules::default() };
    let mut run = Run::with_rules(&named::declining().encode(), rules);
    run.open(0, 0, 3);
    assert_eq!([run.side(0, 1), run.side(1, 1)], [vec![4, 4, 4, 0], vec![0, 4, 4, 4]]);
    assert_eq!(run.close(0, 0, 3), Ok(()));
    assert_eq!(run.queue(Queue::ActiveOut(0)), [packet(Kind::Tdown, 3, 2)]);
    assert_eq!([run.side(0, 1), run.side(1, 1)], [vec![4; 4], vec![4; 4]]);
    // The other active books the entry, and the tear-down that comes after it frees it.
    run.open(1, 0, 0);
    run.run_empty();
    assert_eq!((run.accepted(), run.side(1, 1)), (vec![(1, 0, 0)], vec![4; 4]));
}

#[test]
fn a_connection_accepted_until_torn_down() {
    let mut run = students(|rules| rules.accepted_until_torn_down = true);
    assert_eq!((run.close(0, 0, 3), run.accepted()), (Ok(()), vec![(0, 0, 3)]));
    run.up_to(run.round + 3);
    // The first router has freed its entry: by the documents' rules this is no state.
    let network = Run::new(&named::two_routers().encode()).network;
    assert_eq!(network.fault(&run.state), Some("a mark that lacks an entry"));
    // Closed again, a second tear-down follows the first.
    assert_eq!(run.close(0, 0, 3), Ok(()));
    run.run_empty();
    assert_eq!(run.accepted(), []);
}

#[test]
fn a_connection_accepted_at_the_arrival() {
    let rules = Rules { accepted_at_the_arrival: true, ..Rules::default() };
    let mut run = Run::with_rules(&named::two_routers().encode(), rules);
    assert_eq!(run.launch(0, 0, 3), Ok(()));
    while run.queue(Queue::ActiveIn(0)).is_empty() {
        run.run_to_write();
        let _ = run.reply(0, 1);
        run.end();
    }
    // Closed before anybody was told: the ACK that is dropped then tells of nothing.
    assert_eq!(run.close(0, 0, 3), Ok(()));
    run.run_to_write();
    assert_eq!((run.look(0), run.drop(0)), (Ok(packet(Kind::Ack, 1, 2)), Ok(())));
    assert_eq!(run.accepted(), []);
}

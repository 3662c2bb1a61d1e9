//! The runs of `crates/rules/proofs/Runs/BothEnds.antt`, document 02 (i): each test has its theorem's
//! name, and the same calls, moments and figures. Rounds are counted from 0.

mod common;

use common::lists::five_wait;
use common::queues::{answers, k, q, set_ups, u};
use common::watch::{
    calls, done, in_write, launch, lengths, moments, numbers, reply, rounds, watching, After,
    Execute, Read, Write, ROUND,
};
use common::{ack, nack, plans, set_up, tear_down, Run};
use model::machine::{Answer, Link};
use model::Port;

/// The entries of side 2, by which all set-ups of `two_to_one` leave.
fn side_2(run: &Run) -> Vec<usize> {
    numbers(&run.side(0, 2))
}

/// Two set-ups for one entry, in `Q[0]` and `Q[1]`, in one Execute.
#[test]
fn side_0_first() {
    let list = [
        // Rounds 0 to 2; round 3: active 0 launches with slot 3, as active 1 has done; round 4: after
        // Execute.
        calls(&[
            &[launch(0, 0, 2), launch(1, 0, 0), launch(1, 0, 3)],
            &rounds(3),
            &[launch(0, 0, 3)],
            &ROUND,
            &[Read, Execute],
        ]),
        // Round 5: after Read, Execute, Write.
        vec![Write, Read],
        vec![Execute],
        vec![Write],
    ];
    let seen = moments(&plans::two_to_one().encode(), side_2, &[q(0, 0), q(0, 1)], &list);
    let expected = [
        // Active 1's first set-up, handled, waits for F; behind it is its second.
        done(&[1, 4, 0, 4], &[&[], &[set_up(1, 0, 1, 1), set_up(1, 0, 3, 0)]]),
        // Both heads are unhandled, both for slot 3. Side 0's is booked, side 1's becomes a NACK.
        done(&[1, 4, 0, 4], &[&[set_up(0, 0, 3, 0)], &[set_up(1, 0, 3, 0)]]),
        done(&[1, 4, 0, 0], &[&[set_up(0, 0, 0, 1)], &[nack(1, 0, 3, 0)]]),
        // The NACK leaves, by the answer F; the set-up F is full, and side 0's waits.
        done(&[1, 4, 0, 0], &[&[set_up(0, 0, 0, 1)], &[]]),
    ];
    assert_eq!(seen, expected);
}

/// A TDOWN ends in `Q[0]`, and in the same Execute the head of `Q[1]` has the entry that it freed.
#[test]
fn freed_and_booked() {
    let list = [
        // Round 0: active 0 launches with slot 0, and is declined in round 4. Rounds 5 and 6: active 1
        // launches three times with slot 0; the first two become NACKs.
        calls(&[
            &[launch(0, 0, 0)],
            &rounds(4),
            &in_write(reply(0, 0)),
            &[Write, launch(1, 0, 0), launch(1, 0, 0)],
            &ROUND,
        ]),
        calls(&[&[launch(1, 0, 0)], &rounds(3), &[Read, Execute]]),
        // Round 10: after Read, Execute, Write.
        vec![Write, Read],
        vec![Execute],
        vec![Write],
    ];
    let seen = moments(&plans::two_to_one().encode(), side_2, &[q(0, 0), q(0, 1)], &list);
    let expected = [
        done(&[0, 4, 4, 4], &[&[], &[]]),
        // Round 9: the last set-up stands behind a NACK.
        done(&[0, 4, 4, 4], &[&[], &[nack(1, 0, 0, 0), set_up(1, 0, 0, 0)]]),
        // Round 10: the TDOWN frees slot 0 and ends, and then active 1's set-up finds the entry free.
        done(&[0, 4, 4, 4], &[&[tear_down(0, 0, 0, 1)], &[set_up(1, 0, 0, 0)]]),
        done(&[1, 4, 4, 4], &[&[], &[set_up(1, 0, 1, 1)]]),
        done(&[1, 4, 4, 4], &[&[], &[]]),
    ];
    assert_eq!(seen, expected);
}

/// The Q that a packet on the way to the unit joins is that of the side by which its walk comes in, not
/// that of the rank which this way remembers. Along a list from Start the two are the same, so this run
/// begins with another state.
#[test]
fn side_of_the_walk() {
    let mut run = Run::new(&plans::two_to_one().encode());
    for call in calls(&[&[launch(1, 0, 0)], &rounds(2)]) {
        assert_eq!(run.network.call(&mut run.state, call), Ok(Answer::Done));
    }
    // Active 1's set-up is on that wire, and the way to the unit is made to remember U[0].
    let to_unit = run.network.link_index(Link::Unit(0));
    run.state.last[to_unit] = 0;
    assert_eq!(run.network.fault(&run.state), None);
    let last = |run: &Run| vec![run.last(Link::Unit(0))];
    let seen = watching(&mut run, last, &[q(0, 0), q(0, 1)], &[vec![Read], vec![Execute]]);
    let expected =
        [done(&[0], &[&[], &[set_up(1, 0, 0, 0)]]), done(&[0], &[&[], &[set_up(1, 0, 1, 1)]])];
    assert_eq!(seen, expected);
}

/// "Set-up F, answer F, then K": both F of one side wait.
#[test]
fn set_ups_first() {
    let list = [
        // Round 0: active 0 to passive 0; active 1 to it too, for the same entry of router 0. Round 4:
        // active 0 to passive 1, with slot 2. Round 6: after Execute.
        calls(&[
            &[launch(0, 0, 1), launch(1, 0, 0)],
            &rounds(4),
            &[launch(0, 1, 2)],
            &rounds(2),
            &[Read, Execute],
        ]),
        // Round 7: after Read and Write; round 8: after Write.
        vec![Write, Read],
        vec![Execute, Write],
        rounds(1),
    ];
    let by_side_2 = Link::Side(Port { router: 0, side: 2 });
    let look = |run: &Run| vec![run.entry(0, 2, 2) as usize, run.last(by_side_2)];
    let plan = plans::wider_crossing().encode();
    let seen = moments(&plan, look, &[set_ups(0, 2), answers(0, 2)], &list);
    let expected = [
        // Round 6: the NACK waits, for active 0's set-up has booked the current slot.
        done(&[0, 4], &[&[], &[nack(1, 0, 1, 1)]]),
        // Round 7: the set-up goes first though it came later; round 8: the NACK.
        done(&[0, 4], &[&[set_up(0, 1, 3, 1)], &[nack(1, 0, 1, 1)]]),
        done(&[0, 0], &[&[], &[nack(1, 0, 1, 1)]]),
        done(&[0, 1], &[&[], &[]]),
    ];
    assert_eq!(seen, expected);
}

/// The last senders to router 0's unit and from it, the packets in `U[0]` to `U[3]`, and in `Q[0]` to
/// `Q[3]`.
fn at_unit_0(run: &Run) -> Vec<usize> {
    let last = [Link::Unit(0), Link::Back(0)].map(|link| run.last(link));
    let u = lengths(run, &[0, 1, 2, 3].map(|side| u(0, side)));
    let q = lengths(run, &[0, 1, 2, 3].map(|side| q(0, side)));
    [&last[..], &u, &q].concat()
}

/// These figures, with all calls done.
fn at_unit(last: [usize; 2], u: [usize; 4], q: [usize; 4]) -> After {
    done(&[&last[..], &u, &q].concat(), &[])
}

/// Four senders to the unit, and four Q from it: actives 0 and 1 come in to router 0 by sides 0 and 1,
/// active 2, to passive 1, by side 2, and active 3, to passive 0, by side 3.
#[test]
fn four_in_turn() {
    let list = [
        // Rounds 0 to 6; round 7: after Read.
        calls(&[
            &[launch(3, 0, 0)],
            &ROUND,
            &[launch(2, 1, 7)],
            &ROUND,
            &[launch(3, 0, 1)],
            &ROUND,
            &[launch(0, 1, 1), launch(0, 1, 3), launch(2, 1, 4)],
            &rounds(2),
            &[launch(1, 0, 6), launch(1, 0, 6)],
            &rounds(2),
            &[Read],
        ]),
        // Rounds 7 to 10: after Write.
        vec![Execute, Write],
        rounds(1),
        rounds(1),
        rounds(1),
        // Round 11: after Execute and Write; rounds 12 to 15: after Write.
        vec![Read, Execute],
        vec![Write],
        rounds(1),
        rounds(1),
        rounds(1),
        rounds(1),
    ];
    let seen = moments(&plans::line_of_three().encode(), at_unit_0, &[], &list);
    let expected = [
        // Round 7: all four U wait. They go in turn, U[0] to U[3], in rounds 7 to 10.
        at_unit([3, 0], [1, 2, 1, 1], [0, 0, 1, 1]),
        at_unit([0, 2], [0, 2, 1, 1], [0, 0, 0, 1]),
        at_unit([1, 3], [0, 1, 1, 1], [1, 0, 0, 0]),
        // Rounds 9 and 10: sides 2 and 3 are closed in round 9, both set-up F are full, and nothing
        // leaves the unit.
        at_unit([2, 3], [0, 1, 0, 1], [1, 1, 0, 0]),
        at_unit([3, 3], [0, 1, 0, 0], [1, 1, 1, 0]),
        // Round 11: all four Q wait, each full. They go in turn, Q[0] to Q[3], in rounds 11 to 14.
        at_unit([3, 3], [0, 1, 0, 0], [1, 1, 1, 1]),
        at_unit([3, 0], [0, 1, 0, 0], [0, 1, 1, 1]),
        at_unit([3, 1], [0, 1, 0, 0], [0, 0, 1, 1]),
        at_unit([1, 2], [0, 0, 0, 0], [0, 0, 0, 1]),
        // Round 14: Q[1] has a head again, and it is Q[3]'s turn; round 15: Q[1]'s.
        at_unit([1, 3], [0, 0, 0, 0], [0, 1, 0, 0]),
        at_unit([1, 1], [0, 0, 0, 0], [0, 0, 0, 0]),
    ];
    assert_eq!(seen, expected);
}

/// Five senders at a side, "so at most four others go first there". By side 3 of router 0 go the
/// answers of passives 0, 1 and 3 to active 0, a NACK of router 0's unit to it, and the set-ups of
/// active 1 to passive 2.
#[test]
fn fifth_sees_four() {
    let list = [
        // Rounds 0 to 12; round 13: after Read.
        five_wait(),
        // Rounds 13 to 16: after Write; round 17: after Read and Write; round 18: after Write.
        vec![Execute, Write],
        rounds(1),
        rounds(1),
        rounds(1),
        vec![Read],
        vec![Execute, Write],
        rounds(1),
    ];
    let five = [set_ups(0, 3), answers(0, 3), k(0, 0, 3), k(0, 1, 3), k(0, 2, 3)];
    let last = |run: &Run| vec![run.last(Link::Side(Port { router: 0, side: 3 }))];
    let seen = moments(&plans::drives_around().encode(), last, &five, &list);
    // Active 1's set-ups to passive 2; the NACK; the ACKs of passives 0, 1 and 3.
    let (first, next) = ([set_up(1, 2, 5, 2)], [set_up(1, 2, 4, 2)]);
    let nack = [nack(0, 0, 6, 1)];
    let (ack_0, ack_1, ack_3) = ([ack(0, 0, 0, 2)], [ack(0, 1, 2, 2)], [ack(0, 3, 5, 3)]);
    let expected = [
        // Round 13: all five wait.
        done(&[4], &[&first, &nack, &ack_0, &ack_1, &ack_3]),
        // Rounds 13 to 16: the set-up F goes, the answer F, K[0,3], K[1,3].
        done(&[0], &[&[], &nack, &ack_0, &ack_1, &ack_3]),
        done(&[1], &[&[], &[], &ack_0, &ack_1, &ack_3]),
        done(&[2], &[&[], &[], &[], &ack_1, &ack_3]),
        done(&[3], &[&[], &[], &[], &[], &ack_3]),
        // Round 17: the set-up F has another, and it is the turn of K[2,3], which saw four go; round
        // 18: the set-up F again.
        done(&[3], &[&next, &[], &[], &[], &ack_3]),
        done(&[4], &[&next, &[], &[], &[], &[]]),
        done(&[0], &[&[], &[], &[], &[], &[]]),
    ];
    assert_eq!(seen, expected);
}

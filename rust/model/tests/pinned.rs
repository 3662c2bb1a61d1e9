//! Runs of `crates/rules/proofs/Runs` that each pin one rule: those of `Queues`, `NoCredit`, `Spoilt` and
//! `Reached`. Each test has its theorem's name, and the same calls, moments and figures. Rounds are
//! counted from 0.

mod common;

use common::lists::{both_wait, five_wait};
use common::queues::{answers, k, q, set_ups, u};
use common::watch::{
    calls, done, drop, in_write, launch, launches, moments, numbers, reply, rounds, watching,
    Execute, Read, Write, ROUND,
};
use common::{ack, nack, plans, set_up, tear_down, Run};
use model::machine::{Answer, Call, Credit, Link, Network, Slot, State};
use model::{named, Port, Queue};

/// A side of router 0.
fn side(side: usize) -> Link {
    Link::Side(Port { router: 0, side })
}

/// `Queues.heads_in_order`, "queues, first in first out": a Reply answers the head of three set-ups,
/// and a NACK that Execute marks stays where it is.
#[test]
fn heads_in_order() {
    let list = [
        // Round 0: three launches; round 7: after Execute, and after the first Reply.
        calls(&[&launches(0, 0, &[8, 9, 10]), &rounds(7), &[Read, Execute]]),
        vec![reply(0, 1)],
        // Rounds 8 and 9: the two others; rounds 10 to 17; round 18: the ACK is dropped.
        calls(&[
            &[Write],
            &in_write(reply(0, 0)),
            &[Write],
            &in_write(reply(0, 0)),
            &[Write],
            &rounds(8),
        ]),
        in_write(drop(0)).to_vec(),
        // Round 19: after Read, and after Execute.
        vec![Write, Read],
        vec![Execute],
    ];
    let queues = [Queue::PassiveIn(0), Queue::PassiveOut(0), Queue::ActiveIn(0)];
    let seen = moments(&named::narrow_back().encode(), |_| vec![], &queues, &list);
    let launched = [9, 10, 11].map(|slot| set_up(0, 0, slot, 1));
    let accepted = [ack(0, 0, 9, 1)];
    let (first, second) = (nack(0, 0, 10, 1), nack(0, 0, 11, 1));
    let expected = [
        done(&[], &[&launched, &[], &[]]),
        // The first is answered.
        done(&[], &[&launched[1..], &accepted, &[]]),
        done(&[], &[&[], &[], &[accepted[0], first, second]]),
        // The ACK is dropped, and an unmarked NACK is the head.
        done(&[], &[&[], &[], &[first, second]]),
        done(&[], &[&[], &[], &[first, second]]),
        // Marked, it stays where it is.
        done(&[], &[&[], &[], &[nack(0, 0, 10, 0), second]]),
    ];
    assert_eq!(seen, expected);
}

/// Passive 1 never replies, so active 0's set-ups to it stand in a row back to router 0; passive 0 accepts
/// twice.
fn row_of_set_ups() -> [Vec<Call>; 5] {
    [
        calls(&[
            // Round 0: active 1 launches twice to passive 0 and once to passive 1, active 0 four times
            // to passive 1.
            &launches(1, 0, &[0, 2]),
            &[launch(1, 1, 4)],
            &launches(0, 1, &[0, 2, 4, 6]),
            // Rounds 8 and 11: passive 0 accepts.
            &rounds(8),
            &in_write(reply(0, 1)),
            &[Write],
            &rounds(2),
            &[Read],
        ]),
        // Round 11: after Read and Write; round 13: after Read and Write; round 14: after Read.
        vec![Execute, reply(0, 1), Write],
        calls(&[&ROUND, &[Read]]),
        vec![Execute, Write],
        vec![Read],
    ]
}

/// `NoCredit.passed_over`, "a candidate has a head and its next queue has credit": a head whose next
/// queue has none is passed over, and holds up nobody.
#[test]
fn passed_over() {
    // The credit of U[2] of router 1, to which the set-up F[2] of router 0 sends, and the last sender of
    // that side.
    let credit_and_last = |run: &Run| vec![run.credit(u(1, 2)), run.last(side(2))];
    let queues = [set_ups(0, 2), k(0, 1, 2), k(1, 2, 0)];
    let seen =
        moments(&plans::roomy_crossing().encode(), credit_and_last, &queues, &row_of_set_ups());
    // Active 0's last set-up, booked at router 0; active 1's two answers.
    let booked = [set_up(0, 1, 7, 1)];
    let (first, second) = ([ack(1, 0, 2, 2)], [ack(1, 0, 4, 2)]);
    let expected = [
        // Round 11: the set-up has no credit; K[1,2] goes, and is remembered.
        done(&[0, 0], &[&booked, &first, &[]]),
        done(&[0, 3], &[&booked, &[], &[]]),
        // Round 13: it is the set-up's turn, which has no credit still; K[1,2] goes again.
        done(&[0, 3], &[&booked, &second, &[]]),
        done(&[0, 3], &[&booked, &[], &[]]),
        done(&[0, 3], &[&booked, &[], &second]),
    ];
    assert_eq!(seen, expected);
}

/// A run that goes on from another state than a list from Start reaches; it is a state.
fn spoilt(mut run: Run, change: impl Fn(&Network, &mut State)) -> Run {
    change(&run.network, &mut run.state);
    assert_eq!(run.network.fault(&run.state), None);
    run
}

/// `Spoilt.another_side_freed`, "TDOWN: the entry is freed", whichever side it holds: here side 2, while
/// the walk comes in by side 0.
#[test]
fn another_side_freed() {
    let torn = tear_down(0, 0, 0, 1);
    let mut run = spoilt(Run::new(&named::T), |network, state| {
        let at = network.queue_index(q(0, 0));
        state.queues[at].push_back(torn);
        state.credits[at] = Credit(0);
        state.table.set(0, 1, Slot(0), Some(2));
    });
    let side_1 = |run: &Run| numbers(&run.side(0, 1));
    let seen = watching(&mut run, side_1, &[q(0, 0)], &[vec![Read], vec![Execute]]);
    assert_eq!(seen, [done(&[2, 4], &[&[torn]]), done(&[4, 4], &[&[]])]);
}

/// Plan `narrow_back` in round 6, after Execute: the answer `F[1]`, of rank 1, and `K[0,1]`, of rank 2,
/// both wait at side 1, and `K[0,1]` is picked.
fn in_round_6() -> Run {
    let mut run = Run::new(&named::narrow_back().encode());
    assert!(all_done(&mut run, &both_wait().concat()));
    assert_eq!(picked(&run, side(1)), Some(2));
    run
}

/// Whether all these calls are done.
fn all_done(run: &mut Run, calls: &[Call]) -> bool {
    calls.iter().all(|&call| run.network.call(&mut run.state, call) == Ok(Answer::Done))
}

/// The rank of the sender that an output has picked.
fn picked(run: &Run, link: Link) -> Option<usize> {
    let choice = run.state.choices[run.network.link_index(link)];
    choice.and_then(|sender| run.network.rank(link, sender))
}

/// `Spoilt.stored_choice_goes`, "each picked head enters its wire": the one that is stored, the answer
/// `F[1]`, whoever's turn it was.
#[test]
fn stored_choice_goes() {
    let mut run = spoilt(in_round_6(), |network, state| {
        state.choices[network.link_index(side(1))] = Some(answers(0, 1));
    });
    let last = |run: &Run| vec![run.last(side(1))];
    let list = [vec![Write], vec![Read], vec![Execute, Write]];
    let seen = watching(&mut run, last, &[answers(0, 1), k(0, 0, 1)], &list);
    let (nack, first) = ([nack(0, 0, 8, 0)], [ack(0, 0, 9, 1)]);
    let expected = [
        // The answer F[1] goes, and is remembered.
        done(&[1], &[&[], &first]),
        // Round 7: both wait again, and it is K[0,1]'s turn.
        done(&[1], &[&nack, &first]),
        done(&[2], &[&nack, &[]]),
    ];
    assert_eq!(seen, expected);
}

/// `Spoilt.stored_choice_goes_though_booked`: "a router side picks nobody when its entry for the current
/// slot is booked" is of EXECUTE. Booked behind the pick, it does not keep WRITE from sending.
#[test]
fn stored_choice_goes_though_booked() {
    let mut run = spoilt(in_round_6(), |_, state| {
        assert_eq!(state.slot, Slot(6));
        state.table.set(0, 1, Slot(6), Some(0));
    });
    let last = |run: &Run| vec![run.last(side(1))];
    let seen = watching(&mut run, last, &[answers(0, 1), k(0, 0, 1)], &[vec![Write]]);
    assert_eq!(seen, [done(&[2], &[&[nack(0, 0, 8, 0)], &[]])]);
}

/// What the head of some rank sees at an output in a list of calls.
#[derive(Debug, PartialEq, Eq)]
struct Sees {
    /// How many others go before it: the accepted Executes after which it is a candidate and another is
    /// picked.
    others: usize,
    /// Whether it stays: whenever the output has picked, it is a candidate and not the one picked.
    stays: bool,
}

/// What the head of this rank sees at an output, told by the accepted Executes.
fn sees(run: &mut Run, link: Link, rank: usize, calls: &[Call]) -> Sees {
    let mut sees = Sees { others: 0, stays: true };
    for &call in calls {
        let answer = run.network.call(&mut run.state, call);
        if (call, answer) != (Execute, Ok(Answer::Done)) {
            continue;
        }
        let Some(picked) = picked(run, link) else { continue };
        let waits = run.network.candidates(&run.state, link).contains(&rank);
        sees.others += usize::from(waits && picked != rank);
        sees.stays &= waits && picked != rank;
    }
    sees
}

/// `Reached.three_go_first`, "at most three others go before it": at the unit so many do. The set-ups of
/// actives 0 to 3 come in to router 0 by sides 0 to 3, all in round 4, and `U[3]` sees three go.
#[test]
fn three_go_first() {
    let mut run = Run::new(&plans::line_of_three().encode());
    let four_arrive = calls(&[
        &[launch(2, 1, 0), launch(3, 0, 0)],
        &rounds(3),
        &[launch(0, 1, 5), launch(1, 0, 5)],
        &ROUND,
        &[Read],
    ]);
    assert!(all_done(&mut run, &four_arrive));
    let list = calls(&[&[Execute, Write], &rounds(2)]);
    assert_eq!(sees(&mut run, Link::Unit(0), 3, &list), Sees { others: 3, stays: true });
}

/// `Reached.four_go_first`, "at most four others go first there": at a side so many do. In rounds 13 to
/// 16 `K[2,3]` sees the set-up `F[3]`, the answer `F[3]`, `K[0,3]` and `K[1,3]` go.
#[test]
fn four_go_first() {
    let mut run = Run::new(&plans::drives_around().encode());
    assert!(all_done(&mut run, &five_wait()));
    let list = calls(&[&[Execute, Write], &rounds(3)]);
    assert_eq!(sees(&mut run, side(3), 4, &list), Sees { others: 4, stays: true });
}

/// `Reached.passed_more_often`: who is a candidate only now and then, and so does not stay one, is passed
/// more often than three times at a unit. The heads of `Q[2]` and `Q[3]` go to the set-up `F[0]`, those
/// of `Q[1]` become NACKs; each time that `F[0]` has room it is `Q[2]`'s turn, for `Q[1]` has gone before
/// it while `F[0]` had none.
#[test]
fn passed_more_often() {
    // Every third round, from round 5 on: active 0 launches for an entry that is booked, and two rounds
    // later the passive accepts.
    let third = calls(&[&[launch(0, 0, 2)], &rounds(2), &in_write(reply(0, 1)), &[Write]]);
    let now_and_then = calls(&[
        // Round 0: active 1; round 3: active 2.
        &launches(1, 0, &[2, 4, 5, 6, 7, 9]),
        &rounds(3),
        &[launch(2, 0, 10)],
        &rounds(2),
        &third.repeat(4),
        &rounds(2),
    ]);
    let mut run = Run::new(&plans::narrow_side().encode());
    let seen = sees(&mut run, Link::Back(0), 3, &now_and_then);
    assert_eq!(seen, Sees { others: 4, stays: false });
}

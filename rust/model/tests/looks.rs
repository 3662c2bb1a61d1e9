//! Request (c): "Look returns the head in any phase and changes nothing; Drop removes it and returns
//! nothing." Runs on plan T and on one with room for two answers; and what students write instead.

mod common;

use common::{packet, Run};
use model::machine::{Kind, Network, Packet, Rules};
use model::{named, Queue};

const WITHIN: Queue = Queue::ActiveIn(0);

/// What a Look and a Drop leave at active 0: allowance, flag and credit of its in-queue.
fn counters(run: &Run) -> (usize, bool, usize) {
    let flag = run.state.flags[run.network.queue_index(WITHIN)];
    (run.state.allowances[0], flag, run.credit(WITHIN))
}

/// Active 0 looks, and nothing is changed.
fn look(run: &mut Run) -> Result<Packet, u32> {
    let before = run.state.clone();
    let head = run.look(0);
    assert_eq!(run.state, before);
    head
}

/// Active 0 looks before and after each phase call of a round: in READ, EXECUTE and WRITE.
fn look_in_a_round(run: &mut Run) -> [Result<Packet, u32>; 3] {
    let in_read = look(run);
    assert_eq!(run.network.read(&mut run.state), Ok(()));
    let in_execute = look(run);
    run.execute();
    [in_read, in_execute, look(run)]
}

/// Plan T, launched from slot 0 in round 0 and accepted in round 4; round 7 comes next.
fn an_answer_comes(rules: Rules) -> Run {
    let mut run = Run::with_rules(&named::T, rules);
    assert_eq!(run.launch(0, 0, 0), Ok(()));
    run.up_to(4);
    run.run_to_write();
    assert_eq!(run.reply(0, 1), Ok(()));
    run.end();
    run.up_to(7);
    run
}

#[test]
fn one_head_in_every_phase() {
    let mut run = an_answer_comes(Rules::default());
    let ack = packet(Kind::Ack, 1, 1);
    // In round 7 the ACK comes; while it is in the wire, a Look does not see it.
    assert_eq!(look_in_a_round(&mut run), [Err(13), Ok(ack), Ok(ack)]);
    assert_eq!((counters(&run), run.accepted()), ((0, false, 0), vec![]));
    run.end();
    // Nobody drops it: it is there in all of round 8, and is neither accepted nor given back.
    assert_eq!((run.launch(0, 0, 1), run.close(0, 0, 0)), (Err(11), Err(16)));
    assert_eq!(look_in_a_round(&mut run), [Ok(ack); 3]);
    assert_eq!((counters(&run), run.accepted()), ((0, false, 0), vec![]));
    // The Drop gives back the allowance and accepts; its credit comes back by the flag.
    assert_eq!(run.drop(0), Ok(()));
    assert_eq!((counters(&run), run.accepted()), ((1, true, 0), vec![(0, 0, 0)]));
    assert_eq!((look(&mut run), run.drop(0)), (Err(13), Err(14)));
    run.end();
    assert_eq!((look(&mut run), run.close(0, 0, 0)), (Err(13), Ok(())));
    run.run_to_write();
    assert_eq!((look(&mut run), run.drop(0)), (Err(13), Err(13)));
    assert_eq!((counters(&run), run.accepted()), ((1, false, 1), vec![]));
}

#[test]
fn refusals_of_look_and_drop_come_in_order() {
    let mut run = Run::new(&named::T);
    for _ in 0..2 {
        // READ, EXECUTE and WRITE: 9 comes before 13, and of a Drop 8 before 9.
        assert_eq!((run.look(1), run.look(99), run.look(0)), (Err(9), Err(9), Err(13)));
        assert_eq!((run.drop(1), run.drop(0)), (Err(8), Err(8)));
        assert_eq!(run.network.read(&mut run.state), Ok(()));
        assert_eq!((run.look(1), run.look(0)), (Err(9), Err(13)));
        assert_eq!((run.drop(1), run.drop(0)), (Err(8), Err(8)));
        run.execute();
        assert_eq!((run.look(1), run.look(0)), (Err(9), Err(13)));
        assert_eq!((run.drop(1), run.drop(0)), (Err(9), Err(13)));
        run.end();
    }
}

/// S=8, room for two set-ups under way: launched from slots 6 and 7 in round 0, accepted by the
/// passive in rounds 4 and 5. Round 8 comes next, and both ACKs are there in its WRITE.
fn two_answers_come(rules: Rules) -> Run {
    let mut run = Run::with_rules(&named::wider_t().encode(), rules);
    assert_eq!((run.launch(0, 0, 6), run.launch(0, 0, 7)), (Ok(()), Ok(())));
    replied_in_rounds_4_and_5(&mut run, 1);
    run.up_to(8);
    run
}

fn replied_in_rounds_4_and_5(run: &mut Run, choice: usize) {
    for round in [4, 5] {
        run.up_to(round);
        run.run_to_write();
        assert_eq!(run.reply(0, choice), Ok(()));
        run.end();
    }
}

#[test]
fn look_drop_look_shows_the_next_head() {
    let mut run = two_answers_come(Rules::default());
    let (first, next) = (packet(Kind::Ack, 7, 1), packet(Kind::Ack, 0, 1));
    assert_eq!(look_in_a_round(&mut run), [Ok(first); 3]);
    assert_eq!(run.queue(WITHIN), [first, next]);
    assert_eq!((counters(&run), run.accepted()), ((0, false, 1), vec![]));
    assert_eq!(run.drop(0), Ok(()));
    assert_eq!((counters(&run), run.accepted()), ((1, true, 1), vec![(0, 0, 6)]));
    // "After a Drop, Look shows the next head while Drop says 14."
    assert_eq!((look(&mut run), run.drop(0), look(&mut run)), (Ok(next), Err(14), Ok(next)));
    assert_eq!((counters(&run), run.accepted()), ((1, true, 1), vec![(0, 0, 6)]));
    run.end();
    // The first one can be closed now, and the second not.
    assert_eq!((run.close(0, 0, 7), run.close(0, 0, 6)), (Err(16), Ok(())));
    assert_eq!(look_in_a_round(&mut run), [Ok(next); 3]);
    assert_eq!((counters(&run), run.accepted()), ((1, false, 2), vec![]));
    assert_eq!((run.drop(0), look(&mut run)), (Ok(()), Err(13)));
    assert_eq!((counters(&run), run.accepted()), ((2, true, 2), vec![(0, 0, 7)]));
}

/// S=8, active out 2: both set-ups, from slots 6 and 7, are declined by the passive. Round 7 comes
/// next.
fn both_declined() -> Run {
    let mut run = Run::new(&named::wider_t().encode());
    assert_eq!((run.launch(0, 0, 6), run.launch(0, 0, 7)), (Ok(()), Ok(())));
    replied_in_rounds_4_and_5(&mut run, 0);
    run.up_to(7);
    run
}

#[test]
fn look_shows_an_unmarked_nack() {
    let mut run = both_declined();
    let [first, second] = [7, 0].map(|slot| packet(Kind::Nack, slot, 1));
    let [marked, second_marked] = [7, 0].map(|slot| packet(Kind::Nack, slot, 0));
    // Round 7: seen unmarked before the Execute that marks it, and marked after it.
    assert_eq!(look_in_a_round(&mut run), [Err(13), Ok(first), Ok(marked)]);
    assert_eq!((run.drop(0), counters(&run)), (Ok(()), (1, true, 2)));
    run.end();
    // Round 8: a set-up fills the out-queue, so the second NACK stays unmarked.
    assert_eq!(run.launch(0, 0, 5), Ok(()));
    assert_eq!(look_in_a_round(&mut run), [Err(13), Ok(second), Ok(second)]);
    assert_eq!((run.drop(0), look(&mut run)), (Err(15), Ok(second)));
    assert_eq!(counters(&run), (0, false, 2));
    run.end();
    // Round 9: there is room again, and it is marked.
    assert_eq!(look_in_a_round(&mut run), [Ok(second), Ok(second), Ok(second_marked)]);
    assert_eq!((run.drop(0), look(&mut run)), (Ok(()), Err(13)));
    assert_eq!((counters(&run), run.accepted()), ((1, true, 2), vec![]));
}

/// `Looking.marked_between`: Execute marks the NACK between a Look and the Drop, so what was looked at in
/// another phase is not what is dropped.
#[test]
fn marked_between() {
    let mut run = Run::new(&named::T);
    assert_eq!(run.launch(0, 0, 0), Ok(()));
    run.up_to(4);
    run.run_to_write();
    assert_eq!(run.reply(0, 0), Ok(()));
    run.end();
    // Round 7: after Read, Execute, and the Drop.
    run.read_of(7);
    let [came, marked] = [1, 0].map(|hub| packet(Kind::Nack, 1, hub));
    assert_eq!((look(&mut run), run.queue(WITHIN)), (Ok(came), vec![came]));
    run.execute();
    assert_eq!((look(&mut run), run.queue(WITHIN)), (Ok(marked), vec![marked]));
    assert_eq!((run.drop(0), run.queue(WITHIN)), (Ok(()), vec![]));
}

/// 14 stands before 15, and a Look sees the unmarked NACK behind the dropped one.
#[test]
fn look_shows_an_unmarked_nack_with_the_flag_up() {
    let mut run = both_declined();
    run.up_to(8);
    run.run_to_write();
    let [marked, second] = [(7, 0), (0, 1)].map(|(slot, hub)| packet(Kind::Nack, slot, hub));
    assert_eq!((look(&mut run), run.drop(0)), (Ok(marked), Ok(())));
    assert_eq!((look(&mut run), run.drop(0)), (Ok(second), Err(14)));
    assert_eq!((counters(&run), run.queue(WITHIN)), ((1, true, 1), vec![second]));
}

#[test]
fn an_allowance_given_back_at_the_look() {
    let rules = Rules { allowance_at_the_look: true, ..Rules::default() };
    let mut run = an_answer_comes(rules);
    run.run_to_write();
    assert_eq!((run.look(0), counters(&run)), (Ok(packet(Kind::Ack, 1, 1)), (1, false, 0)));
    run.end();
    // Launched while the first answer still takes the place of the next; and each Look gives more.
    assert_eq!((run.launch(0, 0, 1), run.state.allowances[0]), (Ok(()), 0));
    assert_eq!(
        (run.look(0).is_ok(), run.look(0).is_ok(), run.state.allowances[0]),
        (true, true, 2)
    );
}

/// The documents' network, to ask whether what a student's rule left is a state.
fn documents(run: &Run) -> Network {
    Network::load(&run.network.plan().encode()).expect("loads")
}

#[test]
fn a_look_that_raises_the_flag() {
    let rules = Rules { look_raises_the_flag: true, ..Rules::default() };
    let mut run = an_answer_comes(rules);
    let ack = packet(Kind::Ack, 1, 1);
    run.run_to_write();
    assert_eq!((run.look(0), counters(&run)), (Ok(ack), (0, true, 0)));
    // Who looks cannot drop in that round; in the next one the queue has a credit and no place.
    assert_eq!(run.drop(0), Err(14));
    run.end();
    run.run_to_write();
    assert_eq!((run.len(WITHIN), counters(&run)), (1, (0, false, 1)));
    let fault = documents(&run).fault(&run.state).expect("not a state");
    assert!(fault.contains("capacity"), "{fault}");
}

#[test]
fn a_drop_that_accepts_the_next_head() {
    let rules = Rules { next_head_accepted: true, ..Rules::default() };
    let mut run = two_answers_come(rules);
    run.run_to_write();
    assert_eq!((run.look(0), run.drop(0)), (Ok(packet(Kind::Ack, 7, 1)), Ok(())));
    // The one that is still waiting is accepted, and the dropped one is not.
    assert_eq!(run.accepted(), [(0, 0, 7)]);
    run.end();
    assert_eq!(run.close(0, 0, 6), Err(16));
    run.run_to_write();
    // Behind the last one is nobody, and it is accepted as it should be: with one answer waiting
    // the mistake does not show.
    assert_eq!((run.drop(0), run.accepted()), (Ok(()), vec![(0, 0, 7)]));
}

#[test]
fn a_connection_accepted_at_the_look() {
    let rules = Rules { accepted_at_the_look: true, ..Rules::default() };
    let mut run = an_answer_comes(rules);
    run.run_to_write();
    assert_eq!((run.look(0), run.accepted()), (Ok(packet(Kind::Ack, 1, 1)), vec![(0, 0, 0)]));
    run.end();
    // Closed while its ACK still waits; who looks again accepts it again, without its entry.
    assert_eq!(run.close(0, 0, 0), Ok(()));
    run.up_to(run.round + 3);
    assert_eq!(run.entry(0, 1, 0), 4);
    assert_eq!((run.look(0), run.accepted()), (Ok(packet(Kind::Ack, 1, 1)), vec![(0, 0, 0)]));
    assert_eq!(documents(&run).fault(&run.state), Some("a mark that lacks an entry"));
    // And who only drops is never told of a connection.
    let mut run = an_answer_comes(rules);
    run.run_to_write();
    assert_eq!((run.drop(0), run.accepted()), (Ok(()), vec![]));
}

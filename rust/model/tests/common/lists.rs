//! Lists of calls with which several runs begin.

use model::machine::Call;

use super::watch::{calls, in_write, launch, launches, reply, rounds, Execute, Read, Write, ROUND};

/// `Turns.both_wait`, on plan `narrow_back`, up to each of its moments: in round 6 the answer `F[1]`, of
/// rank 1, and `K[0,1]`, of rank 2, both wait at side 1, and Execute picks `K[0,1]`.
pub fn both_wait() -> Vec<Vec<Call>> {
    vec![
        // Round 0: two set-ups, then three for an entry that is booked; round 4: the passive accepts.
        calls(&[&launches(0, 0, &[8, 10, 8, 8, 8]), &rounds(4), &in_write(reply(0, 1))]),
        // Round 5: a NACK waits; it accepts again.
        vec![Write, Read],
        vec![Execute, reply(0, 1), Write],
        // Round 6: after Read and Execute.
        vec![Read],
        vec![Execute],
    ]
}

/// `BothEnds.five_senders`, on plan `drives_around`, up to its first moment: in round 13 all five senders
/// of side 3 of router 0 wait.
pub fn five_wait() -> Vec<Call> {
    calls(&[
        // Round 0: active 0 to passives 3, 1 and 0; round 2: active 1 to passive 0; round 6: active 0
        // for the same entry.
        &[launch(0, 3, 2), launch(0, 1, 0), launch(0, 0, 6)],
        &rounds(2),
        &[launch(1, 0, 5)],
        &rounds(4),
        &[launch(0, 0, 5)],
        &ROUND,
        // Rounds 7 and 9: active 1 to passive 2.
        &[launch(1, 2, 3)],
        &rounds(2),
        &[launch(1, 2, 2)],
        &ROUND,
        // Round 10: passive 3 accepts; round 11: passives 0 and 1; round 12; round 13: after Read.
        &in_write(reply(3, 1)),
        &[Write],
        &in_write(reply(0, 1)),
        &[reply(1, 1), Write],
        &ROUND,
        &[Read],
    ])
}

//! Refusal 7, clause by clause: the table of `crates/valid/specs/Clauses.antt`, whose verdicts are proved
//! by evaluation. Here each row is judged by the model, and its bytes by the proved calls as they are
//! compiled and by those written for speed.

mod table;

use std::collections::BTreeSet;

use compare::Calls;
use differential::{LEAN, PROVED};
use model::machine::{Call, Network};
use table::{tables, Changed, Row, Table, NO_FORM, PARTS};

/// Not a state.
const NOT_A_STATE: u32 = 7;
/// Rows that are kept and broken, list by list; no row of the theorems is left out.
const COUNTS: [(&str, usize, usize); 10] = [
    ("setUps", 7, 15),
    ("tearDowns", 7, 9),
    ("answers", 10, 15),
    ("onWires", 4, 7),
    ("onChoices", 3, 5),
    ("onFlags", 3, 6),
    ("onNumbers", 4, 13),
    ("onConnections", 2, 5),
    ("onTurns", 3, 6),
    ("onPairs", 2, 2),
];
/// Rows of which the model's state has no word, so that their bytes are changed instead: of `onChoices`
/// `picking 5`, a choice of no sender; of `onFlags` the handled mark on `U[3]`; of `onNumbers` the two
/// credits where no wire leads.
const BY_BYTES: [(&str, usize); 4] =
    [("onChoices", 2), ("onFlags", 8), ("onNumbers", 11), ("onNumbers", 12)];
/// Bytes past the state, and those for what a call returns.
const PAST: [u8; 3] = [7, 0, 255];
const OUT: [u8; 8] = [1, 2, 3, 4, 5, 6, 7, 8];

/// Every call on a state, with numbers in range, and with numbers that 9 is said of once the bytes are a
/// state's.
const CALLS: [Call; 16] = [
    Call::Read,
    Call::Execute,
    Call::Write,
    Call::Launch { active: 0, passive: 0, slot: 0 },
    Call::Launch { active: 16, passive: 16, slot: 32 },
    Call::Close { active: 0, passive: 0, slot: 0 },
    Call::Close { active: 16, passive: 16, slot: 32 },
    Call::Reply { passive: 0, choice: 1 },
    Call::Reply { passive: 16, choice: 2 },
    Call::Look { active: 0 },
    Call::Look { active: 16 },
    Call::Drop { active: 0 },
    Call::Drop { active: 16 },
    Call::Entry { router: 0, side: 0, slot: 0 },
    Call::Entry { router: 16, side: 4, slot: 32 },
    Call::Remaining,
];

/// A row by its list and its number there, from 0.
type Name = (&'static str, usize);

/// Each row of each list, with its plan's network.
fn for_each_row(mut judge: impl FnMut(Name, &Network, &Row)) {
    for Table { name, plan, rows } in tables() {
        let network = Network::load(&plan).expect("loads");
        for (at, row) in rows.iter().enumerate() {
            judge((name, at), &network, row);
        }
    }
}

#[test]
fn the_table_is_whole() {
    let counted = tables().into_iter().map(|Table { name, rows, .. }| {
        let broken = rows.iter().filter(|row| row.broken.is_some()).count();
        (name, rows.len() - broken, broken)
    });
    let counted: Vec<_> = counted.collect();
    assert_eq!(counted, COUNTS);
    let sums = counted.iter().fold([0, 0], |[kept, broken], row| [kept + row.1, broken + row.2]);
    assert_eq!(sums, [45, 83]);
    // Each part of `Valid` is broken by some row.
    let mut parts = BTreeSet::new();
    for_each_row(|_, _, row| parts.extend(row.broken));
    assert_eq!(parts.len(), PARTS);
}

/// The model finds no fault with a row that is kept, and with a broken one the fault that is meant; bytes
/// of which its state has no word are not of the plan's form.
#[test]
fn the_model_judges_as_the_theorems_do() {
    let mut by_bytes = Vec::new();
    for_each_row(|name, network, row| {
        let changed = row.of(network);
        let fault = fault(network, &changed);
        let meant = row.broken.map_or(&[][..], |part| part.faults());
        if changed.written.is_empty() {
            assert_eq!(fault.is_none(), row.broken.is_none(), "{name:?}: {fault:?}");
            assert!(fault.is_none_or(|fault| meant.contains(&fault)), "{name:?}: {fault:?}");
        } else {
            assert_eq!((fault, row.broken.is_some()), (Some(NO_FORM), true), "{name:?}");
            by_bytes.push(name);
        }
    });
    assert_eq!(by_bytes, BY_BYTES);
}

/// The model's judgement of a row's bytes; where nothing is written into them, they are those of the
/// row's state, so it is the judgement of that.
fn fault(network: &Network, changed: &Changed) -> Option<&'static str> {
    let decoded = network.decode(&changed.bytes());
    if changed.written.is_empty() {
        assert_eq!(decoded.as_ref(), Some(&changed.state));
    }
    decoded.map_or(Some(NO_FORM), |state| network.fault(&state))
}

#[test]
fn the_proved_calls_judge_as_the_theorems_do() {
    judged_by(&PROVED);
}

#[test]
fn the_lean_calls_judge_as_the_theorems_do() {
    judged_by(&LEAN);
}

/// Every row is judged by every call.
fn judged_by(calls: &Calls) {
    let mut refused = 0;
    for_each_row(|name, network, row| {
        for call in CALLS {
            let answer = answered(calls, name, network, &row.of(network), call);
            let expected = row.broken.is_some();
            assert_eq!(answer == NOT_A_STATE, expected, "{name:?}, {call:?}: {answer}");
            refused += usize::from(expected);
        }
    });
    assert_eq!(refused, 83 * CALLS.len());
}

/// What a call answers, after its answer and all bytes are found to be the model's: a refusal alters no
/// byte, neither of the state nor past it, and returns nothing.
fn answered(calls: &Calls, name: Name, network: &Network, changed: &Changed, call: Call) -> u32 {
    let plan = network.plan().encode();
    let given = [&changed.bytes()[..], &PAST].concat();
    let (mut bytes, mut out) = (given.clone(), OUT);
    let answer = calls.run(&plan, &mut bytes, call, &mut out);
    let mut state = network.decode(&given);
    let expected = state.as_mut().map_or(Err(NOT_A_STATE), |state| network.call(state, call));
    assert_eq!(answer, expected.err().unwrap_or(0), "{name:?}, {call:?}");
    let left = match state.filter(|_| expected.is_ok()) {
        Some(state) => [&network.encode(&state)[..], &PAST].concat(),
        None => given,
    };
    assert!(bytes == left && (answer == 0 || out == OUT), "{name:?}, {call:?}: a byte altered");
    answer
}

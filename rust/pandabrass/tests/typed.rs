//! The typed calls on runs of documents 01 and 02.

use pandabrass::{bytes, Choice, Entry, Kind, Packet, Plan, Refusal, Remaining, State};

/// Plan T of document 01.
const T: [u8; 11] = [0x08, 0x42, 0x11, 0x24, 0x92, 0x4C, 0x06, 0x00, 0x00, 0x00, 0x20];

/// A whole round; in its WRITE what waits is accepted, and what has come back is looked at and
/// dropped.
fn round(state: &mut State) -> Result<Option<Packet>, Refusal> {
    state.read()?;
    state.execute()?;
    match state.reply(0, Choice::Accept) {
        Ok(()) | Err(Refusal::QueueEmpty) => {}
        Err(refusal) => return Err(refusal),
    }
    let packet = match state.look(0) {
        Ok(packet) => Some(packet),
        Err(Refusal::QueueEmpty) => None,
        Err(refusal) => return Err(refusal),
    };
    if packet.is_some() {
        state.drop(0)?;
    }
    state.write()?;
    Ok(packet)
}

#[test]
fn loads_and_starts() -> Result<(), Refusal> {
    let plan = Plan::load(&T)?;
    assert_eq!((plan.bytes(), plan.state_size()), (&T[..], 1635));
    assert_eq!((plan.walk(0, 0), plan.walk(0, 1)), (Some(1), None));
    let state = plan.start();
    assert_eq!(state.bytes().iter().filter(|&&byte| byte == 1).count(), 33);
    assert_eq!(plan.resume(state.bytes())?, state);
    assert_eq!(plan.resume(&state.bytes()[1..]), Err(Refusal::NotState));
    Ok(())
}

#[test]
fn plans_that_do_not_load() {
    let with = |at: usize, byte: u8| {
        let mut plan = T;
        plan[at] = byte;
        Plan::load(&plan).unwrap_err()
    };
    assert_eq!(Plan::load(&T[..5]).unwrap_err(), Refusal::TooShort);
    assert_eq!(with(0, 0x00), Refusal::OutOfRange);
    assert_eq!(with(10, 0x21), Refusal::WrongLength);
}

#[test]
fn a_second_launch_is_declined() -> Result<(), Refusal> {
    let plan = Plan::load(&T)?;
    let mut state = plan.start();
    state.launch(0, 0, 0)?;
    assert_eq!(state.launch(0, 0, 1), Err(Refusal::NoAllowance));
    let packets = (0..8).map(|_| round(&mut state)).collect::<Result<Vec<_>, _>>()?;
    let ack = Packet { kind: Kind::Ack, active: 0, passive: 0, slot: 1, hub: 1 };
    assert_eq!(packets, [None, None, None, None, None, None, None, Some(ack)]);
    assert_eq!(state.entry(0, 1, 0)?, Entry::Booked(0));
    // After that ACK is dropped, "launch (0,0,1): last free entry, NACK with hub 0".
    state.launch(0, 0, 1)?;
    let mut packet = None;
    while packet.is_none() {
        packet = round(&mut state)?;
    }
    let nack = Packet { kind: Kind::Nack, active: 0, passive: 0, slot: 1, hub: 0 };
    assert_eq!(packet, Some(nack));
    Ok(())
}

/// A connection is opened, closed, and opened again from the same slot.
#[test]
fn closed_and_opened_again() -> Result<(), Refusal> {
    let plan = Plan::load(&T)?;
    let mut state = plan.start();
    let open = |state: &mut State| -> Result<(), Refusal> {
        state.launch(0, 0, 0)?;
        while round(state)?.is_none() {
            assert_eq!(state.close(0, 0, 0), Err(Refusal::NotAccepted));
        }
        Ok(())
    };
    open(&mut state)?;
    let opened = state.clone();
    state.close(0, 0, 0)?;
    assert_eq!(state.close(0, 0, 0), Err(Refusal::NotAccepted));
    assert_eq!(state.launch(0, 0, 1), Err(Refusal::QueueFull));
    for _ in 0..8 {
        assert_eq!(round(&mut state)?, None);
    }
    // As at the start, but for whom the outputs served last: K[1,0] by side 0, the set-up F[1] by
    // side 1, U[0] on the way to the unit and Q[0] on the way back.
    let (start, turns) = (plan.start(), 1627..1635);
    assert_eq!(state.bytes()[..1627], start.bytes()[..1627]);
    assert_eq!(start.bytes()[turns.clone()], [0, 0, 4, 4, 4, 4, 3, 3]);
    assert_eq!(state.bytes()[turns], [0, 0, 2, 0, 4, 4, 0, 0]);
    open(&mut state)?;
    assert_eq!(state, opened);
    Ok(())
}

/// The answer is shown before the allowance is given back: a Look in every phase, and then the Drop.
#[test]
fn looked_at_and_dropped() -> Result<(), Refusal> {
    let plan = Plan::load(&T)?;
    let mut state = plan.start();
    state.launch(0, 0, 0)?;
    for _ in 0..7 {
        assert_eq!(round(&mut state)?, None);
    }
    let ack = Packet { kind: Kind::Ack, active: 0, passive: 0, slot: 1, hub: 1 };
    // In the wire it is not seen.
    assert_eq!(state.look(0), Err(Refusal::QueueEmpty));
    state.read()?;
    for _ in 0..2 {
        assert_eq!(state.look(0), Ok(ack));
        state.execute()?;
        assert_eq!(state.look(0), Ok(ack));
        state.write()?;
        // Not dropped: not accepted, and no allowance.
        assert_eq!((state.look(0), state.drop(0)), (Ok(ack), Err(Refusal::WrongPhase)));
        assert_eq!(state.close(0, 0, 0), Err(Refusal::NotAccepted));
        assert_eq!(state.launch(0, 0, 1), Err(Refusal::NoAllowance));
        state.read()?;
    }
    state.execute()?;
    state.drop(0)?;
    assert_eq!(state.look(0), Err(Refusal::QueueEmpty));
    assert_eq!(state.drop(0), Err(Refusal::FlagUp));
    state.write()?;
    state.close(0, 0, 0)
}

/// Sensors and drives at both ends: two routers, set-ups crossing both ways, each booked at both.
#[test]
fn opened_both_ways() -> Result<(), Refusal> {
    let plan = Plan::load(&[
        0x10, 0x84, 0x21, 0x24, 0x92, 0x4C, 0x06, 0x02, 0x30, 0x04, 0x26, 0x22, 0x10, 0x00, 0x45,
        0x20, 0x88,
    ])?;
    let mut state = plan.start();
    state.launch(0, 1, 0)?;
    state.launch(1, 0, 0)?;
    for round in 0..11 {
        state.read()?;
        state.execute()?;
        for passive in 0..2 {
            let expected = if round == 7 { Ok(()) } else { Err(Refusal::QueueEmpty) };
            assert_eq!(state.reply(passive, Choice::Accept), expected);
        }
        state.write()?;
    }
    state.read()?;
    for (active, passive) in [(0, 1), (1, 0)] {
        let ack = Packet { kind: Kind::Ack, active, passive, slot: 2, hub: 2 };
        assert_eq!(state.look(active.into()), Ok(ack));
    }
    Ok(())
}

#[test]
fn refusals_alter_no_byte() -> Result<(), Refusal> {
    let plan = Plan::load(&T)?;
    let mut state = plan.start();
    let before = state.clone();
    assert_eq!(state.execute(), Err(Refusal::WrongPhase));
    assert_eq!(state.write(), Err(Refusal::WrongPhase));
    assert_eq!(state.launch(0, 1, 0), Err(Refusal::BadNumber));
    assert_eq!(state.close(0, 1, 0), Err(Refusal::BadNumber));
    assert_eq!(state.close(0, 0, 1), Err(Refusal::NotAccepted));
    assert_eq!(state.reply(0, Choice::Decline), Err(Refusal::WrongPhase));
    assert_eq!(state.drop(0), Err(Refusal::WrongPhase));
    assert_eq!(state.look(0), Err(Refusal::QueueEmpty));
    assert_eq!(state.look(1), Err(Refusal::BadNumber));
    assert_eq!(state.entry(0, 4, 0), Err(Refusal::BadNumber));
    assert_eq!(state.remaining(), Ok(Remaining { packets: 0, rounds: 0 }));
    assert_eq!(state, before);
    Ok(())
}

/// What is under way is told in every phase, and by the promised round there is nothing: also where
/// the set-up is declined and a tear-down follows.
#[test]
fn waited_for_before_a_wash() -> Result<(), Refusal> {
    let plan = Plan::load(&T)?;
    for (choice, expected) in [(Choice::Accept, 8), (Choice::Decline, 11)] {
        let mut state = plan.start();
        state.launch(0, 0, 0)?;
        let promised = state.remaining()?;
        assert_eq!(promised, Remaining { packets: 1, rounds: 256 * 2 });
        let mut rounds = 0;
        while state.remaining()?.packets > 0 {
            state.read()?;
            assert_eq!(state.remaining()?, promised);
            state.execute()?;
            let acts = [state.reply(0, choice), state.drop(0)];
            assert!(acts.iter().all(|act| matches!(act, Ok(()) | Err(Refusal::QueueEmpty))));
            state.write()?;
            rounds += 1;
        }
        assert_eq!(rounds, expected);
        let entry = if choice == Choice::Accept { Entry::Booked(0) } else { Entry::Free };
        assert_eq!(state.entry(0, 1, 0)?, entry);
    }
    Ok(())
}

/// A passive that does not reply keeps its set-up under way, whatever was promised to those who do.
#[test]
fn waited_for_in_vain() -> Result<(), Refusal> {
    let plan = Plan::load(&T)?;
    let mut state = plan.start();
    state.launch(0, 0, 0)?;
    for _ in 0..state.remaining()?.rounds {
        state.read()?;
        state.execute()?;
        state.write()?;
    }
    assert_eq!(state.remaining()?.packets, 1);
    Ok(())
}

#[test]
fn remaining_on_slices() {
    let mut state = [0; 1700];
    assert_eq!(bytes::start(&T, &mut state), 0);
    assert_eq!(bytes::launch(&T, &mut state, 0, 0, 1), 0);
    let mut out = [9; 8];
    assert_eq!(bytes::remaining(&T, &state, &mut out), 0);
    assert_eq!(out, [1, 0, 0, 0, 0, 2, 0, 0]);
    out = [9; 8];
    assert_eq!(bytes::remaining(&T[..5], &state, &mut out), 1);
    assert_eq!(bytes::remaining(&T, &state[..1634], &mut out), 7);
    state[1] = 2;
    assert_eq!(bytes::remaining(&T, &state, &mut out), 7);
    assert_eq!(out, [9; 8]);
}

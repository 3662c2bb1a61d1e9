//! Demand 3 on random plans and random lists of calls.

use model::generate::calls::Caller;
use model::generate::{crossing, good, rings, Draft, Random};
use model::machine::claims::Claims;
use model::machine::{Answer, Call, Hub, Kind, Network, Rules, State};
use model::{named, Plan};

/// What a run met, so that a run without traffic is not taken for a good one.
#[derive(Debug, Default)]
struct Met {
    calls: usize,
    rounds: usize,
    launches: usize,
    accepted: usize,
    closed: usize,
    reopened: usize,
    declined: usize,
    torn_down: usize,
    replies: usize,
    /// Looks that gave a packet, by phase.
    looked: [usize; 3],
    /// Remainings, by phase, and the most packets that one told.
    asked: [usize; 3],
    most_told: usize,
    refusals: [usize; 17],
    /// Of Look and of Drop.
    look_refusals: [usize; 17],
    drop_refusals: [usize; 17],
    heads_kept: usize,
    kept_at_drops: usize,
    uncovered: usize,
    tables_compared: usize,
    longest_wait: usize,
    contested: usize,
    turned: usize,
    most_before: usize,
    /// Of the contested picks, those of a unit's way back.
    contested_back: usize,
    /// Units that handled heads of several sides in one Execute.
    together: usize,
    /// Calls on plans that were refused as rings before request (i).
    crossing: usize,
}

/// A list of `count` calls from start, each claim tested after each call.
fn run(random: &mut Random, network: &Network, count: usize, met: &mut Met) {
    if let Err(fault) = try_run(random, network, count, met) {
        panic!("{fault}\nplan {:02X?}", network.plan().encode());
    }
}

/// The same; the first claim that fails is given back.
fn try_run(
    random: &mut Random,
    network: &Network,
    count: usize,
    met: &mut Met,
) -> Result<(), String> {
    let mut caller = Caller::new(random, network);
    let mut state = network.start();
    let mut claims = Claims::new(network, &state);
    for _ in 0..count {
        let call = caller.next(random, network, &state);
        let before = state.clone();
        let answer = network.call(&mut state, call);
        claims.after(call, answer, &before, &state).map_err(|fault| {
            format!("{fault}, after {call:?} with {answer:?}\nbefore {before:?}")
        })?;
        met.note(call, answer, network, &before);
        if call == Call::Execute && answer.is_ok() {
            let ended = |q: &usize| state.queues[*q].len() < before.queues[*q].len();
            met.torn_down += (0..state.queues.len()).filter(ended).count();
        }
    }
    met.tables_compared += claims.tables_compared;
    met.reopened += claims.reopened;
    met.longest_wait = met.longest_wait.max(claims.longest_wait);
    met.contested += claims.contested;
    met.turned += claims.turned;
    met.most_before = met.most_before.max(claims.most_before);
    met.contested_back += claims.contested_back;
    met.together += claims.together;
    met.heads_kept += claims.heads_kept;
    met.kept_at_drops += claims.kept_at_drops;
    met.uncovered += claims.uncovered;
    Ok(())
}

impl Met {
    fn note(&mut self, call: Call, answer: Result<Answer, u32>, network: &Network, before: &State) {
        self.calls += 1;
        match (call, answer) {
            (_, Err(refusal)) => self.note_refusal(call, refusal as usize),
            (Call::Write, Ok(_)) => self.rounds += 1,
            (Call::Launch { .. }, Ok(_)) => self.launches += 1,
            (Call::Close { .. }, Ok(_)) => self.closed += 1,
            (Call::Reply { .. }, Ok(_)) => self.replies += 1,
            (Call::Look { .. }, Ok(Answer::Packet(packet))) => {
                assert!(packet.is_answer());
                self.looked[before.phase as usize] += 1;
            }
            (Call::Remaining, Ok(Answer::Remaining(told))) => {
                self.asked[before.phase as usize] += 1;
                self.most_told = self.most_told.max(told.packets);
            }
            (Call::Drop { active }, Ok(_)) => {
                let packet = network.head(before, active).expect("something was dropped");
                match packet.kind {
                    Kind::Ack => self.accepted += 1,
                    _ => {
                        assert_eq!((packet.kind, packet.hub), (Kind::Nack, Hub(0)));
                        self.declined += 1;
                    }
                }
            }
            _ => {}
        }
    }

    fn note_refusal(&mut self, call: Call, refusal: usize) {
        self.refusals[refusal] += 1;
        match call {
            Call::Look { .. } => self.look_refusals[refusal] += 1,
            Call::Drop { .. } => self.drop_refusals[refusal] += 1,
            _ => {}
        }
    }
}

/// Crossing or not, small and crowded or of any size.
fn kind_of_plan(crowded: bool, crossed: bool) -> fn(&mut Random) -> Plan {
    match (crowded, crossed) {
        (true, true) => crossing::crowded,
        (true, false) => good::crowded,
        (false, true) => crossing::any,
        (false, false) => good::loadable,
    }
}

#[test]
fn random_lists_on_random_plans() {
    let mut random = Random::new(31);
    let mut met = Met::default();
    let mut plans = 0;
    while met.calls < 1_000_000 {
        let crowded = random.chance(1, 2);
        let plan = kind_of_plan(crowded, random.chance(1, 2));
        let network = Network::of(plan(&mut random));
        // Plans with few served pairs are as good, but have little traffic.
        let pairs = Caller::new(&mut random, &network).pairs();
        if !crowded && pairs < 6 && random.chance(9 - pairs, 10) {
            continue;
        }
        plans += 1;
        let count = random.within(200..=2_000);
        run(&mut random, &network, count, &mut met);
        met.crossing += if network.plan().is_crossing() { count } else { 0 };
    }
    println!("{plans} plans, {met:?}");
    for refusal in [8, 9, 10, 11, 12, 13, 14, 15, 16] {
        assert!(met.refusals[refusal] >= 20, "refusal {refusal}: {met:?}");
    }
    assert!(met.accepted > 2_000 && met.declined > 10_000 && met.torn_down > 10_000, "{met:?}");
    assert!(met.closed > 2_000 && met.reopened > 300, "{met:?}");
    assert!(met.tables_compared > 1_000, "{met:?}");
    // Looks and Remainings in every phase, and each refusal of Look and of Drop.
    assert!(met.looked.iter().all(|&count| count > 5_000), "{met:?}");
    assert!([9, 13].iter().all(|&refusal| met.look_refusals[refusal] > 1_000), "{met:?}");
    assert!(met.asked.iter().all(|&count| count > 2_000) && met.most_told > 50, "{met:?}");
    let drop_refusals = [8, 9, 13, 14, 15].map(|refusal| met.drop_refusals[refusal]);
    assert!(drop_refusals.iter().all(|&count| count > 1_000), "{met:?}");
    // A Look gives the same over every other call of a phase, and the next head after a Drop.
    assert!(met.heads_kept > 100_000 && met.kept_at_drops > 10_000, "{met:?}");
    assert!(met.uncovered > 2_000, "{met:?}");
    // Where several compete, and some see three others go before them.
    assert!(met.contested > 10_000 && met.turned > 5_000 && met.most_before >= 3, "{met:?}");
    // Half of the calls are on plans that cross; units handle several heads and send in turn.
    assert!(met.crossing * 2 > met.calls, "{met:?}");
    assert!(met.together > 500 && met.contested_back > 2_000, "{met:?}");
}

#[test]
fn random_lists_on_named_plans() {
    let mut random = Random::new(32);
    let mut met = Met::default();
    for plan in named::all().iter().filter(|plan| plan.answer == 0) {
        let network = Network::load(&plan.bytes).expect(plan.name);
        for _ in 0..10 {
            run(&mut random, &network, 1_000, &mut met);
        }
    }
    println!("{met:?}");
}

/// Whether a plan with a ring, run all the same, comes to stand still: then the ring rule is needed,
/// and these lists find what breaks progress.
fn stands_still(mut draft: Draft) -> bool {
    draft.capacities([7, 7, 1, 1, 1, 1, 7, 7]);
    draft.fields_mut().slots = 32;
    let plan = Plan::join(draft.fields().clone()).expect("its joints fit");
    assert_eq!(Plan::load(&plan.encode()).err(), Some(6));
    let network = Network::of(plan);
    let mut random = Random::new(33);
    let mut met = Met::default();
    let fault = (0..50).find_map(|_| try_run(&mut random, &network, 2_000, &mut met).err());
    fault.is_some_and(|fault| fault.starts_with("S whole rounds went by without a move"))
}

#[test]
fn rings_stand_still() {
    assert!(stands_still(rings::set_ups_around(3, 2, 1)));
    assert!(stands_still(named::answers_ring()));
}

/// The first claim that fails by a student's rule, in lists on plans of all sizes.
fn fault_by(set: fn(&mut Rules)) -> Option<String> {
    let mut rules = Rules::default();
    set(&mut rules);
    let mut random = Random::new(34);
    let mut lists = (0..60).map(|turn| {
        let plan = if turn % 2 == 0 { good::loadable } else { crossing::crowded };
        let network = Network::of(plan(&mut random)).with_rules(rules);
        try_run(&mut random, &network, 1_000, &mut Met::default()).err()
    });
    lists.find_map(|fault| fault)
}

/// A Close that clears the table at once keeps every claim of demand 3: only the rules, run beside
/// it, tell it apart.
#[test]
fn students_rules_of_closing_are_found() {
    let fault = fault_by(|rules| rules.close_one_too_far = true).expect("found");
    assert!(fault.starts_with("not a state: a packet out of range or out of place"), "{fault}");
    let others = "the state keeps other connections than the calls tell";
    let fault = fault_by(|rules| rules.accepted_until_torn_down = true).expect("found");
    assert!(fault.starts_with(others), "{fault}");
    let fault = fault_by(|rules| rules.accepted_at_the_arrival = true).expect("found");
    assert!(fault.starts_with(others), "{fault}");
    let fault = fault_by(|rules| rules.close_frees_early = true).expect("found");
    assert!(fault.starts_with("not a state: a mark that lacks an entry"), "{fault}");
    assert_eq!(fault_by(|rules| rules.close_clears_at_once = true), None);
}

#[test]
fn students_rules_of_turns_are_found() {
    for set in [
        |rules: &mut Rules| rules.lowest_first = true,
        |rules: &mut Rules| rules.same_one_again = true,
    ] {
        let fault = fault_by(set).expect("found");
        assert!(fault.contains("others went before sender"), "{fault}");
    }
}

/// The other two of request (i), side 3 first and answers before set-ups, keep every claim: only the
/// rules, run beside them, tell them apart (`crossing.rs`, `turns.rs`).
#[test]
fn students_rules_of_units_are_found() {
    let fault = fault_by(|rules| rules.one_head_a_unit = true).expect("found");
    assert!(fault.contains("was not handled once"), "{fault}");
    let fault = fault_by(|rules| rules.unit_sends_lowest_first = true).expect("found");
    assert!(fault.contains("others went before sender"), "{fault}");
    assert_eq!(fault_by(|rules| rules.highest_side_first = true), None);
}

/// A Look changes nothing, and a connection is accepted by the Drop of its own ACK.
#[test]
fn students_rules_of_looking_are_found() {
    let changed = "a Look changed the state";
    let fault = fault_by(|rules| rules.look_raises_the_flag = true).expect("found");
    assert!(fault.starts_with(changed), "{fault}");
    // By which call it is found, a Look or a Drop without one, is by chance.
    let allowance = "not a state: allowance + SETUPs";
    let fault = fault_by(|rules| rules.allowance_at_the_look = true).expect("found");
    assert!(fault.starts_with(allowance) || fault.starts_with(changed), "{fault}");
    let others = "the state keeps other connections than the calls tell";
    let fault = fault_by(|rules| rules.accepted_at_the_look = true).expect("found");
    assert!(fault.starts_with(others) || fault.starts_with(changed), "{fault}");
    let fault = fault_by(|rules| rules.next_head_accepted = true).expect("found");
    assert!(fault.starts_with(others), "{fault}");
}

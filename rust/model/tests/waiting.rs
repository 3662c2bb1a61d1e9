//! Request (n): "Empty by a known round". Remaining, programs that wait, and what students believe
//! instead.

mod common;

use common::Run;
use model::generate::calls::Caller;
use model::generate::states::{jam, scramble};
use model::generate::waiting::Waiter;
use model::generate::{crossing, good, Random};
use model::machine::claims::Claims;
use model::machine::{Answer, Call, Kind, Network, Phase, Remaining, Rules, State};
use model::{named, Plan, Queue};

/// N, and 256 × S × N with S = 2.
fn on_t(packets: usize) -> Result<Remaining, u32> {
    Ok(Remaining { packets, rounds: 512 * packets })
}

#[test]
fn remaining_in_every_phase() {
    let mut run = Run::new(&named::T);
    let remaining = |run: &Run| run.network.remaining(&run.state);
    assert_eq!(remaining(&run), on_t(0));
    assert_eq!(run.launch(0, 0, 0), Ok(()));
    for round in 0..8 {
        assert_eq!(remaining(&run), on_t(1));
        assert_eq!(run.network.read(&mut run.state), Ok(()));
        assert_eq!(remaining(&run), on_t(1));
        run.execute();
        assert_eq!(remaining(&run), on_t(1));
        assert_eq!(run.reply(0, 1), if round == 4 { Ok(()) } else { Err(13) });
        assert_eq!(run.drop(0), if round == 7 { Ok(()) } else { Err(13) });
        assert_eq!(remaining(&run), on_t(usize::from(round < 7)));
        run.end();
    }
    let before = run.state.clone();
    let answer = run.network.call(&mut run.state, Call::Remaining);
    assert_eq!((answer, &run.state), (on_t(0).map(Answer::Remaining), &before));
    run.state.slot.0 = 2;
    assert_eq!(remaining(&run), Err(7));
}

/// The wire's packet and those behind a head count too: largest plan, two launches of each active.
#[test]
fn remaining_counts_queues_and_wires() {
    let mut run = Run::new(&named::largest().encode());
    for active in 0..16 {
        for slot in [3, 9] {
            assert_eq!(run.launch(active, active, slot), Ok(()));
        }
    }
    for _ in 0..5 {
        let found = run.network.remaining(&run.state);
        assert_eq!(found, Ok(Remaining { packets: 32, rounds: 256 * 32 * 32 }));
        run.up_to(run.round + 1);
        assert!(run.state.wires.iter().any(Option::is_some));
    }
}

/// A program that waits from a READ on, watched.
struct Drain<'n> {
    network: &'n Network,
    state: State,
    claims: Claims<'n>,
    from_start: bool,
}

/// What drains needed: how many there were, the most rounds for each S × N at a READ, and the most
/// packets that were under way there.
#[derive(Debug, Default)]
struct Needed {
    drains: usize,
    most: f64,
    packets: usize,
    /// Executes that made tear-downs, so that N grew until the next Drops.
    grew: usize,
    /// How often a call had parted accepted connections from the table.
    parted: usize,
}

impl<'n> Drain<'n> {
    fn start(network: &'n Network) -> Drain<'n> {
        let state = network.start();
        Drain { network, claims: Claims::new(network, &state), state, from_start: true }
    }

    /// One call, each claim tested after it.
    fn call(&mut self, call: Call) -> Result<Answer, u32> {
        let before = self.state.clone();
        let answer = self.network.call(&mut self.state, call);
        let claims = &mut self.claims;
        let held = match self.from_start {
            true => claims.after(call, answer, &before, &self.state),
            false => claims.after_from_any_state(call, answer, &before, &self.state),
        };
        if let Err(fault) = held {
            panic!("{fault}, after {call:?}\nplan {:02X?}", self.network.plan().encode());
        }
        answer
    }

    /// Random calls, and on to a READ.
    fn busy(&mut self, random: &mut Random, count: usize) {
        let mut caller = Caller::new(random, self.network);
        for _ in 0..count {
            let call = caller.next(random, self.network, &self.state);
            let _ = self.call(call);
        }
        while self.state.phase != Phase::Read {
            let turn = if self.state.phase == Phase::Execute { Call::Execute } else { Call::Write };
            assert!(self.call(turn).is_ok());
        }
    }

    fn count(&self) -> usize {
        self.network.packets(&self.state).count()
    }

    /// N plus a tear-down for each set-up and each unmarked NACK, which may come to be.
    fn burden(&self) -> usize {
        let packets = self.network.packets(&self.state);
        packets.map(|(_, p)| 1 + usize::from(p.kind == Kind::Setup || p.is_unmarked_nack())).sum()
    }

    /// Waits until the network is empty; N at each READ. Where a call has parted accepted connections
    /// from the table they are forgotten: nothing moves by them.
    fn wait(&mut self, random: &mut Random, needed: &mut Needed) -> Vec<usize> {
        let mut counts = Vec::new();
        let mut waiter = Waiter::new(random);
        while !self.network.is_empty(&self.state) {
            let call = waiter.next(random, self.network, &(self.network, &self.state));
            if self.state.phase == Phase::Read && call == Call::Read {
                counts.push(self.count());
            }
            let (count, burden) = (self.count(), self.burden());
            if self.call(call) == Err(7) {
                needed.parted += 1;
                self.state.marks.clear();
                assert!(self.network.is_state(&self.state) && !self.from_start);
                assert_ne!(self.call(call), Err(7));
            }
            assert!(self.burden() <= burden, "{call:?} adds a packet");
            assert!(self.count() <= count || call == Call::Execute, "{call:?} adds a packet");
            needed.grew += usize::from(self.count() > count);
        }
        // What an Execute makes more is dropped in the same round.
        assert!(counts.is_sorted_by(|before, after| before >= after), "{counts:?}");
        counts
    }

    /// Waits, and a while longer.
    fn run(&mut self, random: &mut Random, needed: &mut Needed) {
        let counts = self.wait(random, needed);
        needed.drains += usize::from(!counts.is_empty());
        for (round, &packets) in counts.iter().enumerate() {
            let share = (counts.len() - round) as f64 / (self.network.slots() * packets) as f64;
            assert!(share <= 256.0);
            needed.most = needed.most.max(share);
            needed.packets = needed.packets.max(packets);
        }
        let mut waiter = Waiter::new(random);
        for _ in 0..3 * self.network.slots() {
            let call = waiter.next(random, self.network, &(self.network, &self.state));
            let _ = self.call(call);
            assert!(self.network.is_empty(&self.state));
        }
    }
}

fn any_plan(random: &mut Random) -> Plan {
    match random.below(4) {
        0 => good::loadable(random),
        1 => good::crowded(random),
        2 => crossing::any(random),
        _ => crossing::crowded(random),
    }
}

#[test]
fn random_drains() {
    let mut random = Random::new(71);
    let mut needed = Needed::default();
    while needed.drains < 120 {
        let network = Network::of(any_plan(&mut random));
        let mut drain = Drain::start(&network);
        let calls = random.within(20..=400);
        drain.busy(&mut random, calls);
        drain.run(&mut random, &mut needed);
    }
    println!("{needed:?}");
    assert!(needed.most > 1.0 && needed.packets > 20 && needed.grew > 20, "{needed:?}");
    assert_eq!(needed.parted, 0);
}

/// From a state that no list need reach; a call there may part accepted connections from the table.
#[test]
fn drains_from_any_state() {
    let mut random = Random::new(72);
    let mut needed = Needed::default();
    while needed.drains < 60 {
        let network = Network::of(any_plan(&mut random));
        let mut drain = Drain { from_start: false, ..Drain::start(&network) };
        let calls = random.within(20..=200);
        drain.busy(&mut random, calls);
        scramble(&mut random, &network, &mut drain.state, 60);
        let mut jammed = drain.state.clone();
        jam(&mut random, &network, &mut jammed);
        if network.is_state(&jammed) {
            drain.state = jammed;
        }
        drain.claims = Claims::new(&network, &drain.state);
        drain.run(&mut random, &mut needed);
    }
    println!("{needed:?}");
    assert!(needed.packets > 20 && needed.grew > 20 && needed.parted > 20, "{needed:?}");
}

/// All of 256 × S × N rounds, on T: at the deadline the network is empty.
#[test]
fn the_deadline_comes_and_is_met() {
    let network = Network::load(&named::T).expect("loads");
    let mut random = Random::new(73);
    for _ in 0..4 {
        let mut drain = Drain::start(&network);
        drain.busy(&mut random, 40);
        let mut waiter = Waiter::new(&mut random);
        let before = drain.claims.deadline.met;
        for _ in 0..512 * 2 * 8 {
            let call = waiter.next(&mut random, &network, &(&network, &drain.state));
            let _ = drain.call(call);
        }
        assert!(drain.claims.deadline.met > before);
        assert!(network.is_empty(&drain.state));
    }
}

/// Whether a Reply or a Drop would be accepted is told as the calls tell it.
#[test]
fn who_may_act_is_who_is_not_refused() {
    let mut random = Random::new(74);
    let mut met = [0; 2];
    for _ in 0..40 {
        let network = Network::of(any_plan(&mut random));
        let mut drain = Drain::start(&network);
        for _ in 0..30 {
            drain.busy(&mut random, 8);
            assert!(drain.call(Call::Read).is_ok() && drain.call(Call::Execute).is_ok());
            let refused = |call| network.call(&mut drain.state.clone(), call).is_err();
            let mut all = true;
            for passive in 0..network.plan().passives() {
                let may = network.may_reply(&drain.state, passive);
                assert_eq!(may, !refused(Call::Reply { passive, choice: 1 }));
                all &= !may;
            }
            for active in 0..network.plan().actives() {
                let may = network.may_drop(&drain.state, active);
                assert_eq!(may, !refused(Call::Drop { active }));
                all &= !may;
            }
            assert_eq!(network.all_have_acted(&drain.state), all);
            met[usize::from(all)] += 1;
        }
    }
    assert!(met.iter().all(|&count| count > 50), "{met:?}");
}

/// So many rounds with all but one of the supposed calls; N at the end.
fn after_rounds(run: &mut Run, rounds: usize, acts: &[Call]) -> usize {
    for _ in 0..rounds {
        run.run_to_write();
        for &act in acts {
            let _ = run.network.call(&mut run.state, act);
        }
        assert_eq!(run.network.write(&mut run.state), Ok(()));
    }
    run.network.remaining(&run.state).expect("a state").packets
}

const REPLY: Call = Call::Reply { passive: 0, choice: 1 };
const DECLINE: Call = Call::Reply { passive: 0, choice: 0 };
const DROP: Call = Call::Drop { active: 0 };

fn launched(rules: Rules) -> Run {
    let mut run = Run::with_rules(&named::T, rules);
    assert_eq!(run.launch(0, 0, 0), Ok(()));
    run
}

/// "Each passive replies .., and each active drops": without one of the two N stays.
#[test]
fn the_supposition_is_needed() {
    let documents = Rules::default();
    assert_eq!(after_rounds(&mut launched(documents), 512, &[REPLY, DROP]), 0);
    assert_eq!(after_rounds(&mut launched(documents), 512, &[DECLINE, DROP]), 0);
    let mut run = launched(documents);
    assert_eq!(after_rounds(&mut run, 512, &[DROP]), 1);
    assert_eq!(run.len(Queue::PassiveIn(0)), 1);
    let mut run = launched(documents);
    assert_eq!(after_rounds(&mut run, 512, &[REPLY]), 1);
    assert_eq!(run.len(Queue::ActiveIn(0)), 1);
}

/// S rounds are enough for one move and not for all: T's set-up is dropped in the eighth round.
#[test]
fn not_after_s_rounds() {
    let mut run = launched(Rules::default());
    assert_eq!(after_rounds(&mut run, 2, &[REPLY, DROP]), 1);
    assert_eq!(after_rounds(&mut run, 5, &[REPLY, DROP]), 1);
    assert_eq!(after_rounds(&mut run, 1, &[REPLY, DROP]), 0);
}

/// A declined set-up makes a packet more: from an Execute to the Drop in the same round N is greater,
/// while nobody launches; at the READs it never grows.
#[test]
fn the_count_may_grow_within_a_round() {
    let mut run = launched(Rules::default());
    let counts: Vec<usize> = (0..11).map(|_| after_rounds(&mut run, 1, &[DECLINE, DROP])).collect();
    assert_eq!(counts, [1, 1, 1, 1, 1, 1, 1, 1, 1, 1, 0]);
    let mut run = launched(Rules::default());
    assert_eq!(after_rounds(&mut run, 7, &[DECLINE]), 1);
    run.run_to_write();
    assert_eq!(run.network.remaining(&run.state), on_t(2));
}

/// By some wrong rules a network is never empty again, however long everybody acts.
#[test]
fn wrong_rules_never_end() {
    // The last free entry is booked: nobody leaves by that side.
    let mut run = launched(Rules { last_free_booked: true, ..Rules::default() });
    assert_eq!(after_rounds(&mut run, 8, &[REPLY, DROP]), 0);
    assert_eq!(run.launch(0, 0, 1), Ok(()));
    assert_eq!(after_rounds(&mut run, 512, &[REPLY, DROP]), 1);
}

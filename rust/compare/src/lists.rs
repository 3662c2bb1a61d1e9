//! Lists of calls on random plans, and calls on changed bytes between them.

use model::generate::calls::{stray, Caller};
use model::generate::states::{jam, scramble};
use model::generate::{crossing, damage, good, rings, Random};
use model::machine::bytes::packet_bytes;
use model::machine::{Answer, Call, Connection, Link, Network, Phase, Remaining, State};
use model::refusal::NOT_A_STATE;
use model::{named, Plan, Queue, SIDES};

use crate::calls::{narrow, Calls, Out};
use crate::change::changed;
use crate::tally::Tally;

/// Bytes behind the state, which no call writes.
const PAST: usize = 24;
/// The most calls in a list.
const LONGEST: usize = 1_600;

/// Compares so many calls in lists and so many on changed bytes, all from a seed. Panics where one
/// differs.
pub fn compare(calls: &Calls, seed: u64, listed: usize, changed: usize) -> Tally {
    let mut random = Random::new(seed);
    let mut tally = Tally::default();
    while tally.listed < listed || tally.changed < changed {
        let plan = any_plan(&mut random, tally.plans);
        tally.plans += 1;
        tally.crossing += usize::from(plan.is_crossing());
        let length = random.within(LONGEST / 8..=LONGEST);
        let mut list = List::start(calls, &mut random, Network::of(plan), &mut tally);
        if random.chance(1, 3) {
            list.elsewhere(&mut random);
        }
        for _ in 0..length {
            let due = tally.listed * changed > tally.changed * listed;
            list.step(&mut random, &mut tally);
            if due {
                list.on_changed_bytes(&mut random, &mut tally);
            }
        }
    }
    tally
}

/// Random plans of all sizes, after some with a name; every other one is crossing.
fn any_plan(random: &mut Random, number: usize) -> Plan {
    let named = [
        [named::plan_t(), named::crossing_four_slots()],
        [named::largest(), crossing::line(16, 32, 7)],
        [named::four_routers(), named::crossing_row()],
        [named::all_sides(), named::crossing_star()],
    ];
    match (named.as_flattened().get(number), number % 2) {
        (Some(draft), _) => Plan::load(&draft.encode()).expect("loads"),
        (None, 0) if random.chance(1, 2) => good::crowded(random),
        (None, 0) => good::loadable(random),
        _ if random.chance(1, 2) => crossing::crowded(random),
        _ => crossing::any(random),
    }
}

/// A list of calls: the model's state, and the bytes that the calls work on.
struct List<'c> {
    calls: &'c Calls,
    network: Network,
    plan: Vec<u8>,
    is_crossing: bool,
    /// Damaged plans with their refusals.
    damaged: Vec<(Vec<u8>, u32)>,
    caller: Caller,
    state: State,
    bytes: Vec<u8>,
}

impl<'c> List<'c> {
    /// Begins a list by an accepted Start, after one that is refused.
    fn start(
        calls: &'c Calls,
        random: &mut Random,
        network: Network,
        tally: &mut Tally,
    ) -> List<'c> {
        let plan = network.plan().encode();
        let size = network.size();
        assert_eq!((calls.size)(&plan), size as u32, "size of {plan:02X?}");
        let caller = Caller::new(random, &network);
        let bytes: Vec<u8> = (0..size + PAST).map(|_| random.number() as u8).collect();
        let state = network.start();
        let damaged = damaged(random, network.plan());
        let is_crossing = network.plan().is_crossing();
        let mut list = List { calls, network, plan, is_crossing, damaged, caller, state, bytes };
        list.refused_starts(random, tally);
        let mut expected = list.network.encode(&list.state);
        expected.extend_from_slice(&list.bytes[size..]);
        assert_eq!((calls.start)(&list.plan, &mut list.bytes), 0, "start of {:02X?}", list.plan);
        list.same(&expected, "start");
        tally.start(0);
        list
    }

    /// Starts with a buffer that is too short, and with damaged plans.
    fn refused_starts(&mut self, random: &mut Random, tally: &mut Tally) {
        let before = self.bytes.clone();
        let short = random.below(self.network.size());
        let answer = (self.calls.start)(&self.plan, &mut self.bytes[..short]);
        assert_eq!(answer, 7, "start with {short} bytes of {:02X?}", self.plan);
        tally.start(7);
        for (plan, refusal) in &self.damaged {
            assert_eq!((self.calls.start)(plan, &mut self.bytes), *refusal, "{plan:02X?}");
            assert_eq!((self.calls.size)(plan), 0, "size of {plan:02X?}");
            tally.start(*refusal);
        }
        self.same(&before, "a refused start");
    }

    /// Goes on from a state that no list need reach.
    fn elsewhere(&mut self, random: &mut Random) {
        scramble(random, &self.network, &mut self.state, 20);
        for _ in 0..3 {
            let mut jammed = self.state.clone();
            jam(random, &self.network, &mut jammed);
            if self.network.is_state(&jammed) {
                self.state = jammed;
            }
        }
        let bytes = self.network.encode(&self.state);
        self.bytes[..bytes.len()].copy_from_slice(&bytes);
    }

    /// The next call: mostly one that keeps the network busy, else one in its phase with numbers in
    /// range.
    fn next_call(&mut self, random: &mut Random) -> Call {
        if !random.chance(1, 10) {
            return narrow(self.caller.next(random, &self.network, &self.state));
        }
        let plan = self.network.plan();
        let active = self.some(random, plan.actives(), |list, n| list.is_active_refused(n));
        let passive = self.some(random, plan.passives(), |list, n| list.is_passive_refused(n));
        match (self.state.phase, random.below(2)) {
            _ if random.chance(1, 8) => look(random, &self.network, &self.state),
            (Phase::Read, 0) => {
                Call::Launch { active, passive, slot: random.below(self.network.slots()) }
            }
            (Phase::Read, _) => close(random, &self.network, &self.state),
            (Phase::Write, 0) => Call::Reply { passive, choice: random.below(2) },
            (Phase::Write, _) => Call::Drop { active },
            (Phase::Execute, _) => narrow(stray(random, &self.network)),
        }
    }

    /// A number below this, every other time one for which a late refusal applies, if there is one.
    fn some(&self, random: &mut Random, count: usize, refused: fn(&Self, usize) -> bool) -> usize {
        let late: Vec<usize> = (0..count).filter(|&number| refused(self, number)).collect();
        let steered = random.pick(&late).filter(|_| random.chance(1, 2));
        steered.unwrap_or(random.below(count))
    }

    /// Whether a flag is up, an out-queue full or a NACK unmarked.
    fn is_active_refused(&self, active: usize) -> bool {
        let within = Queue::ActiveIn(active);
        let head = self.network.queue(&self.state, within).front();
        self.is_raised(within)
            || head.is_some_and(|head| head.is_unmarked_nack())
            || self.network.is_full(&self.state, Queue::ActiveOut(active))
    }

    /// Whether a flag is up or an out-queue full.
    fn is_passive_refused(&self, passive: usize) -> bool {
        self.is_raised(Queue::PassiveIn(passive))
            || self.network.is_full(&self.state, Queue::PassiveOut(passive))
    }

    fn is_raised(&self, queue: Queue) -> bool {
        self.state.flags[self.network.queue_index(queue)]
    }

    /// One call of the list; now and then the same call with a damaged plan first.
    fn step(&mut self, random: &mut Random, tally: &mut Tally) {
        let call = self.next_call(random);
        if random.chance(1, 30) {
            self.with_damaged_plan(random, call, tally);
        }
        let together = self.units_with_several_heads();
        let phase = self.state.phase;
        let expected = self.network.call(&mut self.state, call);
        let mut bytes = match expected {
            Ok(_) => self.network.encode(&self.state),
            Err(_) => self.bytes[..self.network.size()].to_vec(),
        };
        bytes.extend_from_slice(&self.bytes[self.network.size()..]);
        self.compared(random, call, expected, &bytes, tally);
        tally.listed += 1;
        tally.crossed += usize::from(self.is_crossing);
        tally.packets = tally.packets.max(self.network.packets(&self.state).count());
        tally.accepted = tally.accepted.max(self.state.marks.len());
        if call == Call::Remaining && expected.is_ok() {
            tally.remaining[phase as usize] += 1;
        }
        if call == Call::Execute && expected.is_ok() {
            tally.together += together;
            self.note_picks(tally);
        }
        // From a state that no list reaches, a call may leave none: then the list goes on elsewhere.
        if expected == Err(NOT_A_STATE) {
            self.state = self.network.start();
            self.elsewhere(random);
        }
    }

    /// How many units have heads of several sides that are not handled.
    fn units_with_several_heads(&self) -> usize {
        let waits = |&queue: &Queue| {
            !self.state.is_handled(queue) && !self.network.queue(&self.state, queue).is_empty()
        };
        let heads = |router| (0..SIDES).map(move |from| Queue::Q { router, from }).filter(waits);
        (0..self.network.plan().routers()).filter(|&router| heads(router).count() > 1).count()
    }

    /// Who was picked where several were candidates, and where nobody was since the slot is booked.
    fn note_picks(&self, tally: &mut Tally) {
        for &link in self.network.links() {
            let choice = self.state.choices[self.network.link_index(link)];
            let picked = choice.and_then(|sender| self.network.rank(link, sender));
            if picked.is_none() && !self.network.is_booked_now(&self.state, link) {
                continue;
            }
            let candidates = self.network.candidates(&self.state, link);
            let [first, _, ..] = candidates[..] else { continue };
            match picked {
                None => tally.skipped += 1,
                Some(rank) => {
                    tally.contested += 1;
                    tally.contested_back += usize::from(matches!(link, Link::Back(_)));
                    tally.turned += usize::from(first != rank);
                }
            }
        }
    }

    fn with_damaged_plan(&mut self, random: &mut Random, call: Call, tally: &mut Tally) {
        if self.damaged.is_empty() {
            return;
        }
        let (plan, refusal) = &self.damaged[random.below(self.damaged.len())];
        let before = self.bytes.clone();
        let mut out = [random.number() as u8; 8];
        let kept = out;
        let answer = self.calls.run(plan, &mut self.bytes, call, &mut out);
        assert_eq!((answer, out), (*refusal, kept), "{call:?} of {plan:02X?}");
        self.same(&before, "a refused plan");
        tally.call(call, answer);
    }

    /// A call on bytes near the state's; the list's own bytes stay.
    fn on_changed_bytes(&mut self, random: &mut Random, tally: &mut Tally) {
        let mut bytes = changed(random, &self.network, &self.state);
        bytes.extend((0..PAST).map(|_| random.number() as u8));
        if random.chance(1, 30) {
            bytes.truncate(random.below(self.network.size()));
        }
        let decoded = self.network.decode(&bytes);
        let call = match &decoded {
            Some(state) if state.phase == Phase::Read && random.chance(1, 2) => {
                close(random, &self.network, state)
            }
            Some(state) if random.chance(1, 8) => look(random, &self.network, state),
            _ if random.chance(1, 16) => Call::Remaining,
            _ => self.next_call(random),
        };
        let mut after = bytes.clone();
        let is_state = decoded.as_ref().is_some_and(|state| self.network.is_state(state));
        let expected = decoded.ok_or(7).and_then(|mut state| {
            let answer = self.network.call(&mut state, call)?;
            let encoded = self.network.encode(&state);
            after[..encoded.len()].copy_from_slice(&encoded);
            Ok(answer)
        });
        let kept = std::mem::replace(&mut self.bytes, bytes);
        self.compared(random, call, expected, &after, tally);
        self.bytes = kept;
        tally.changed += 1;
        tally.states += usize::from(is_state);
    }

    /// Runs a call on the list's bytes and compares all with what the model says.
    fn compared(
        &mut self,
        random: &mut Random,
        call: Call,
        expected: Result<Answer, u32>,
        bytes: &[u8],
        tally: &mut Tally,
    ) {
        let before = self.bytes.clone();
        let mut out = random.number().to_le_bytes();
        let returned = returned(out, expected);
        let answer = self.calls.run(&self.plan, &mut self.bytes, call, &mut out);
        let number = expected.err().unwrap_or(0);
        let same = answer == number && out == returned && self.bytes == bytes;
        if !same {
            let at = self.bytes.iter().zip(bytes).position(|(found, expected)| found != expected);
            panic!(
                "{call:?}: {answer} {out:?}, expected {number} {returned:?}; first byte {at:?}\n\
                 plan {:02X?}\nbefore {before:02X?}",
                self.plan
            );
        }
        tally.call(call, answer);
    }

    fn same(&self, expected: &[u8], what: &str) {
        assert!(self.bytes == expected, "{what} of {:02X?}", self.plan);
    }
}

/// A Close of an accepted connection, mostly one whose out-queue is full, if there is one; now and
/// then of any other.
fn close(random: &mut Random, network: &Network, state: &State) -> Call {
    let marks: Vec<Connection> = state.marks.iter().copied().collect();
    let full = |mark: &Connection| network.is_full(state, Queue::ActiveOut(mark.active));
    let held: Vec<Connection> = marks.iter().copied().filter(full).collect();
    let held = random.pick(&held).filter(|_| random.chance(3, 4));
    match held.or(random.pick(&marks)).filter(|_| !random.chance(1, 4)) {
        Some(Connection { active, passive, start }) => {
            Call::Close { active, passive, slot: start.0 }
        }
        None => {
            let plan = network.plan();
            let (active, passive) = (random.below(plan.actives()), random.below(plan.passives()));
            Call::Close { active, passive, slot: random.below(network.slots()) }
        }
    }
}

/// A Look at an active for which something waits, if there is one; now and then at any.
fn look(random: &mut Random, network: &Network, state: &State) -> Call {
    let actives = network.plan().actives();
    let waits = |&active: &usize| network.head(state, active).is_some();
    let waiting: Vec<usize> = (0..actives).filter(waits).collect();
    let waiting = random.pick(&waiting).filter(|_| !random.chance(1, 4));
    Call::Look { active: waiting.unwrap_or(random.below(actives)) }
}

/// What eight bytes are after a call: written only on acceptance.
fn returned(before: Out, answer: Result<Answer, u32>) -> Out {
    let mut out = before;
    match answer {
        Ok(Answer::Packet(packet)) => out[..5].copy_from_slice(&packet_bytes(&packet)),
        Ok(Answer::Entry(entry)) => out[0] = entry as u8,
        Ok(Answer::Remaining(Remaining { packets, rounds })) => {
            out[..4].copy_from_slice(&(packets as u32).to_le_bytes());
            out[4..].copy_from_slice(&(rounds as u32).to_le_bytes());
        }
        Ok(Answer::Done) | Err(_) => {}
    }
    out
}

/// Plans that do not load, most of them near this one, each with its refusal.
fn damaged(random: &mut Random, plan: &Plan) -> Vec<(Vec<u8>, u32)> {
    let fields = plan.fields();
    let mut plans = vec![damage::noise(random), damage::headed_noise(random, fields)];
    plans.push(plan.encode()[..random.below(6)].to_vec());
    plans.push(rings::ringed(random).encode());
    for _ in 0..5 {
        let damage = random.pick(&damage::ALL).unwrap_or(damage::Damage::Bits);
        plans.push(damage::damaged(random, fields, damage));
    }
    let refusals = plans.into_iter().map(|plan| {
        let refusal = Plan::load(&plan).err();
        refusal.map(|refusal| (plan, refusal))
    });
    refusals.flatten().collect()
}

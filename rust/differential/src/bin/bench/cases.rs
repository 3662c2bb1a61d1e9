//! What is measured: every call on four plans, on an idle network and on a busy one.

use compare::calls::Calls;
use model::generate::{Draft, Random};
use model::machine::{Call, Connection, Network, State};
use model::named;

/// Rounds that a network is kept busy for, to find states with many packets.
const BUSY_ROUNDS: usize = 400;
/// Rounds at whose end some set-ups are accepted; later all are declined, so that tear-downs run.
const ACCEPTING: usize = 200;
/// For how many rounds a connection stays accepted, on an average.
const CLOSED_AFTER: usize = 500;
/// The calls on a state.
const CALLS: usize = 10;

/// A call on a state.
pub struct Case {
    /// The plan's name.
    pub name: &'static str,
    /// The plan bytes.
    pub plan: Vec<u8>,
    /// The state's bytes before the call.
    pub state: Vec<u8>,
    /// The call; none for Start.
    pub call: Option<Call>,
    /// Whether the network is busy, and not as it was started.
    pub busy: bool,
    /// How many packets the state has.
    pub packets: usize,
    /// How many accepted connections it keeps.
    pub accepted: usize,
}

/// The best case of each call so far.
type Best = [Option<Case>; CALLS];

/// A line of four routers, an active at each of the first two, a passive at each of the last two.
fn line_of_four() -> Draft {
    let mut draft = Draft::new(4, 8, 2);
    draft.join((0, 1), (1, 0)).join((1, 1), (2, 0)).join((2, 1), (3, 0));
    draft.active(0, 3).active(1, 3).passive(2, 3).passive(3, 3).shortest_routes();
    draft
}

/// The plans by name.
pub fn plans() -> [(&'static str, Vec<u8>); 4] {
    [
        ("t", named::plan_t().encode()),
        ("line of four", line_of_four().encode()),
        ("crossing row", named::crossing_row().encode()),
        ("largest", named::largest().encode()),
    ]
}

/// The cases of a plan, idle ones first.
pub fn cases(name: &'static str, plan: &[u8], calls: &Calls) -> Vec<Case> {
    let mut run = Run::new(name, plan, calls);
    let mut cases = run.idle();
    cases.extend(run.busy());
    cases
}

/// A network that is run to find the cases.
struct Run<'c> {
    name: &'static str,
    plan: Vec<u8>,
    network: Network,
    calls: &'c Calls,
    random: Random,
    state: Vec<u8>,
}

impl<'c> Run<'c> {
    fn new(name: &'static str, plan: &[u8], calls: &'c Calls) -> Run<'c> {
        let network = Network::load(plan).expect("loads");
        let mut state = vec![0; network.size()];
        assert_eq!((calls.start)(plan, &mut state), 0);
        Run { name, plan: plan.to_vec(), network, calls, random: Random::new(5), state }
    }

    /// Runs a call on the state; whether it is accepted.
    fn does(&mut self, call: Call) -> bool {
        self.calls.run(&self.plan, &mut self.state, call, &mut [0; 8]) == 0
    }

    /// The state as it is.
    fn decoded(&self) -> State {
        self.network.decode(&self.state).expect("a state")
    }

    /// The case of a call on the state as it is.
    fn case(&self, call: Option<Call>, busy: bool) -> Case {
        let decoded = self.decoded();
        let (plan, state) = (self.plan.clone(), self.state.clone());
        let packets = self.network.packets(&decoded).count();
        Case { name: self.name, plan, state, call, busy, packets, accepted: decoded.marks.len() }
    }

    /// Every call on the network as it was started, in each call's phase.
    fn idle(&mut self) -> Vec<Case> {
        let mut cases = vec![self.case(None, false)];
        let launch = Call::Launch { active: 0, passive: 0, slot: 0 };
        let close = Call::Close { active: 0, passive: 0, slot: 0 };
        let entry = Call::Entry { router: 0, side: 1, slot: 0 };
        let in_read = [launch, close, entry, Call::Remaining, Call::Read];
        cases.extend(in_read.map(|call| self.case(Some(call), false)));
        assert!(self.does(Call::Read));
        cases.push(self.case(Some(Call::Execute), false));
        assert!(self.does(Call::Execute));
        let reply = Call::Reply { passive: 0, choice: 1 };
        let (look, drop) = (Call::Look { active: 0 }, Call::Drop { active: 0 });
        cases.extend([reply, look, drop, Call::Write].map(|call| self.case(Some(call), false)));
        assert!(self.does(Call::Write));
        cases
    }

    /// For each call, of the states of a busy run on which it is accepted one with the most packets
    /// and accepted connections, and with some of these if there is such.
    fn busy(&mut self) -> Vec<Case> {
        let mut best = Best::default();
        for round in 0..BUSY_ROUNDS {
            self.closes(&mut best);
            self.launches(&mut best);
            self.keep(&mut best[1], Call::Entry { router: 0, side: 1, slot: 0 });
            self.keep(&mut best[9], Call::Remaining);
            self.keep(&mut best[2], Call::Read);
            assert!(self.does(Call::Read));
            self.keep(&mut best[3], Call::Execute);
            assert!(self.does(Call::Execute));
            self.answers(round, &mut best);
            self.keep(&mut best[7], Call::Write);
            assert!(self.does(Call::Write));
        }
        best.into_iter().flatten().collect()
    }

    /// Keeps a case that is better than the one before, if the call is accepted.
    fn keep(&self, best: &mut Option<Case>, call: Call) {
        let mut state = self.state.clone();
        if self.calls.run(&self.plan, &mut state, call, &mut [0; 8]) != 0 {
            return;
        }
        let case = self.case(Some(call), true);
        let good = |case: &Case| (case.accepted > 0, case.packets + case.accepted);
        if best.as_ref().is_none_or(|best| good(best) < good(&case)) {
            *best = Some(case);
        }
    }

    /// Few connections are closed.
    fn closes(&mut self, best: &mut Best) {
        for Connection { active, passive, start } in self.decoded().marks {
            let close = Call::Close { active, passive, slot: start.0 };
            self.keep(&mut best[8], close);
            if self.random.chance(1, CLOSED_AFTER) {
                self.does(close);
            }
        }
    }

    /// Every active launches as long as it may.
    fn launches(&mut self, best: &mut Best) {
        for active in 0..self.network.plan().actives() {
            loop {
                let passive = self.random.below(self.network.plan().passives());
                let slot = self.random.below(self.network.slots());
                let launch = Call::Launch { active, passive, slot };
                self.keep(&mut best[0], launch);
                if !self.does(launch) {
                    break;
                }
            }
        }
    }

    /// Most passives reply, and most actives look and drop.
    fn answers(&mut self, round: usize, best: &mut Best) {
        for passive in 0..self.network.plan().passives() {
            let accepts = round < ACCEPTING && self.random.chance(1, 3);
            let reply = Call::Reply { passive, choice: usize::from(accepts) };
            self.keep(&mut best[4], reply);
            if self.random.chance(3, 4) {
                self.does(reply);
            }
        }
        for active in 0..self.network.plan().actives() {
            self.keep(&mut best[5], Call::Look { active });
            let drop = Call::Drop { active };
            self.keep(&mut best[6], drop);
            if self.random.chance(3, 4) {
                self.does(drop);
            }
        }
    }
}

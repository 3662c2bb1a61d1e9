//! Demand 3 and what the documents say of every list, watched call by call; request (n) by [`Deadline`].

use std::collections::{BTreeSet, HashMap};

use super::connection::Connection;
use super::list::{Answer, Call};
use super::network::{Link, Network};
use super::packet::{Kind, Slot};
use super::places::Place;
use super::state::{Phase, State, Table};
use super::waiting::Deadline;
use crate::feeding::Queue;
use crate::fields::SIDES;

/// What a list's calls and answers have told so far.
#[derive(Clone, Debug)]
pub struct Claims<'n> {
    network: &'n Network,
    launched: HashMap<Connection, usize>,
    /// How many Drops accepted a connection, closed since or not.
    acceptances: HashMap<Connection, usize>,
    /// The connections accepted and not closed since.
    accepted: BTreeSet<Connection>,
    /// Whole rounds without a move since a state in READ from which a move is claimed.
    still: Option<usize>,
    /// Request (n): by which round the network is to be empty.
    pub deadline: Deadline,
    /// By link and rank: how many others have gone before a head that stayed a candidate.
    passed_by: Vec<Vec<usize>>,
    /// How many outputs picked while several senders were candidates.
    pub contested: usize,
    /// Of these, how many picked another than the first in order.
    pub turned: usize,
    /// The most others that ever went before a head that stayed a candidate.
    pub most_before: usize,
    /// How many of the contested picks were of a unit's way back.
    pub contested_back: usize,
    /// How many times a unit handled heads of several sides in one Execute.
    pub together: usize,
    /// How many heads stayed in sight of a Look over a call that left the phase as it was.
    pub heads_kept: usize,
    /// Of these, how many over a Drop of another active.
    pub kept_at_drops: usize,
    /// How many Drops brought another head into sight.
    pub uncovered: usize,
    /// How often the network was empty while some connections were accepted.
    pub tables_compared: usize,
    /// How many connections were accepted that had been closed before.
    pub reopened: usize,
    /// The most rounds that ever passed before a claimed move.
    pub longest_wait: usize,
}

impl<'n> Claims<'n> {
    /// Before the first call; `start` is what Start left.
    pub fn new(network: &'n Network, start: &State) -> Self {
        let mut claims = Claims {
            network,
            launched: HashMap::new(),
            acceptances: HashMap::new(),
            accepted: BTreeSet::new(),
            still: None,
            deadline: Deadline::default(),
            passed_by: network.links().iter().map(|&l| vec![0; network.senders(l).len()]).collect(),
            contested: 0,
            turned: 0,
            most_before: 0,
            contested_back: 0,
            together: 0,
            heads_kept: 0,
            kept_at_drops: 0,
            uncovered: 0,
            tables_compared: 0,
            reopened: 0,
            longest_wait: 0,
        };
        claims.claim_a_move(start);
        claims
    }

    /// After a call of a list from start: what it was given, what it said, what it left. The first
    /// claim that fails.
    pub fn after(
        &mut self,
        call: Call,
        answer: Result<Answer, u32>,
        before: &State,
        state: &State,
    ) -> Result<(), String> {
        self.after_from_any_state(call, answer, before, state)?;
        // "No state reached from start is refused so."
        if let Some(fault) = self.network.fault(state) {
            return Err(format!("not a state: {fault}"));
        }
        self.note_connections(call, answer, before)?;
        // "The state now keeps the accepted connections."
        if state.marks != self.accepted {
            return Err("the state keeps other connections than the calls tell".to_string());
        }
        self.table_is_the_accepted_ones(state)
    }

    /// The claims that hold of a list from any state, also one that no list from start reaches: a
    /// call may there part the accepted connections from the table.
    pub fn after_from_any_state(
        &mut self,
        call: Call,
        answer: Result<Answer, u32>,
        before: &State,
        state: &State,
    ) -> Result<(), String> {
        // "A refusal alters no byte."
        if answer.is_err() && before != state {
            return Err(format!("{call:?} was refused and altered the state"));
        }
        self.look_tells_the_head(call, answer, before, state)?;
        self.deadline.after(self.network, (call, answer), [before, state])?;
        if let Some(fault) = self.network.core_fault(state) {
            return Err(format!("not a state: {fault}"));
        }
        self.no_queue_over_capacity(state)?;
        self.note_heads(call, answer.is_ok(), before, state)?;
        if call == Call::Execute && answer.is_ok() {
            self.note_handled(before, state)?;
            self.note_turns(state)?;
        }
        self.note_moves(call, answer.is_ok(), before, state)
    }

    /// "No queue holds more than its capacity."
    fn no_queue_over_capacity(&self, state: &State) -> Result<(), String> {
        let over =
            self.network.queues().iter().find(|&&queue| {
                self.network.queue(state, queue).len() > self.network.capacity(queue)
            });
        over.map_or(Ok(()), |queue| Err(format!("{queue:?} is over its capacity")))
    }

    /// "Look returns the head in any phase and changes nothing; Drop removes it and returns nothing."
    /// What a Look just before an accepted Drop gives is the packet that the Drop removes.
    fn look_tells_the_head(
        &self,
        call: Call,
        answer: Result<Answer, u32>,
        before: &State,
        state: &State,
    ) -> Result<(), String> {
        match (call, answer) {
            (Call::Look { .. }, _) if before != state => {
                Err("a Look changed the state".to_string())
            }
            (Call::Look { active }, Ok(given)) => {
                let head = self.network.head(before, active).map(Answer::Packet);
                let told = head == Some(given);
                told.then_some(()).ok_or_else(|| format!("a Look gave {given:?}, not the head"))
            }
            (Call::Drop { active }, Ok(given)) => {
                let within = |state| self.network.queue(state, Queue::ActiveIn(active)).iter();
                let looked = self.network.look(before, active).ok();
                let removed = looked.iter().chain(within(state)).eq(within(before));
                let told = given == Answer::Done && removed;
                told.then_some(()).ok_or_else(|| "a Drop removed another packet".to_string())
            }
            _ => Ok(()),
        }
    }

    /// Within a phase no call but a Drop of that active changes what Look gives.
    fn note_heads(
        &mut self,
        call: Call,
        accepted: bool,
        before: &State,
        state: &State,
    ) -> Result<(), String> {
        for active in (0..self.network.plan().actives()).filter(|_| before.phase == state.phase) {
            let heads = [before, state].map(|state| self.network.head(state, active));
            if accepted && call == (Call::Drop { active }) {
                self.uncovered += usize::from(heads[1].is_some());
            } else if heads[0] != heads[1] {
                return Err(format!("{call:?} changed what a Look of active {active} gives"));
            } else {
                let kept = usize::from(heads[0].is_some());
                self.heads_kept += kept;
                let drops = accepted && matches!(call, Call::Drop { .. });
                self.kept_at_drops += kept * usize::from(drops);
            }
        }
        Ok(())
    }

    /// "A unit handles each queue's unhandled head once in a round": after an accepted Execute each of
    /// them is handled or has ended, and no second one has.
    fn note_handled(&mut self, before: &State, state: &State) -> Result<(), String> {
        for router in 0..self.network.plan().routers() {
            let mut heads = 0;
            for queue in (0..SIDES).map(|from| Queue::Q { router, from }) {
                let [was, is] = [before, state].map(|state| self.network.queue(state, queue).len());
                if was == 0 || before.is_handled(queue) {
                    continue;
                }
                heads += 1;
                let stays = is == was && state.is_handled(queue);
                let ends = is + 1 == was && !state.is_handled(queue);
                if !stays && !ends {
                    return Err(format!("the head of {queue:?} was not handled once"));
                }
            }
            self.together += usize::from(heads > 1);
        }
        Ok(())
    }

    /// "A head that stays a candidate sees at most three others go before it on that output", and at a
    /// side "at most four": each other sender once. After an accepted Execute. What a head has seen is
    /// forgotten when it is picked, or when the output picks and it is no candidate.
    fn note_turns(&mut self, state: &State) -> Result<(), String> {
        for &link in self.network.links() {
            let at = self.network.link_index(link);
            let Some(picked) = state.choices[at].and_then(|sender| self.network.rank(link, sender))
            else {
                continue;
            };
            let candidates = self.network.candidates(state, link);
            self.contested += usize::from(candidates.len() > 1);
            let back = matches!(link, Link::Back(_));
            self.contested_back += usize::from(back && candidates.len() > 1);
            self.turned += usize::from(candidates.first().is_some_and(|&first| first != picked));
            for (rank, others) in self.passed_by[at].iter_mut().enumerate() {
                let stays = rank != picked && candidates.contains(&rank);
                *others = if stays { *others + 1 } else { 0 };
                self.most_before = self.most_before.max(*others);
                if *others > self.network.last_in_order(link) {
                    return Err(format!("{others} others went before sender {rank} of {link:?}"));
                }
            }
        }
        Ok(())
    }

    /// "An ACK counts as accepted when dropped, with the numbers of the packet that a Look just before
    /// would return": told by the call and the state before it. At an accepted Close a connection
    /// "leaves the accepted ones".
    fn note_connections(
        &mut self,
        call: Call,
        answer: Result<Answer, u32>,
        before: &State,
    ) -> Result<(), String> {
        match (call, answer) {
            (Call::Launch { active, passive, slot }, Ok(_)) => {
                let connection = Connection { active, passive, start: Slot(slot) };
                *self.launched.entry(connection).or_default() += 1;
            }
            (Call::Drop { active }, Ok(_)) => {
                let looked = self.network.look(before, active);
                if let Some(ack) = looked.ok().filter(|head| head.kind == Kind::Ack) {
                    return self.note_acceptance(self.network.connection(&ack));
                }
            }
            (Call::Close { active, passive, slot }, Ok(_)) => {
                let connection = Connection { active, passive, start: Slot(slot) };
                if !self.accepted.remove(&connection) {
                    return Err(format!("{connection:?} was closed and was not accepted"));
                }
            }
            _ => {}
        }
        Ok(())
    }

    /// "At least as many accepted Launches of those three numbers as" Drops "that accepted them";
    /// and a connection is accepted only while it is not.
    fn note_acceptance(&mut self, connection: Connection) -> Result<(), String> {
        let acceptances = self.acceptances.entry(connection).or_default();
        self.reopened += usize::from(*acceptances > 0);
        *acceptances += 1;
        if self.launched.get(&connection).is_none_or(|launched| launched < acceptances) {
            return Err(format!("{connection:?} was accepted more often than launched"));
        }
        if !self.accepted.insert(connection) {
            return Err(format!("{connection:?} was accepted twice and not closed between"));
        }
        Ok(())
    }

    /// "Whenever every queue and wire is empty, the slot table equals, entry by entry, the one
    /// that" the "connections accepted and not closed since" make.
    fn table_is_the_accepted_ones(&mut self, state: &State) -> Result<(), String> {
        if self.network.packets(state).next().is_some() {
            return Ok(());
        }
        self.tables_compared += usize::from(!self.accepted.is_empty());
        if state.table == self.accepted_table() {
            Ok(())
        } else {
            Err("the network is empty and its table is not the accepted ones' own".to_string())
        }
    }

    /// "The table they make has these entries, and every other one is free."
    pub fn accepted_table(&self) -> Table {
        let mut table = Table::free(self.network.plan().routers(), self.network.slots());
        for &connection in &self.accepted {
            let entries = self.network.entries_of(connection).expect("accepted pairs are served");
            for entry in entries {
                let made = table.entry(entry.port.router, entry.port.side, entry.slot);
                assert_eq!(made, None, "two accepted connections make one entry");
                entry.put(&mut table);
            }
        }
        table
    }

    /// "In those rounds at least one packet changes its queue or wire, or ends, by a Read, an
    /// Execute or a Write."
    fn note_moves(
        &mut self,
        call: Call,
        accepted: bool,
        before: &State,
        state: &State,
    ) -> Result<(), String> {
        if accepted && self.moves(call, before, state) {
            self.still = None;
        } else if accepted && call == Call::Write {
            self.still = self.still.map(|rounds| rounds + 1);
            self.longest_wait = self.longest_wait.max(self.still.unwrap_or(0));
            if self.still == Some(self.network.slots()) {
                return Err("S whole rounds went by without a move".to_string());
            }
        }
        self.claim_a_move(state);
        Ok(())
    }

    /// From the first state on from which a move is claimed, rounds are counted.
    fn claim_a_move(&mut self, state: &State) {
        if self.still.is_none() && self.move_is_due(state) {
            self.still = Some(0);
        }
    }

    /// "Whenever at the start of a round a packet is in a wire, or in a queue other than an
    /// interface's in-queue, while no passive in-queue is full."
    fn move_is_due(&self, state: &State) -> bool {
        let in_queue =
            |place| matches!(place, Place::In(Queue::ActiveIn(_)) | Place::In(Queue::PassiveIn(_)));
        let full = |passive| self.network.is_full(state, Queue::PassiveIn(passive));
        state.phase == Phase::Read
            && !(0..self.network.plan().passives()).any(full)
            && self.network.packets(state).any(|(place, _)| !in_queue(place))
    }

    /// Whether an accepted call took a packet out of its queue or wire: a full wire at Read, a
    /// packet that ends in Execute, a picked head at Write.
    fn moves(&self, call: Call, before: &State, state: &State) -> bool {
        let mut queues = state.queues.iter().zip(&before.queues);
        match call {
            Call::Read => before.wires.iter().any(Option::is_some),
            Call::Execute => queues.any(|(queue, before)| queue.len() < before.len()),
            Call::Write => before.choices.iter().any(Option::is_some),
            _ => false,
        }
    }
}

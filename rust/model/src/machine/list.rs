//! "The list in 3": calls as values, so that a list of them can be run.

use super::network::Network;
use super::packet::Packet;
use super::state::State;
use super::waiting::Remaining;

/// A call on a state.
#[derive(Clone, Copy, Debug, PartialEq, Eq)]
pub enum Call {
    /// Read.
    Read,
    /// Execute.
    Execute,
    /// Write.
    Write,
    /// Launch.
    Launch {
        /// The active that sends.
        active: usize,
        /// The passive that receives.
        passive: usize,
        /// The start slot.
        slot: usize,
    },
    /// Close.
    Close {
        /// The connection's active.
        active: usize,
        /// Its passive.
        passive: usize,
        /// Its start slot.
        slot: usize,
    },
    /// Reply.
    Reply {
        /// The passive that replies.
        passive: usize,
        /// 1 accept or 0 decline.
        choice: usize,
    },
    /// Look.
    Look {
        /// The active that looks.
        active: usize,
    },
    /// Drop.
    Drop {
        /// The active that drops.
        active: usize,
    },
    /// Entry.
    Entry {
        /// The router asked.
        router: usize,
        /// Its side.
        side: usize,
        /// The slot.
        slot: usize,
    },
    /// Remaining.
    Remaining,
}

/// What an accepted call says.
#[derive(Clone, Copy, Debug, PartialEq, Eq)]
pub enum Answer {
    /// "An accepted call with nothing to return says only that."
    Done,
    /// The packet that Look returns.
    Packet(Packet),
    /// The entry, 4 for free.
    Entry(u32),
    /// What Remaining returns.
    Remaining(Remaining),
}

impl Network {
    /// Runs one call.
    pub fn call(&self, state: &mut State, call: Call) -> Result<Answer, u32> {
        match call {
            Call::Read => self.read(state).map(|()| Answer::Done),
            Call::Execute => self.execute(state).map(|()| Answer::Done),
            Call::Write => self.write(state).map(|()| Answer::Done),
            Call::Launch { active, passive, slot } => {
                self.launch(state, active, passive, slot).map(|()| Answer::Done)
            }
            Call::Close { active, passive, slot } => {
                self.close(state, active, passive, slot).map(|()| Answer::Done)
            }
            Call::Reply { passive, choice } => {
                self.reply(state, passive, choice).map(|()| Answer::Done)
            }
            Call::Look { active } => {
                let head = self.look(state, active)?;
                self.students_look(state, active);
                Ok(Answer::Packet(head))
            }
            Call::Drop { active } => self.drop(state, active).map(|()| Answer::Done),
            Call::Entry { router, side, slot } => {
                self.entry(state, router, side, slot).map(Answer::Entry)
            }
            Call::Remaining => self.remaining(state).map(Answer::Remaining),
        }
    }
}

//! The calls as values, and who answers them.

use model::machine::{self, Network, Rules};
use pandabrass::{bytes, Entry, Packet, Refusal, Remaining};

use crate::net;
use crate::plan::Plan;

/// A call on a state. Numbers may be out of range: they are passed on, to be refused.
#[derive(Clone, Copy, Debug, PartialEq, Eq)]
pub enum Call {
    /// Read.
    Read,
    /// Execute.
    Execute,
    /// Write.
    Write,
    /// Launch.
    Launch {
        /// The active that sends.
        active: u32,
        /// The passive that receives.
        passive: u32,
        /// The start slot.
        slot: u32,
    },
    /// Close.
    Close {
        /// The connection's active.
        active: u32,
        /// Its passive.
        passive: u32,
        /// Its start slot.
        slot: u32,
    },
    /// Reply.
    Reply {
        /// The passive that replies.
        passive: u32,
        /// 1 accept or 0 decline.
        choice: u32,
    },
    /// Look.
    Look {
        /// The active that looks.
        active: u32,
    },
    /// Drop.
    Drop {
        /// The active that drops.
        active: u32,
    },
    /// Entry.
    Entry {
        /// The router asked.
        router: u32,
        /// Its side.
        side: u32,
        /// The slot.
        slot: u32,
    },
    /// Remaining.
    Remaining,
}

/// What an accepted call returns.
#[derive(Clone, Copy, Debug, PartialEq, Eq)]
pub enum Answer {
    /// Nothing.
    Done,
    /// The packet that Look shows.
    Packet(Packet),
    /// The entry that was asked for.
    Entry(Entry),
    /// What is under way, and for how many rounds at most.
    Remaining(Remaining),
}

/// Somebody who answers the calls on one plan.
pub trait Calls {
    /// What Start leaves.
    fn start(&self) -> Vec<u8>;

    /// Makes one call on a state's bytes.
    fn call(&self, state: &mut Vec<u8>, call: Call) -> Result<Answer, Refusal>;
}

/// The proved library.
#[derive(Clone, Debug)]
pub struct Proved {
    plan: pandabrass::Plan,
}

impl Proved {
    /// On a loaded plan.
    pub fn new(plan: &Plan) -> Proved {
        Proved { plan: plan.loaded().clone() }
    }
}

impl Calls for Proved {
    fn start(&self) -> Vec<u8> {
        self.plan.start().into_bytes()
    }

    fn call(&self, state: &mut Vec<u8>, call: Call) -> Result<Answer, Refusal> {
        let (plan, mut out) = (self.plan.bytes(), [0; 8]);
        let answer = match call {
            Call::Read => bytes::read(plan, state),
            Call::Execute => bytes::execute(plan, state),
            Call::Write => bytes::write(plan, state),
            Call::Launch { active, passive, slot } => {
                bytes::launch(plan, state, active, passive, slot)
            }
            Call::Close { active, passive, slot } => {
                bytes::close(plan, state, active, passive, slot)
            }
            Call::Reply { passive, choice } => bytes::reply(plan, state, passive, choice),
            Call::Look { active } => bytes::look(plan, state, active, &mut out),
            Call::Drop { active } => bytes::drop(plan, state, active),
            Call::Entry { router, side, slot } => {
                bytes::entry(plan, state, router, side, slot, &mut out)
            }
            Call::Remaining => bytes::remaining(plan, state, &mut out),
        };
        if let Some(refusal) = Refusal::of(answer) {
            return Err(refusal);
        }
        Ok(match call {
            Call::Look { .. } => {
                Answer::Packet(net::packet(&out[..5]).expect("the library returns a packet"))
            }
            Call::Entry { .. } => Answer::Entry(entry(out[0].into())),
            Call::Remaining => Answer::Remaining(Remaining::from(out)),
            _ => Answer::Done,
        })
    }
}

/// The model, by the rules of documents 01 and 02 or by others.
#[derive(Clone, Debug)]
pub struct Modelled {
    network: Network,
}

impl Modelled {
    /// On a loaded plan.
    pub fn new(plan: &Plan, rules: Rules) -> Modelled {
        let network = Network::load(plan.bytes()).expect("the library loaded it");
        Modelled { network: network.with_rules(rules) }
    }
}

impl Calls for Modelled {
    fn start(&self) -> Vec<u8> {
        self.network.encode(&self.network.start())
    }

    fn call(&self, bytes: &mut Vec<u8>, call: Call) -> Result<Answer, Refusal> {
        let mut state = self.network.decode(bytes).ok_or(Refusal::NotState)?;
        let answer = self.network.call(&mut state, modelled(call));
        let answer = answer.map_err(|number| Refusal::of(number).expect("a refusal's number"))?;
        *bytes = self.network.encode(&state);
        Ok(match answer {
            machine::Answer::Done => Answer::Done,
            machine::Answer::Packet(packet) => Answer::Packet(
                net::packet(&machine::bytes::packet_bytes(&packet)).expect("a kind is a kind"),
            ),
            machine::Answer::Entry(number) => Answer::Entry(entry(number)),
            machine::Answer::Remaining(machine::Remaining { packets, rounds }) => {
                Answer::Remaining(Remaining { packets: packets as u32, rounds: rounds as u32 })
            }
        })
    }
}

/// "Else the entry, 4 for free."
fn entry(number: u32) -> Entry {
    if number == machine::calls::FREE {
        Entry::Free
    } else {
        Entry::Booked(number as u8)
    }
}

/// The same call of the model.
fn modelled(call: Call) -> machine::Call {
    let n = |number: u32| number as usize;
    match call {
        Call::Read => machine::Call::Read,
        Call::Execute => machine::Call::Execute,
        Call::Write => machine::Call::Write,
        Call::Launch { active, passive, slot } => {
            machine::Call::Launch { active: n(active), passive: n(passive), slot: n(slot) }
        }
        Call::Close { active, passive, slot } => {
            machine::Call::Close { active: n(active), passive: n(passive), slot: n(slot) }
        }
        Call::Reply { passive, choice } => {
            machine::Call::Reply { passive: n(passive), choice: n(choice) }
        }
        Call::Look { active } => machine::Call::Look { active: n(active) },
        Call::Drop { active } => machine::Call::Drop { active: n(active) },
        Call::Entry { router, side, slot } => {
            machine::Call::Entry { router: n(router), side: n(side), slot: n(slot) }
        }
        Call::Remaining => machine::Call::Remaining,
    }
}

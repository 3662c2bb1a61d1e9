//! The calls on slices, as `lean` and `pandabrass` have them.

use model::machine::Call;

/// Eight bytes for what a call returns.
pub type Out = [u8; 8];

/// Entry: plan, state, router, side, slot, and what is returned.
pub type Entry = fn(&[u8], &[u8], u32, u32, u32, &mut Out) -> u32;

/// One function for each call. An answer is 0 for accepted, else the refusal's number.
#[derive(Clone, Copy, Debug)]
pub struct Calls {
    /// The state's bytes, 0 if the plan does not load.
    pub size: fn(&[u8]) -> u32,
    /// Load.
    pub load: fn(&[u8]) -> u32,
    /// Start.
    pub start: fn(&[u8], &mut [u8]) -> u32,
    /// Read.
    pub read: fn(&[u8], &mut [u8]) -> u32,
    /// Execute.
    pub execute: fn(&[u8], &mut [u8]) -> u32,
    /// Write.
    pub write: fn(&[u8], &mut [u8]) -> u32,
    /// Launch: active, passive, slot.
    pub launch: fn(&[u8], &mut [u8], u32, u32, u32) -> u32,
    /// Close: active, passive, start slot.
    pub close: fn(&[u8], &mut [u8], u32, u32, u32) -> u32,
    /// Reply: passive, choice.
    pub reply: fn(&[u8], &mut [u8], u32, u32) -> u32,
    /// Look: active.
    pub look: fn(&[u8], &[u8], u32, &mut Out) -> u32,
    /// Drop: active.
    pub drop: fn(&[u8], &mut [u8], u32) -> u32,
    /// Entry: router, side, slot.
    pub entry: Entry,
    /// Remaining.
    pub remaining: fn(&[u8], &[u8], &mut Out) -> u32,
}

impl Calls {
    /// Runs a call on a state.
    pub fn run(&self, plan: &[u8], state: &mut [u8], call: Call, out: &mut Out) -> u32 {
        let n = |number: usize| number as u32;
        match call {
            Call::Read => (self.read)(plan, state),
            Call::Execute => (self.execute)(plan, state),
            Call::Write => (self.write)(plan, state),
            Call::Launch { active, passive, slot } => {
                (self.launch)(plan, state, n(active), n(passive), n(slot))
            }
            Call::Close { active, passive, slot } => {
                (self.close)(plan, state, n(active), n(passive), n(slot))
            }
            Call::Reply { passive, choice } => (self.reply)(plan, state, n(passive), n(choice)),
            Call::Look { active } => (self.look)(plan, state, n(active), out),
            Call::Drop { active } => (self.drop)(plan, state, n(active)),
            Call::Entry { router, side, slot } => {
                (self.entry)(plan, state, n(router), n(side), n(slot), out)
            }
            Call::Remaining => (self.remaining)(plan, state, out),
        }
    }
}

/// The same call with numbers of 32 bits, as all calls on slices have them.
pub fn narrow(call: Call) -> Call {
    let n = |number: usize| number as u32 as usize;
    match call {
        Call::Read | Call::Execute | Call::Write | Call::Remaining => call,
        Call::Launch { active, passive, slot } => {
            Call::Launch { active: n(active), passive: n(passive), slot: n(slot) }
        }
        Call::Close { active, passive, slot } => {
            Call::Close { active: n(active), passive: n(passive), slot: n(slot) }
        }
        Call::Reply { passive, choice } => Call::Reply { passive: n(passive), choice: n(choice) },
        Call::Look { active } => Call::Look { active: n(active) },
        Call::Drop { active } => Call::Drop { active: n(active) },
        Call::Entry { router, side, slot } => {
            Call::Entry { router: n(router), side: n(side), slot: n(slot) }
        }
    }
}

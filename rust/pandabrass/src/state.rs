//! A started network and its calls.

use crate::bytes;
use crate::plan::Plan;
use crate::refusal::Refusal;

/// The bytes of a state: what Start left, and then each call.
#[derive(Clone, Debug, PartialEq, Eq)]
pub struct State<'p> {
    plan: &'p Plan,
    bytes: Vec<u8>,
}

/// A packet's kind. SETUP and TDOWN go to the passive, ACK and NACK to the active.
#[derive(Clone, Copy, Debug, PartialEq, Eq, Hash)]
pub enum Kind {
    /// Books a slot at each router.
    Setup,
    /// Frees what a declined set-up or a closed connection had booked.
    Tdown,
    /// The far end accepts.
    Ack,
    /// A router or the far end declines; with hub 0 it is marked.
    Nack,
}

/// A packet.
#[derive(Clone, Copy, Debug, PartialEq, Eq, Hash)]
pub struct Packet {
    /// Its kind.
    pub kind: Kind,
    /// Its active's number.
    pub active: u8,
    /// Its passive's number.
    pub passive: u8,
    /// Its slot.
    pub slot: u8,
    /// How many routers are booked.
    pub hub: u8,
}

/// An entry of the slot table.
#[derive(Clone, Copy, Debug, PartialEq, Eq, Hash)]
pub enum Entry {
    /// Free.
    Free,
    /// The side, 0 to 3, by which the booking came in.
    Booked(u8),
}

/// What is under way, and how long a program that waits may have to wait for it.
#[derive(Clone, Copy, Debug, PartialEq, Eq, Hash)]
pub struct Remaining {
    /// The packets in queues and on wires.
    pub packets: u32,
    /// 256 rounds for each slot and packet: after so many the network is empty, if from a READ on
    /// nothing is launched or closed, and in every WRITE each passive replies that can and each active
    /// drops that can.
    pub rounds: u32,
}

/// What a passive replies.
#[derive(Clone, Copy, Debug, PartialEq, Eq, Hash)]
pub enum Choice {
    /// The head becomes a NACK.
    Decline,
    /// The head becomes an ACK.
    Accept,
}

impl<'p> State<'p> {
    pub(crate) fn new(plan: &'p Plan, bytes: Vec<u8>) -> State<'p> {
        State { plan, bytes }
    }

    /// The plan.
    pub fn plan(&self) -> &'p Plan {
        self.plan
    }

    /// The bytes, by docs/STATE.md. Equal states have equal bytes.
    pub fn bytes(&self) -> &[u8] {
        &self.bytes
    }

    /// The bytes, to be kept.
    pub fn into_bytes(self) -> Vec<u8> {
        self.bytes
    }

    /// Read: each wire's packet joins its queue, each raised flag becomes a credit.
    pub fn read(&mut self) -> Result<(), Refusal> {
        Refusal::result(bytes::read(self.plan.bytes(), &mut self.bytes))
    }

    /// Execute: units handle heads, outputs pick senders, each from the one behind the last served
    /// on, declined set-ups are torn down.
    pub fn execute(&mut self) -> Result<(), Refusal> {
        Refusal::result(bytes::execute(self.plan.bytes(), &mut self.bytes))
    }

    /// Write: each picked head enters its wire, and its output remembers it as the last served; the
    /// slot grows by one.
    pub fn write(&mut self) -> Result<(), Refusal> {
        Refusal::result(bytes::write(self.plan.bytes(), &mut self.bytes))
    }

    /// Launch: a SETUP of this pair, from this slot on, joins the active's out-queue.
    pub fn launch(&mut self, active: u32, passive: u32, slot: u32) -> Result<(), Refusal> {
        let plan = self.plan.bytes();
        Refusal::result(bytes::launch(plan, &mut self.bytes, active, passive, slot))
    }

    /// Close: a connection that was accepted, by the Drop of its ACK, leaves the accepted ones, and
    /// a TDOWN that frees its entries joins the active's out-queue. Its start slot is the one it
    /// was launched with.
    pub fn close(&mut self, active: u32, passive: u32, start: u32) -> Result<(), Refusal> {
        let plan = self.plan.bytes();
        Refusal::result(bytes::close(plan, &mut self.bytes, active, passive, start))
    }

    /// Reply: the head of the passive's in-queue becomes an ACK or a NACK in its out-queue.
    pub fn reply(&mut self, passive: u32, choice: Choice) -> Result<(), Refusal> {
        let plan = self.plan.bytes();
        Refusal::result(bytes::reply(plan, &mut self.bytes, passive, choice as u32))
    }

    /// Look, in every phase: the packet at the head of the active's in-queue, which stays there. A
    /// NACK is seen unmarked too, and after a Drop the next head is.
    pub fn look(&self, active: u32) -> Result<Packet, Refusal> {
        let mut out = [0; 8];
        let plan = self.plan.bytes();
        Refusal::result(bytes::look(plan, &self.bytes, active, &mut out))?;
        let [kind, active, passive, slot, hub, ..] = out;
        Ok(Packet { kind: Kind::of(kind), active, passive, slot, hub })
    }

    /// Drop, in WRITE: the packet at the head of the active's in-queue, the one that a Look just
    /// before gives, leaves it, and the active's allowance grows by one. Where it is an ACK, its
    /// connection is accepted from then on, and can be closed. One packet a round.
    ///
    /// This is the documents' Drop and takes the active's number; it has nothing to do with the
    /// trait `Drop` and the function `drop`, which end a value.
    pub fn drop(&mut self, active: u32) -> Result<(), Refusal> {
        Refusal::result(bytes::drop(self.plan.bytes(), &mut self.bytes, active))
    }

    /// Entry: what the slot table holds for a router's side and slot.
    pub fn entry(&self, router: u32, side: u32, slot: u32) -> Result<Entry, Refusal> {
        let mut out = [0; 8];
        let plan = self.plan.bytes();
        Refusal::result(bytes::entry(plan, &self.bytes, router, side, slot, &mut out))?;
        Ok(if out[0] == 4 { Entry::Free } else { Entry::Booked(out[0]) })
    }

    /// Remaining, in every phase: what is under way, and by which round it is gone. Nothing changes.
    ///
    /// Before a wash a program stops launching and closing, and waits. On plan T a set-up is under
    /// way; with two slots the network is empty after at most 512 rounds, here after eight.
    ///
    /// ```
    /// use pandabrass::{Choice, Entry, Plan, Refusal, Remaining};
    ///
    /// let plan = Plan::load(&[0x08, 0x42, 0x11, 0x24, 0x92, 0x4C, 0x06, 0x00, 0x00, 0x00, 0x20])?;
    /// let mut state = plan.start();
    /// state.launch(0, 0, 0)?;
    /// let promised = state.remaining()?;
    /// assert_eq!(promised, Remaining { packets: 1, rounds: 512 });
    /// let mut rounds = 0;
    /// while state.remaining()?.packets > 0 {
    ///     state.read()?;
    ///     state.execute()?;
    ///     // Whoever can, does; where nothing waits the call is refused, and alters nothing.
    ///     let _ = state.reply(0, Choice::Accept);
    ///     let _ = state.drop(0);
    ///     state.write()?;
    ///     rounds += 1;
    /// }
    /// assert!(rounds == 8 && rounds <= promised.rounds);
    /// // The table is the accepted connection's own.
    /// assert_eq!(state.entry(0, 1, 0)?, Entry::Booked(0));
    /// # Ok::<(), Refusal>(())
    /// ```
    pub fn remaining(&self) -> Result<Remaining, Refusal> {
        let mut out = [0; 8];
        Refusal::result(bytes::remaining(self.plan.bytes(), &self.bytes, &mut out))?;
        Ok(Remaining::from(out))
    }
}

impl AsRef<[u8]> for State<'_> {
    fn as_ref(&self) -> &[u8] {
        &self.bytes
    }
}

impl From<bytes::Out> for Remaining {
    /// What an accepted `bytes::remaining` has put into its eight bytes.
    fn from(out: bytes::Out) -> Remaining {
        let both = u64::from_le_bytes(out);
        Remaining { packets: both as u32, rounds: (both >> 32) as u32 }
    }
}

impl Kind {
    /// The kind of that byte.
    fn of(byte: u8) -> Kind {
        match byte {
            0 => Kind::Setup,
            1 => Kind::Tdown,
            2 => Kind::Ack,
            3 => Kind::Nack,
            _ => unreachable!("the library returns kinds 0 to 3"),
        }
    }
}

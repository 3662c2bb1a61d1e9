//! Rules that students write instead of those of documents 01 and 02, each a switch of its own.

/// Which rules a network runs by. None set: the documents' own.
///
/// Under another rule a network comes to states that the documents do not know, so then no call is
/// refused with 7 for what its state holds.
#[derive(Clone, Copy, Debug, Default, PartialEq, Eq)]
pub struct Rules {
    /// A router that declines says hub 0: the NACK is marked at once and no TDOWN follows.
    pub declined_leaves_nothing: bool,
    /// The TDOWN has one more than the NACK's hub: it also frees at the router that declined.
    pub tear_down_one_too_far: bool,
    /// A set-up books the last free entry of a side too.
    pub last_free_booked: bool,
    /// The TDOWN's slot is slot minus hub without the modulus, 0 where hub is the greater.
    pub slot_minus_hub_unwrapped: bool,
    /// The allowance grows when the NACK is marked, not when it is dropped.
    pub allowance_at_the_mark: bool,
    /// A queue's credit grows when a packet arrives, not after one has left.
    pub credit_at_the_arrival: bool,
    /// A Close makes a TDOWN with one more than the routers on the walk.
    pub close_one_too_far: bool,
    /// A Close frees the connection's entries at once; no TDOWN is made, and none needs room.
    pub close_clears_at_once: bool,
    /// A Close frees the connection's entries at once, and its TDOWN is sent all the same.
    pub close_frees_early: bool,
    /// A closed connection stays accepted until its TDOWN has ended.
    pub accepted_until_torn_down: bool,
    /// A connection is accepted when its ACK joins the active's in-queue, not when it is dropped.
    pub accepted_at_the_arrival: bool,
    /// An output always asks its senders from the first in order on, as before request (b).
    pub lowest_first: bool,
    /// An output asks the sender that it served last first, and then the others.
    pub same_one_again: bool,
    /// In a round in which its entry is booked, a side's turn goes on by one though nobody is served.
    pub turn_lost_when_booked: bool,
    /// A Look raises the in-queue's flag, as if the head had left.
    pub look_raises_the_flag: bool,
    /// A Drop removes the head and then looks at the head for whom to accept: at the next one, where
    /// there is one.
    pub next_head_accepted: bool,
    /// A connection is accepted when its ACK is looked at, not when it is dropped.
    pub accepted_at_the_look: bool,
    /// The allowance grows when an answer is looked at, not when it is dropped.
    pub allowance_at_the_look: bool,
    /// A unit handles one head in a round, that of the first Q that has one which is not handled.
    pub one_head_a_unit: bool,
    /// A unit handles the head of side 3 first and that of side 0 last.
    pub highest_side_first: bool,
    /// A side's order is answer F, set-up F, then K.
    pub answers_before_set_ups: bool,
    /// A unit sends the head of the lowest side that has a candidate, whoever sent last.
    pub unit_sends_lowest_first: bool,
}

impl Rules {
    /// Whether these are the documents' own.
    pub fn are_the_documents(&self) -> bool {
        *self == Rules::default()
    }
}

//! Plan bytes that load.

use crate::bytes;
use crate::refusal::Refusal;
use crate::state::State;

/// A plan that Load does not refuse.
#[derive(Clone, Debug, PartialEq, Eq)]
pub struct Plan {
    bytes: Vec<u8>,
    size: usize,
}

impl Plan {
    /// Load.
    ///
    /// ```
    /// use pandabrass::{Plan, Refusal};
    ///
    /// assert_eq!(Plan::load(&[0x08, 0x42]).unwrap_err(), Refusal::TooShort);
    /// ```
    pub fn load(bytes: &[u8]) -> Result<Plan, Refusal> {
        Refusal::result(bytes::load(bytes))?;
        Ok(Plan { bytes: bytes.to_vec(), size: bytes::size(bytes) as usize })
    }

    /// The plan bytes.
    pub fn bytes(&self) -> &[u8] {
        &self.bytes
    }

    /// How many bytes a state of this plan has.
    pub fn state_size(&self) -> usize {
        self.size
    }

    /// The number of routers on the walk of a pair, if both numbers are in range and it is served.
    pub fn walk(&self, active: u32, passive: u32) -> Option<u32> {
        let routers = bytes::walk(&self.bytes, active, passive);
        (routers > 0).then_some(routers)
    }

    /// Start.
    pub fn start(&self) -> State<'_> {
        let mut bytes = vec![0; self.size];
        let answer = bytes::start(&self.bytes, &mut bytes);
        assert_eq!(answer, 0, "Start is accepted: the plan loads and the buffer is long enough");
        State::new(self, bytes)
    }

    /// Goes on from the bytes of a state that was kept; [`Refusal::NotState`] if they are not a
    /// state of this plan. Bytes past the state are dropped.
    pub fn resume(&self, bytes: &[u8]) -> Result<State<'_>, Refusal> {
        let kept = bytes.get(..self.size).ok_or(Refusal::NotState)?;
        let state = State::new(self, kept.to_vec());
        // Entry is accepted in every phase, and every plan has this entry.
        state.entry(0, 0, 0)?;
        Ok(state)
    }
}

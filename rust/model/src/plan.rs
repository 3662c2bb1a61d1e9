//! A plan that obeys every plan rule.

use crate::feeding::{Feeding, Split};
use crate::fields::{Capacities, Fields, Joint};
use crate::refusal::{JOINT, RING};

/// A side of a router.
#[derive(Clone, Copy, Debug, PartialEq, Eq)]
pub struct Port {
    /// The router's number.
    pub router: usize,
    /// The side, 0 to 3.
    pub side: usize,
}

/// A plan whose joints fit together; the one side of each interface is found once.
#[derive(Clone, Debug, PartialEq, Eq)]
pub struct Plan {
    fields: Fields,
    actives: Vec<Port>,
    passives: Vec<Port>,
}

impl Plan {
    /// Load: the plan, or the number of the first refusal, 1 to 6, that applies.
    pub fn load(bytes: &[u8]) -> Result<Plan, u32> {
        let plan = Plan::join(Fields::read(bytes)?)?;
        // "A loadable plan has no ring of feeding queues."
        if Feeding::of(&plan).has_ring() {
            return Err(RING);
        }
        Ok(plan)
    }

    /// Whether this plan, which loads, had a ring before Q and F were split: set-ups cross in it.
    pub fn is_crossing(&self) -> bool {
        Feeding::with_split(self, Split::NEITHER).has_ring()
    }

    /// "A router joint not named back, a joint to the same router, or an interface without exactly
    /// one joint": 5.
    pub fn join(fields: Fields) -> Result<Plan, u32> {
        let mut actives = vec![None; fields.actives];
        let mut passives = vec![None; fields.passives];
        for (router, record) in fields.routers.iter().enumerate() {
            for (side, &joint) in record.joints.iter().enumerate() {
                let port = Port { router, side };
                let fits = match joint {
                    Joint::Nothing => true,
                    Joint::Router { router: partner, side: back } => {
                        partner != router && fields.routers[partner].joints[back] == port.joint()
                    }
                    Joint::Active(number) => actives[number].replace(port).is_none(),
                    Joint::Passive(number) => passives[number].replace(port).is_none(),
                };
                if !fits {
                    return Err(JOINT);
                }
            }
        }
        let actives = actives.into_iter().collect::<Option<Vec<_>>>().ok_or(JOINT)?;
        let passives = passives.into_iter().collect::<Option<Vec<_>>>().ok_or(JOINT)?;
        Ok(Plan { fields, actives, passives })
    }

    /// The plan bytes of this plan.
    pub fn encode(&self) -> Vec<u8> {
        self.fields.encode()
    }

    /// What the plan bytes say.
    pub fn fields(&self) -> &Fields {
        &self.fields
    }

    /// R.
    pub fn routers(&self) -> usize {
        self.fields.routers.len()
    }

    /// A.
    pub fn actives(&self) -> usize {
        self.actives.len()
    }

    /// P.
    pub fn passives(&self) -> usize {
        self.passives.len()
    }

    /// S.
    pub fn slots(&self) -> usize {
        self.fields.slots
    }

    /// The eight capacities.
    pub fn capacities(&self) -> &Capacities {
        &self.fields.capacities
    }

    /// What that side is joined to.
    pub fn joint(&self, port: Port) -> Joint {
        self.fields.routers[port.router].joints[port.side]
    }

    /// The side of the router that an active is joined to.
    pub fn active_port(&self, active: usize) -> Port {
        self.actives[active]
    }

    /// The side of the router that a passive is joined to.
    pub fn passive_port(&self, passive: usize) -> Port {
        self.passives[passive]
    }
}

impl Port {
    /// The joint by which a partner names this side.
    pub fn joint(self) -> Joint {
        Joint::Router { router: self.router, side: self.side }
    }
}

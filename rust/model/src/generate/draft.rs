//! A plan under construction.

use std::collections::VecDeque;

use crate::fields::{Capacities, Fields, Joint, Router, SIDES};
use crate::plan::Port;

/// Fields that grow joint by joint and route by route.
#[derive(Clone, Debug)]
pub struct Draft {
    fields: Fields,
}

impl Draft {
    /// Routers with no joint and no route, all capacities alike.
    pub fn new(routers: usize, slots: usize, capacity: usize) -> Self {
        let router = Router {
            joints: [Joint::Nothing; SIDES],
            to_active: Vec::new(),
            to_passive: Vec::new(),
        };
        let capacities = Capacities::from_array([capacity; 8]);
        let routers = vec![router; routers];
        Draft { fields: Fields { actives: 0, passives: 0, slots, capacities, routers } }
    }

    /// Sets the eight capacities, in the order of the plan bytes.
    pub fn capacities(&mut self, capacities: [usize; 8]) -> &mut Self {
        self.fields.capacities = Capacities::from_array(capacities);
        self
    }

    /// Joins two routers: each side names the other.
    pub fn join(
        &mut self,
        (router, side): (usize, usize),
        (other, back): (usize, usize),
    ) -> &mut Self {
        self.fields.routers[router].joints[side] = Joint::Router { router: other, side: back };
        self.fields.routers[other].joints[back] = Joint::Router { router, side };
        self
    }

    /// Joins the next active to that side.
    pub fn active(&mut self, router: usize, side: usize) -> &mut Self {
        self.fields.routers[router].joints[side] = Joint::Active(self.fields.actives);
        self.fields.actives += 1;
        self.fields.routers.iter_mut().for_each(|router| router.to_active.push(None));
        self
    }

    /// Joins the next passive to that side.
    pub fn passive(&mut self, router: usize, side: usize) -> &mut Self {
        self.fields.routers[router].joints[side] = Joint::Passive(self.fields.passives);
        self.fields.passives += 1;
        self.fields.routers.iter_mut().for_each(|router| router.to_passive.push(None));
        self
    }

    /// The side given for an active at a router.
    pub fn route_active(&mut self, router: usize, active: usize, side: usize) -> &mut Self {
        self.fields.routers[router].to_active[active] = Some(side);
        self
    }

    /// The side given for a passive at a router.
    pub fn route_passive(&mut self, router: usize, passive: usize, side: usize) -> &mut Self {
        self.fields.routers[router].to_passive[passive] = Some(side);
        self
    }

    /// Gives every router the side of a shortest path to every interface it can reach.
    pub fn shortest_routes(&mut self) -> &mut Self {
        for router in 0..self.fields.routers.len() {
            for side in 0..SIDES {
                match self.fields.routers[router].joints[side] {
                    Joint::Active(number) => {
                        for Port { router, side } in self.paths_to(Port { router, side }) {
                            self.route_active(router, number, side);
                        }
                    }
                    Joint::Passive(number) => {
                        for Port { router, side } in self.paths_to(Port { router, side }) {
                            self.route_passive(router, number, side);
                        }
                    }
                    Joint::Nothing | Joint::Router { .. } => {}
                }
            }
        }
        self
    }

    /// For each router that reaches `goal`, the side by which a shortest path leaves it.
    fn paths_to(&self, goal: Port) -> Vec<Port> {
        let mut known = vec![false; self.fields.routers.len()];
        known[goal.router] = true;
        let mut exits = vec![goal];
        let mut border = VecDeque::from([goal.router]);
        while let Some(router) = border.pop_front() {
            for joint in self.fields.routers[router].joints {
                if let Joint::Router { router, side } = joint {
                    if !std::mem::replace(&mut known[router], true) {
                        exits.push(Port { router, side });
                        border.push_back(router);
                    }
                }
            }
        }
        exits
    }

    /// The sides of a router that are joined to nothing.
    pub fn free_sides(&self, router: usize) -> Vec<usize> {
        let joints = self.fields.routers[router].joints;
        (0..SIDES).filter(|&side| joints[side] == Joint::Nothing).collect()
    }

    /// All sides that are joined to nothing.
    pub fn free_ports(&self) -> Vec<Port> {
        let routers = 0..self.fields.routers.len();
        let ports =
            |router| self.free_sides(router).into_iter().map(move |side| Port { router, side });
        routers.flat_map(ports).collect()
    }

    /// The fields, to be changed by hand.
    pub fn fields_mut(&mut self) -> &mut Fields {
        &mut self.fields
    }

    /// The fields as they are now.
    pub fn fields(&self) -> &Fields {
        &self.fields
    }

    /// The plan bytes.
    pub fn encode(&self) -> Vec<u8> {
        self.fields.encode()
    }
}

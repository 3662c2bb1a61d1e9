//! Plans of the evaluated runs that are not among the named ones; `runs.rs` compares their bytes.

use model::generate::Draft;
use model::named;

/// The router of `narrow_there` with room for one in each Q.
pub fn narrow_unit() -> Draft {
    let mut draft = named::narrow_there();
    draft.capacities([6, 7, 4, 1, 3, 5, 2, 4]);
    draft
}

/// Three routers, each joined to the two others, S=16; router 2 sends to active 1 by router 0. So by
/// side 1 of router 0 go set-ups, of active 0 to passive 0, and answers, of passive 1 to active 1.
pub fn long_way_back() -> Draft {
    let mut draft = Draft::new(3, 16, 4);
    draft.capacities([4, 4, 4, 3, 3, 2, 4, 2]);
    draft.join((0, 1), (1, 0)).join((0, 2), (2, 1)).join((1, 1), (2, 0));
    draft.active(0, 0).active(1, 2).passive(1, 3).passive(2, 2);
    draft.shortest_routes().route_active(2, 1, 1);
    draft
}

/// One router, S=4: actives at sides 0 and 1, a passive at side 2.
pub fn two_to_one() -> Draft {
    let mut draft = Draft::new(1, 4, 1);
    draft.capacities([3, 3, 2, 2, 1, 1, 1, 1]);
    draft.active(0, 0).active(0, 1).passive(0, 2).shortest_routes();
    draft
}

/// The crossing plan with room for two at an active.
pub fn wider_crossing() -> Draft {
    let mut draft = named::crossing_four_slots();
    draft.capacities([2, 2, 1, 1, 1, 1, 1, 1]);
    draft
}

/// A line of three with sensors and drives on each end, S=8. Router 0 is in the middle, with actives 0
/// and 1 at sides 0 and 1; at router 1 are active 2 and passive 0, at router 2 active 3 and passive 1.
pub fn line_of_three() -> Draft {
    let mut draft = Draft::new(3, 8, 1);
    draft.capacities([2, 2, 2, 1, 1, 1, 2, 1]);
    draft.join((0, 2), (1, 0)).join((0, 3), (2, 0)).active(0, 0).active(0, 1);
    draft.active(1, 1).passive(1, 2).active(2, 1).passive(2, 2).shortest_routes();
    draft
}

/// Three routers, S=8. Router 0 is in the middle, with passives 0 and 1 at sides 0 and 1; at router 1
/// are active 0 and passive 2, at router 2 active 1 and passive 3.
pub fn drives_around() -> Draft {
    let mut draft = Draft::new(3, 8, 2);
    draft.capacities([4, 4, 2, 2, 2, 2, 2, 1]);
    draft.join((0, 2), (2, 0)).join((0, 3), (1, 0)).passive(0, 0).passive(0, 1);
    draft.active(1, 1).passive(1, 2).active(2, 1).passive(2, 2).shortest_routes();
    draft
}

/// The crossing plan with S=8 and room for four at an active.
pub fn roomy_crossing() -> Draft {
    let mut draft = named::crossing_four_slots();
    draft.fields_mut().slots = 8;
    draft.capacities([4, 4, 1, 1, 1, 1, 1, 1]);
    draft
}

/// The router of `narrow_there` with room for one in each F.
pub fn narrow_side() -> Draft {
    let mut draft = named::narrow_there();
    draft.capacities([6, 7, 4, 3, 1, 5, 1, 4]);
    draft
}

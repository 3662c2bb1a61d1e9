//! The plans of the pages.

use model::generate::{crossing, good, Draft, Random};
use model::named;
use trace::{Names, Plan};

/// A plan with names for its actives and passives, and routers by number.
fn named_plan(draft: &Draft, routers: &[&str], actives: &[&str], passives: &[&str]) -> Plan {
    let fields = draft.fields();
    let mut names = Names::numbered(fields.routers.len(), fields.actives, fields.passives);
    let sets = [(&mut names.routers, routers), (&mut names.actives, actives)];
    for (list, given) in sets.into_iter().chain([(&mut names.passives, passives)]) {
        for (name, given) in list.iter_mut().zip(given) {
            *name = given.to_string();
        }
    }
    Plan::load(&draft.encode(), names).expect("the plan loads")
}

/// Plan T.
pub fn t() -> Plan {
    named_plan(&named::plan_t(), &[], &["camera"], &["drive"])
}

/// Two routers; the second has an active of its own, so that it can decline.
pub fn two_routers() -> Plan {
    named_plan(&named::declining(), &[], &["camera", "force"], &["drive"])
}

/// Three routers in a line, three sensors, two drives.
pub fn arm() -> Plan {
    let mut draft = Draft::new(3, 8, 2);
    draft.capacities([2, 2, 2, 3, 2, 2, 2, 2]);
    draft.join((0, 1), (1, 0)).join((1, 1), (2, 0));
    draft.active(0, 0).active(1, 2).active(2, 3).passive(2, 1).passive(2, 2).shortest_routes();
    let routers = ["foot", "shoulder", "wrist"];
    named_plan(&draft, &routers, &["camera", "force", "lidar"], &["drive", "valve"])
}

/// The double-box arm: four routers in a line, two sensors, a drive and a valve at each end.
pub fn double_box() -> Plan {
    let mut draft = Draft::new(4, 8, 2);
    draft.join((0, 1), (1, 0)).join((1, 1), (2, 0)).join((2, 1), (3, 0));
    draft.active(0, 0).active(0, 2).active(3, 1).active(3, 2);
    draft.passive(0, 3).passive(1, 2).passive(3, 3).passive(2, 2).shortest_routes();
    let actives = ["camera1", "force1", "camera2", "force2"];
    let passives = ["drive1", "valve1", "drive2", "valve2"];
    named_plan(&draft, &["box1", "arm1", "arm2", "box2"], &actives, &passives)
}

/// Three times three routers; actives left and above, passives below and right.
pub fn mesh() -> Plan {
    let mut draft = Draft::new(9, 8, 2);
    for row in 0..3 {
        for column in 0..3 {
            let router = 3 * row + column;
            if column < 2 {
                draft.join((router, 0), (router + 1, 2));
            }
            if row < 2 {
                draft.join((router, 1), (router + 3, 3));
            }
        }
    }
    let (actives, passives) = ([(0, 2), (0, 3), (3, 2), (6, 2)], [(6, 1), (7, 1), (8, 1), (8, 0)]);
    for number in 0..4 {
        draft.active(actives[number].0, actives[number].1);
        draft.passive(passives[number].0, passives[number].1);
    }
    // Along the row first, then along the column, so that set-ups never cross.
    for router in 0..9 {
        for number in 0..4 {
            draft.route_active(router, number, side_towards(router, actives[number]));
            draft.route_passive(router, number, side_towards(router, passives[number]));
        }
    }
    named_plan(&draft, &[], &[], &[])
}

/// The side of a mesh router towards an interface at `goal` and its side.
fn side_towards(router: usize, (goal, side): (usize, usize)) -> usize {
    let ((row, column), (to_row, to_column)) = ((router / 3, router % 3), (goal / 3, goal % 3));
    match (column.cmp(&to_column), row.cmp(&to_row)) {
        (std::cmp::Ordering::Less, _) => 0,
        (std::cmp::Ordering::Greater, _) => 2,
        (_, std::cmp::Ordering::Less) => 1,
        (_, std::cmp::Ordering::Greater) => 3,
        _ => side,
    }
}

/// One router in the middle of three others.
pub fn star() -> Plan {
    named_plan(&named::four_routers(), &["middle"], &[], &[])
}

/// One router with two actives and two passives.
pub fn one_router() -> Plan {
    let mut draft = Draft::new(1, 8, 2);
    draft.capacities([4, 4, 2, 2, 2, 2, 2, 2]);
    draft.active(0, 0).active(0, 1).passive(0, 2).passive(0, 3).shortest_routes();
    named_plan(&draft, &[], &["left", "right"], &["drive", "valve"])
}

/// The largest plan.
pub fn largest() -> Plan {
    named_plan(&named::largest(), &[], &[], &[])
}

/// Plans of all sizes and forms, every other one with set-ups that cross, the same each time.
pub fn random(count: usize) -> Vec<Plan> {
    let mut random = Random::new(77);
    let plan = |number| {
        let bytes = match number % 2 {
            0 => good::loadable(&mut random).encode(),
            _ => crossing::any(&mut random).encode(),
        };
        let fields = trace::Fields::read(&bytes).expect("the plan can be read");
        let names = Names::numbered(fields.joints.len(), fields.actives, fields.passives);
        Plan::load(&bytes, names).expect("the plan loads")
    };
    (0..count).map(plan).collect()
}

//! Load on the runs of document 01, on the named plans and on random ones.

use model::generate::{crossing, damage, good, rings, Random};
use model::machine::Network;
use model::{named, Class, Feeding, Fields, Hop, Interface, Plan, Port, Queue, Split};

fn answer(bytes: &[u8]) -> u32 {
    Plan::load(bytes).err().unwrap_or(0)
}

fn built(draft: &model::generate::Draft) -> Plan {
    Plan::load(&draft.encode()).expect("loads")
}

#[test]
fn starred_runs_of_load() {
    assert_eq!(answer(&named::T), 0);
    assert_eq!(answer(&named::T[..5]), 1);
    assert_eq!(answer(&[&named::T[..], &[0]].concat()), 3);
    let mut bytes = named::T;
    bytes[10] = 0x21;
    assert_eq!(answer(&bytes), 3);
    let mut bytes = named::T;
    bytes[0] = 0;
    assert_eq!(answer(&bytes), 2);
    // Document 01's last run: "set-ups crossing both ways: 6". Since document 02 (i) it loads.
    assert_eq!(answer(&named::crossing().encode()), 0);
}

fn ring(plan: &Plan, q: bool, f: bool) -> bool {
    Feeding::with_split(plan, Split { q, f }).has_ring()
}

/// "Split Q by incoming side, and F[o] into one queue for set-ups and tear-downs and one for answers":
/// with one of the two the crossing plan is refused as before.
#[test]
fn crossing_needs_both_splits() {
    for draft in [named::crossing(), named::crossing_four_slots(), crossing::line(5, 8, 2)] {
        let plan = built(&draft);
        assert!(plan.is_crossing());
        let rings = [(true, true), (true, false), (false, true), (false, false)];
        assert_eq!(rings.map(|(q, f)| ring(&plan, q, f)), [false, true, true, true]);
    }
}

/// "Refusal 6 keeps its condition over these queues": three routers, all set-ups one way round.
#[test]
fn set_ups_around_a_ring_do_not_load() {
    for routers in 3..=16 {
        let draft = rings::set_ups_around(routers, 4, 1);
        assert_eq!(answer(&draft.encode()), 6);
        let plan = Plan::join(draft.fields().clone()).expect("joints fit");
        let feeding = Feeding::of(&plan);
        assert_eq!(feeding.rings(), [true, false]);
        for router in 0..routers {
            let (next, class) = ((router + 1) % routers, Class::SetUps);
            let [f, on] = [router, next].map(|router| Queue::F { router, class, to: 0 });
            let (u, q) = (Queue::U { router: next, from: 1 }, Queue::Q { router: next, from: 1 });
            assert!(feeding.feeds(f, u) && feeding.feeds(u, q) && feeding.feeds(q, on));
        }
    }
}

/// Every plan that loaded before loads; of those that did not, most load now.
#[test]
fn plans_that_loaded_before_load() {
    let mut random = Random::new(43);
    let [mut loaded, mut load_now, mut rings] = [0; 3];
    let [mut only_q, mut only_f] = [0; 2];
    for turn in 0..6_000 {
        let fields = match turn % 3 {
            0 => rings::ringed(&mut random),
            _ => good::joined(&mut random),
        };
        let plan = Plan::join(fields).expect("joined");
        let (now, before) = (ring(&plan, true, true), ring(&plan, false, false));
        assert!(before || !now, "{:02X?}", plan.encode());
        loaded += usize::from(!before);
        load_now += usize::from(before && !now);
        rings += usize::from(now);
        only_q += usize::from(!now && ring(&plan, true, false));
        only_f += usize::from(!now && ring(&plan, false, true));
    }
    println!("loaded {loaded}, load now {load_now}, rings {rings}; only Q {only_q}, F {only_f}");
    assert!([loaded, load_now, rings, only_q, only_f].iter().all(|&count| count > 300));
}

/// Each loads now and did not before; several shapes and sizes are among them.
#[test]
fn crossing_plans_cross() {
    let mut random = Random::new(44);
    let mut sizes = [0; 17];
    for turn in 0..600 {
        let plan = if turn % 2 == 0 { crossing::any } else { crossing::crowded };
        let plan = plan(&mut random);
        assert!(plan.is_crossing() && answer(&plan.encode()) == 0);
        sizes[plan.routers()] += 1;
    }
    assert!(sizes[2..].iter().all(|&count| count > 3), "{sizes:?}");
}

#[test]
fn plan_t_says_what_document_01_says() {
    assert_eq!(named::plan_t().encode(), named::T);
    let plan = Plan::load(&named::T).expect("loads");
    assert_eq!((plan.routers(), plan.actives(), plan.passives(), plan.slots()), (1, 1, 1, 2));
    assert_eq!(plan.capacities().to_array(), [1; 8]);
    assert_eq!(plan.active_port(0), Port { router: 0, side: 0 });
    assert_eq!(plan.passive_port(0), Port { router: 0, side: 1 });
    assert_eq!(plan.walk(0, 0), Some(vec![Hop { router: 0, came_in: 0, side: 1 }]));
    assert!(plan.served(0, 0));
}

#[test]
fn named_plans_give_their_answers() {
    for plan in named::all() {
        assert_eq!(answer(&plan.bytes), plan.answer, "{}", plan.name);
    }
}

#[test]
fn each_refusal_is_named_at_least_twice() {
    for number in 0..=6 {
        assert!(named::all().iter().filter(|plan| plan.answer == number).count() >= 2);
    }
}

#[test]
fn the_largest_plan_serves_every_pair() {
    let bytes = named::largest().encode();
    assert_eq!(bytes.len(), 262);
    let plan = built(&named::largest());
    assert_eq!((plan.routers(), plan.actives(), plan.passives()), (16, 16, 16));
    assert!((0..16).all(|active| (0..16).all(|passive| plan.served(active, passive))));
    assert_eq!(plan.walk(0, 15).map(|walk| walk.len()), Some(16));
}

#[test]
fn four_routers_serve_nine_pairs() {
    let plan = built(&named::four_routers());
    assert!((0..3).all(|active| (0..3).all(|passive| plan.served(active, passive))));
    let walk = [(1, 0, 3), (0, 0, 2), (3, 3, 0)];
    let hops = walk.map(|(router, came_in, side)| Hop { router, came_in, side });
    assert_eq!(plan.walk(0, 2), Some(hops.to_vec()));
}

#[test]
fn a_pair_needs_a_way_back_from_each_router() {
    let plan = named::all().into_iter().find(|plan| plan.name == "way-back-missing");
    let plan = Plan::load(&plan.expect("named").bytes).expect("loads");
    assert_eq!(plan.walk(0, 0).map(|walk| walk.len()), Some(2));
    assert!(!plan.served(0, 0));
}

#[test]
fn answers_take_another_joint_than_set_ups() {
    let plan = built(&named::parallel_joints());
    assert!(plan.served(0, 0));
    let back = [Port { router: 1, side: 3 }, Port { router: 0, side: 2 }];
    assert_eq!(plan.way(1, Interface::Active(0)), Some(back.to_vec()));
    let feeding = Feeding::of(&plan);
    let k = Queue::K { router: 0, from: 1, to: 2 };
    assert!(feeding.feeds(Queue::F { router: 1, class: Class::Answers, to: 3 }, k));
    assert!(!feeding.feeds(Queue::F { router: 1, class: Class::SetUps, to: 3 }, k));
    assert!(feeding.feeds(k, Queue::ActiveIn(0)));
    assert!(!feeding.feeds(Queue::ActiveIn(0), Queue::ActiveOut(0)));
}

#[test]
fn feeding_in_plan_t_is_exactly_this() {
    let plan = Plan::load(&named::T).expect("loads");
    let feeding = Feeding::of(&plan);
    let u = Queue::U { router: 0, from: 0 };
    let q = Queue::Q { router: 0, from: 0 };
    let to_active = Queue::F { router: 0, class: Class::Answers, to: 0 };
    let to_passive = Queue::F { router: 0, class: Class::SetUps, to: 1 };
    let k = Queue::K { router: 0, from: 1, to: 0 };
    let (out, answers) = (Queue::ActiveOut(0), Queue::ActiveIn(0));
    let (arrivals, replies) = (Queue::PassiveIn(0), Queue::PassiveOut(0));
    let edges = [
        (out, u),
        (u, q),
        (q, to_passive),
        (to_passive, arrivals),
        (replies, k),
        (k, answers),
        (q, to_active),
        (to_active, answers),
    ];
    let network = Network::of(plan.clone());
    for &x in network.queues() {
        for &y in network.queues() {
            assert_eq!(feeding.feeds(x, y), edges.contains(&(x, y)), "{x:?} {y:?}");
        }
    }
}

#[test]
fn answers_alone_make_the_ring_of_five() {
    let plan = Plan::join(named::answers_ring().fields().clone()).expect("joints fit");
    let feeding = Feeding::of(&plan);
    for router in 0..5 {
        let k = |router: usize| Queue::K { router: router % 5, from: 1, to: 0 };
        assert!(feeding.feeds(k(router), k(router + 1)), "{router}");
    }
    for pair in [[0, 2], [0, 3], [2, 3]] {
        assert_eq!(answer(&rings::answers_around(5, &pair, 4, 1).encode()), 0);
    }
}

#[test]
fn encoding_and_reading_agree() {
    let mut random = Random::new(1);
    for _ in 0..5_000 {
        let fields = good::joined(&mut random);
        assert_eq!(Fields::read(&fields.encode()), Ok(fields.clone()));
        let plan = good::loadable(&mut random);
        assert_eq!(Plan::load(&plan.encode()), Ok(plan));
    }
}

#[test]
fn generated_plans_are_of_all_sizes_and_fates() {
    let mut random = Random::new(2);
    let mut answers = [0; 7];
    let mut sizes = [[false; 17]; 3];
    let mut slots = [false; 33];
    let mut pairs = [0; 2];
    for _ in 0..20_000 {
        let plan = good::loadable(&mut random);
        sizes[0][plan.routers()] = true;
        sizes[1][plan.actives()] = true;
        sizes[2][plan.passives()] = true;
        slots[plan.slots()] = true;
        pairs[usize::from(plan.served(0, plan.passives() - 1))] += 1;
        let fields = good::joined(&mut random);
        answers[answer(&fields.encode()) as usize] += 1;
        for damage in damage::ALL {
            answers[answer(&damage::damaged(&mut random, &fields, damage)) as usize] += 1;
        }
        answers[answer(&damage::noise(&mut random)) as usize] += 1;
        answers[answer(&damage::headed_noise(&mut random, &fields)) as usize] += 1;
        answers[answer(&rings::ringed(&mut random).encode()) as usize] += 1;
    }
    assert!(sizes.iter().all(|sizes| sizes[1..].iter().all(|&met| met)));
    assert!(slots[2..].iter().all(|&met| met));
    assert!(pairs.iter().all(|&count| count > 1_000), "{pairs:?}");
    assert!(answers.iter().all(|&count| count > 1_000), "{answers:?}");
    println!("answers {answers:?}, pairs unserved and served {pairs:?}");
}

#[test]
fn rings_are_of_set_ups_or_of_answers() {
    let mut random = Random::new(41);
    for turn in 0..2_000 {
        let fields =
            if turn % 2 == 0 { good::joined(&mut random) } else { rings::ringed(&mut random) };
        let plan = Plan::join(fields).expect("joined");
        let feeding = Feeding::of(&plan);
        assert_eq!(feeding.has_ring(), feeding.rings().contains(&true));
    }
    for answers in [false, true] {
        for _ in 0..200 {
            assert_eq!(answer(&rings::of_one_kind(&mut random, answers).encode()), 6);
            assert_eq!(answer(&rings::near_miss(&mut random, answers).encode()), 0);
        }
    }
}

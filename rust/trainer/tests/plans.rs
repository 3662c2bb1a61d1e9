//! Random plans: text and bytes give each other exactly, and every refusal has its place.

mod common;

use model::generate::{damage, good, rings, Random};
use trace::{Heading, Port};
use trainer::plan::{decode, faults, PlanFile};

/// Decoding gives a text that encodes to the same bytes.
fn round_trip(bytes: &[u8]) {
    let file = PlanFile::of_bytes("", bytes.to_vec());
    let text = decode::text(bytes, Some(&file.names));
    let again = PlanFile::of_contents("", text.clone().into_bytes());
    let again = again.unwrap_or_else(|unread| panic!("{}\n{text}", unread.show()));
    assert_eq!(again.bytes, bytes, "{text}");
}

#[test]
fn text_and_bytes_give_each_other() {
    let mut random = Random::new(20);
    let mut statements = 0;
    for _ in 0..300 {
        let fields = good::joined(&mut random);
        let bytes = fields.encode();
        round_trip(&bytes);
        statements += usize::from(!decode::text(&bytes, None).contains("bytes"));
        round_trip(&rings::ringed(&mut random).encode());
        for kind in damage::ALL {
            round_trip(&damage::damaged(&mut random, &fields, kind));
        }
        round_trip(&damage::noise(&mut random));
    }
    assert_eq!(statements, 300, "what loads is told by statements");
    for (name, bytes) in [("empty", vec![]), ("one", vec![8])] {
        let text = decode::text(&bytes, None);
        let again = PlanFile::of_contents(name, text.into_bytes()).unwrap();
        assert_eq!(again.bytes, bytes);
    }
}

/// Every refusal of the library is found at a place by the program, with the same number.
#[test]
fn refusals_are_found() {
    let mut random = Random::new(21);
    let mut found = [0; 7];
    let mut look = |bytes: Vec<u8>| {
        let file = PlanFile::of_bytes("", bytes);
        let Err(refused) = faults::find(&file) else { return };
        let number = refused.refusal.number() as usize;
        assert_ne!(refused.sentence, refused.refusal.sentence(), "{:02X?}", file.bytes);
        found[number] += 1;
    };
    for _ in 0..600 {
        let fields = good::joined(&mut random);
        look(fields.encode());
        look(rings::ringed(&mut random).encode());
        look(rings::of_one_kind(&mut random, true).encode());
        for kind in damage::ALL {
            look(damage::damaged(&mut random, &fields, kind));
        }
        look(damage::headed_noise(&mut random, &fields));
        look(damage::noise(&mut random));
    }
    assert!(found[1..].iter().all(|&count| count >= 100), "{found:?}");
}

/// The ring that is told is one: each of its queues feeds the next, by the model.
#[test]
fn rings_are_rings() {
    let mut random = Random::new(22);
    for number in 0..300 {
        let fields = if number % 2 == 0 {
            rings::ringed(&mut random)
        } else {
            rings::of_one_kind(&mut random, number % 4 == 1)
        };
        let file = PlanFile::of_bytes("", fields.encode());
        let Err(refused) = faults::find(&file) else { continue };
        let Some(ring) = refused.ring else { continue };
        let plan = model::Plan::join(fields).unwrap();
        let feeding = model::Feeding::of(&plan);
        for (at, &queue) in ring.queues.iter().enumerate() {
            let next = ring.queues[(at + 1) % ring.queues.len()];
            assert!(feeding.feeds(modelled(queue), modelled(next)), "{queue:?} {next:?}");
        }
    }
}

/// The same queue of the model.
fn modelled(queue: trace::Queue) -> model::Queue {
    match queue {
        trace::Queue::ActiveOut(number) => model::Queue::ActiveOut(number),
        trace::Queue::PassiveOut(number) => model::Queue::PassiveOut(number),
        trace::Queue::U(port) => model::Queue::U { router: port.router, from: port.side },
        trace::Queue::Q(port) => model::Queue::Q { router: port.router, from: port.side },
        trace::Queue::F(heading, Port { router, side: to }) => {
            let class = match heading {
                Heading::Ahead => model::Class::SetUps,
                Heading::Back => model::Class::Answers,
            };
            model::Queue::F { router, class, to }
        }
        trace::Queue::K(from, port) => model::Queue::K { router: port.router, from, to: port.side },
        trace::Queue::ActiveIn(number) => model::Queue::ActiveIn(number),
        trace::Queue::PassiveIn(number) => model::Queue::PassiveIn(number),
    }
}

#[test]
fn t_is_plan_t() {
    let bytes = [0x08, 0x42, 0x11, 0x24, 0x92, 0x4C, 0x06, 0x00, 0x00, 0x00, 0x20];
    assert_eq!(PlanFile::t().bytes, bytes);
    let stored = PlanFile::of_contents("", common::text("plans/t.plan").into_bytes()).unwrap();
    assert_eq!(stored.bytes, bytes);
}

/// Statements come in any order, with blank lines and comments between.
#[test]
fn statements_come_in_any_order() {
    let turned =
        "\n\n# T\npassive drive at r0.1\n\n  \nactive camera at r0.0;slots 2\n\n\nrouter r0 # one";
    let plan = PlanFile::of_contents("", turned.as_bytes().to_vec()).unwrap();
    assert_eq!(plan.bytes, PlanFile::t().bytes);
}

/// Fewest routers first, then the lowest side; what is written out wins; nothing where no pair goes.
#[test]
fn routes_that_are_left_out() {
    let text = "slots 4\nrouter a, b, c, d\nactive x at a.0\npassive y at d.0\n\
                joint a.1 -- b.0\njoint a.2 -- c.0\njoint b.1 -- d.1\njoint c.1 -- d.2\n";
    let routes = |text: &str| {
        let plan = PlanFile::of_contents("", text.as_bytes().to_vec()).unwrap();
        trace::Fields::read(&plan.bytes).unwrap().routes
    };
    let (none, by) = (None, Some);
    assert_eq!(routes(text), [[by(0), by(1)], [by(0), by(1)], [none, none], [by(1), by(0)]]);
    let written = format!("{text}route a to y by 2\n");
    let expected = [[by(0), by(2)], [none, none], [by(0), by(1)], [by(1), by(0)]];
    // d's answers still go the shortest way, over b.
    assert_ne!(routes(&written), expected);
    assert_eq!(routes(&written)[0], [by(0), by(2)]);
    assert_eq!(routes(&written)[2], [by(0), by(1)]);
}

//! `wait`, `remaining` and `expect empty within`: request (n) in scripts.

mod common;

use model::machine::Rules;
use trace::{Call, Modelled, Proved, Run, Step};
use trainer::plan::PlanFile;
use trainer::play::deals::Deals;
use trainer::play::{Player, Silent, Teller, Waited};
use trainer::script::{self, Script, Statement};
use trainer::text::Source;

/// A script on one of the repository's plans.
fn script(plan: &str, statements: &str) -> Script {
    let text = format!("plan {plan}\n{statements}\n");
    let source = Source { name: "text".to_string(), text };
    let find = |file: &str| PlanFile::of_text(file, &common::text(&format!("plans/{file}")));
    script::of_text(source, &find).unwrap_or_else(|broken| panic!("{broken:?}"))
}

/// What is told: the calls, the waits, and what is not as expected.
#[derive(Default)]
struct Told {
    calls: Vec<Call>,
    waits: Vec<Waited>,
    found: Vec<Option<String>>,
}

impl Teller for Told {
    fn step(&mut self, _: &Run, step: &Step) {
        self.calls.push(step.call);
    }

    fn waited(&mut self, _: &Script, _: &Statement, waited: &Waited) {
        self.waits.push(waited.clone());
    }

    fn expected(&mut self, _: &Script, _: &Statement, found: Option<&str>) {
        self.found.push(found.map(str::to_string));
    }
}

/// Plays a script by the proved library; whether all was as expected.
fn play(script: &Script) -> (Told, bool) {
    let proved = Proved::new(&script.plan);
    let (mut player, mut told) = (Player::new(script, &proved), Told::default());
    player.play(&[], &mut told).unwrap();
    (told, player.is_fine())
}

#[test]
fn a_wait_takes_no_more_than_is_promised() {
    let script = script("t.plan", "launch camera drive 0\nwait\nwait\nexpect table camera drive 0");
    let (told, fine) = play(&script);
    assert!(fine);
    let [first, second] = &told.waits[..] else { panic!("{:?}", told.waits) };
    assert_eq!((first.promised.packets, first.promised.rounds), (1, 512));
    assert_eq!((first.rounds, &first.left), (8, &None));
    assert_eq!(first.words(), "waited 8 rounds of at most 512: every queue and wire is empty");
    // Nothing to wait for: Remaining is asked, and no round is made.
    assert_eq!((second.promised.packets, second.rounds), (0, 0));
    assert_eq!(second.words(), "nothing to wait for: every queue and wire is empty");
    assert_eq!(told.calls.last(), Some(&Call::Remaining));
}

/// A passive with standing orders keeps to them, one without accepts, also one that was to wait; every
/// active drops. Afterwards all is as it stood.
#[test]
fn standing_orders_in_a_wait() {
    for (orders, table) in [
        ("", "camera drive 0"),
        ("passive drive waits\nactive all waits\n", "camera drive 0"),
        ("passive drive accepts\n", "camera drive 0"),
        ("passive drive declines\n", "empty"),
    ] {
        let text = format!("{orders}launch camera drive 0\nwait\nexpect table {table}");
        assert!(play(&script("t.plan", &text)).1, "{text}");
    }
    let text = "launch camera drive 0\nwait\nclose camera drive 0\nuntil quiet\n\
                launch camera drive 0\nuntil quiet within 40\nexpect at drive.in setup slot 1 hub 1";
    assert!(play(&script("t.plan", text)).1);
}

/// Tried on a copy: nothing moves, in whatever phase; and after a wait it is counted from its READ.
#[test]
fn empty_within() {
    let text = "launch camera drive 0\nexpect empty within 8\nexpect empty within 7\n\
                expect round 0\nto WRITE\nexpect empty within 8\nexpect empty within 7\nwrite\n\
                expect empty within 7\nexpect empty within 6\nwait\nexpect empty within 7\n\
                expect empty within 6\nremaining\nexpect empty within 0";
    let (told, _) = play(&script("t.plan", text));
    let failed: Vec<bool> = told.found.iter().map(Option::is_some).collect();
    let (so, not) = (false, true);
    assert_eq!(failed, [so, not, so, so, not, so, not, so, not, so]);
    let late = "after 7, 1 packet under way: ACK A on the wire out of r0.0";
    assert_eq!(told.found[1], Some(format!("it takes 8 rounds; {late}")));
    let counted = told.calls.iter().filter(|&&call| call == Call::Write).count();
    assert_eq!(counted, 8, "a try makes no calls of the run");
}

#[test]
fn what_is_under_way_is_told() {
    let text = "launch camera drive 0\nlaunch force drive 1\nlaunch lidar drive 2\nround\n\
                remaining\nexpect remaining 2\nexpect empty within 1";
    let (told, fine) = play(&script("three.plan", text));
    assert!(!fine);
    assert_eq!(told.found[0], Some("3 packets under way: wait at most 6144 rounds".to_string()));
    let found = told.found[1].as_deref().unwrap();
    let packets =
        "3 packets under way: SETUP A on the wire to foot's unit, SETUP B on the wire to \
                   elbow's unit, SETUP C on the wire to wrist's unit";
    assert!(found.starts_with("it takes ") && found.ends_with(packets), "{found}");
}

/// By a wrong rule a network may never be empty: then a wait fails, and says what stays.
#[test]
fn a_wait_that_cannot_end_is_told() {
    let text = "launch camera drive 0\nwait\nlaunch camera drive 1\nwait\nexpect empty within 99";
    let script = script("t.plan", text);
    let rules = Rules { last_free_booked: true, ..Rules::default() };
    let modelled = Modelled::new(&script.plan, rules);
    let (mut player, mut told) = (Player::new(&script, &modelled), Told::default());
    player.play(&[], &mut told).unwrap();
    assert_eq!(player.failed, 2);
    let words = told.waits[1].words();
    assert!(words.starts_with("NOT EMPTY after ") && words.contains("512 that were promised"));
    assert!(words.ends_with("1 packet under way: SETUP B in set-up F[1] of r0"), "{words}");
    assert!(told.waits[1].rounds < 20, "nobody moves, so nobody will");
    let found = told.found[0].as_deref().unwrap();
    assert!(found.starts_with("it is never empty: 1 packet under way"), "{found}");
}

/// Behind a block a wait is played in every order.
#[test]
fn waits_in_every_order() {
    let text = "any order spaced 0..2 { launch camera drive 0; launch force drive 1; \
                launch lidar drive 2 }\nwait\nexpect quiet\nexpect empty within 60";
    let script = script("three.plan", text);
    let proved = Proved::new(&script.plan);
    let deals = Deals::new(script.blocks());
    for number in 0..deals.count() {
        let mut player = Player::new(&script, &proved);
        player.play(&deals.deal(number), &mut Silent).unwrap();
        assert!(player.is_fine(), "{number}");
    }
}

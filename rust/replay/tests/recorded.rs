//! Recorded data of random runs: the proved library and the model give the same lines; and the lines
//! of document 01's first run.

use model::generate::{crossing, good, Random};
use model::named;
use replay::Recording;
use trace::{Call, Calls, Modelled, Names, Plan, Proved, Run};

/// A plan with numbers for names.
fn plan(bytes: &[u8]) -> Plan {
    let fields = trace::Fields::read(bytes).expect("the plan can be read");
    let names = Names::numbered(fields.joints.len(), fields.actives, fields.passives);
    Plan::load(bytes, names).expect("the plan loads")
}

/// Makes a list of calls and gives the lines and the page.
fn record(plan: &Plan, calls: &dyn Calls, list: &[Call]) -> (Vec<String>, String) {
    let mut run = Run::new(plan, calls);
    let mut recording = Recording::start(&run, "a run", "");
    for &call in list {
        let step = run.call(call);
        recording.push(&step, &run);
    }
    (recording.lines().to_vec(), replay::page(&recording))
}

/// Random calls that keep a network busy, chosen on the model's states.
fn random_calls(random: &mut Random, plan: &Plan, count: usize) -> Vec<Call> {
    let network = model::machine::Network::load(plan.bytes()).expect("the plan loads");
    let mut state = network.start();
    let mut caller = model::generate::calls::Caller::new(random, &network);
    let mut list = Vec::new();
    for _ in 0..count {
        let call = caller.next(random, &network, &state);
        // What the answer was does not matter here: both are asked again below.
        let _ = network.call(&mut state, call);
        list.push(same(call));
    }
    list
}

/// The model's call as the trace's.
fn same(call: model::machine::Call) -> Call {
    use model::machine::Call as Model;
    let n = |number: usize| number as u32;
    match call {
        Model::Read => Call::Read,
        Model::Execute => Call::Execute,
        Model::Write => Call::Write,
        Model::Launch { active, passive, slot } => {
            Call::Launch { active: n(active), passive: n(passive), slot: n(slot) }
        }
        Model::Close { active, passive, slot } => {
            Call::Close { active: n(active), passive: n(passive), slot: n(slot) }
        }
        Model::Reply { passive, choice } => Call::Reply { passive: n(passive), choice: n(choice) },
        Model::Look { active } => Call::Look { active: n(active) },
        Model::Drop { active } => Call::Drop { active: n(active) },
        Model::Entry { router, side, slot } => {
            Call::Entry { router: n(router), side: n(side), slot: n(slot) }
        }
        Model::Remaining => Call::Remaining,
    }
}

/// Both give the same lines, one after the other, and the same page.
fn compare(random: &mut Random, plan: &Plan, count: usize) -> Vec<String> {
    let list = random_calls(random, plan, count);
    let (proved, modelled) = (Proved::new(plan), Modelled::new(plan, Default::default()));
    let (lines, page) = record(plan, &proved, &list);
    let (other, other_page) = record(plan, &modelled, &list);
    for (number, (line, other)) in lines.iter().zip(&other).enumerate() {
        assert_eq!(line, other, "line {} of a run on {:02x?}", number + 1, plan.bytes());
    }
    assert_eq!((lines.len(), page), (other.len(), other_page));
    lines
}

#[test]
fn random_runs_of_library_and_model_are_recorded_alike() {
    let mut random = Random::new(10);
    let mut signs = std::collections::BTreeSet::new();
    for number in 0..150 {
        let plan = match number % 3 {
            0 => plan(&crossing::any(&mut random).encode()),
            _ => plan(&good::loadable(&mut random).encode()),
        };
        for line in compare(&mut random, &plan, 300) {
            signs.extend(line.split(' ').skip(2).filter_map(|token| token.chars().next()));
        }
    }
    // Every token of the format was met.
    let met: String = signs.into_iter().collect();
    assert_eq!(met, "*+-=>^_achlopst");
}

#[test]
fn a_run_on_the_largest_plan_is_recorded_alike() {
    let plan = plan(&named::largest().encode());
    compare(&mut Random::new(11), &plan, 600);
}

/// A line without its check sum.
fn told(line: &str) -> String {
    let parts: Vec<&str> = line.split(' ').collect();
    [&parts[..1], &parts[2..]].concat().join(" ")
}

#[test]
fn lines_of_the_first_run() {
    let plan = plan(&named::T);
    let proved = Proved::new(&plan);
    let round = [Call::Read, Call::Execute, Call::Write];
    let mut list = vec![Call::Launch { active: 0, passive: 0, slot: 0 }];
    list.push(Call::Launch { active: 0, passive: 0, slot: 1 });
    list.extend(round.repeat(3));
    list.extend([Call::Entry { router: 0, side: 1, slot: 0 }, Call::Drop { active: 0 }]);
    list.extend([Call::Look { active: 0 }, Call::Look { active: 1 }, Call::Remaining]);
    let (lines, _) = record(&plan, &proved, &list);
    let told: Vec<String> = lines.iter().map(|line| told(line)).collect();
    let wanted = [
        "L0,0,0 +0,S,0,0,0,0,0,0 a0,0",
        "L0,0,1!11",
        "R p1",
        "X p2 *0",
        "W p0 s1 >0,w,2 *",
        "R p1 >0,2",
        "X p2 *0",
        "W p0 s0 >0,10,6 * ^2 l2,0",
        "R p1 >0,6 _",
        "X p2 =0,S,1,1 *0 h6,1 t2,0 o2,0,w",
        "W p0 s1 >0,11,f * ^6 h6,0 l3,0",
        "E0,1,0=0",
        "D0!8",
        "H0!13",
        "H1!9",
        "N=1,512",
    ];
    assert_eq!(told, wanted);
}

/// Plan T's first run: looked at and dropped in round 7.
fn opened() -> Vec<Call> {
    let round = [Call::Read, Call::Execute, Call::Write];
    let (look, drop) = (Call::Look { active: 0 }, Call::Drop { active: 0 });
    let mut list = vec![Call::Launch { active: 0, passive: 0, slot: 0 }];
    list.extend(round.repeat(4));
    list.extend([Call::Read, Call::Execute, Call::Reply { passive: 0, choice: 1 }, Call::Write]);
    list.extend(round.repeat(2));
    list.extend([Call::Read, look, Call::Execute, look, drop, look, drop, Call::Write]);
    list
}

/// A Look is recorded with what it shows and changes nothing; a Drop accepts.
#[test]
fn lines_of_a_dropped_answer() {
    let plan = plan(&named::T);
    let (lines, _) = record(&plan, &Proved::new(&plan), &opened());
    let told: Vec<String> = lines.iter().map(|line| told(line)).collect();
    let wanted = [
        "R p1 >0,u _",
        "H0=A,0,0,1,1",
        "X p2",
        "H0=A,0,0,1,1",
        "D0 -0 ^u o2,0,a a0,1 c0,1",
        "H0!13",
        "D0!14",
        "W p0 s0",
    ];
    assert_eq!(told[told.len() - 8..], wanted);
}

/// An accepted connection is closed: the entry is held for its tear-down until this has freed it.
#[test]
fn lines_of_a_closed_connection() {
    let plan = plan(&named::T);
    let close = Call::Close { active: 0, passive: 0, slot: 0 };
    let mut list = opened();
    let opened = list.len();
    list.extend([close, close]);
    list.extend([Call::Read, Call::Execute, Call::Write].repeat(3));
    let (lines, _) = record(&plan, &Proved::new(&plan), &list);
    let told: Vec<String> = lines.iter().map(|line| told(line)).collect();
    let wanted = [
        "K0,0,0 +1,T,0,0,0,1,0,0,0 o2,0,c c0,0",
        "K0,0,0!16",
        "R p1 _",
        "X p2 *1",
        "W p0 s1 >1,w,2 *",
        "R p1 >1,2",
        "X p2 *1",
        "W p0 s0 >1,10,6 * ^2",
        "R p1 >1,6 _",
        "X p2 -1 ^6 t2,4 o2",
        "W p0 s1",
    ];
    assert_eq!(told[opened..], wanted);
}

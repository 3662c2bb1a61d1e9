//! The scripts of the repository: runs of documents 01 and 02, and the lessons.

mod common;

use common::{files, root};
use model::machine::Rules;
use trace::{Modelled, Proved, Run, Step};
use trainer::lesson::{self, Mistake, LESSONS};
use trainer::play::{Player, Silent, Teller};
use trainer::script::{self, Script};

fn open(file: &str) -> Script {
    match script::open(&root().join(file).to_string_lossy()) {
        Ok(script) => script,
        Err(broken) => panic!("{file}: {broken:?}"),
    }
}

fn all() -> Vec<String> {
    [files("scripts", ".run"), files("scripts/lessons", ".run")].concat()
}

/// The states after each call.
#[derive(Default)]
struct States(Vec<Vec<u8>>);

impl Teller for States {
    fn step(&mut self, run: &Run, _: &Step) {
        self.0.push(run.bytes().to_vec());
    }
}

#[test]
fn all_is_as_expected() {
    let mut expectations = 0;
    for file in all() {
        let script = open(&file);
        let proved = Proved::new(&script.plan);
        let mut player = Player::new(&script, &proved);
        player.play(&[], &mut Silent).unwrap();
        assert!(player.is_fine(), "{file}");
        assert!(player.checked > 0, "{file} expects nothing");
        expectations += player.checked;
    }
    assert!(expectations >= 60, "{expectations}");
}

#[test]
fn the_model_gives_the_same_states() {
    for file in all() {
        let script = open(&file);
        let (proved, modelled) =
            (Proved::new(&script.plan), Modelled::new(&script.plan, Rules::default()));
        let (mut one, mut other) = (States::default(), States::default());
        Player::new(&script, &proved).play(&[], &mut one).unwrap();
        Player::new(&script, &modelled).play(&[], &mut other).unwrap();
        assert!(one.0 == other.0, "{file}");
    }
}

#[test]
fn every_wrong_rule_is_seen() {
    for lesson in &LESSONS {
        let Mistake::Rule(name, set) = lesson.mistake else { continue };
        let script = lesson::script(lesson);
        let mut rules = Rules::default();
        set(&mut rules);
        let modelled = Modelled::new(&script.plan, rules);
        let mut player = Player::new(&script, &modelled);
        player.play(&[], &mut Silent).unwrap();
        assert!(player.failed > 0, "{}: nobody sees that {name}", lesson.file);
    }
}

/// A student's program is another one than the script's, and something is then not as expected.
#[test]
fn every_wrong_program_is_seen() {
    let mut programs = 0;
    for lesson in &LESSONS {
        let Mistake::Program(name, statement) = lesson.mistake else { continue };
        let script = lesson::instead(lesson, statement);
        let proved = Proved::new(&script.plan);
        let mut player = Player::new(&script, &proved);
        player.play(&[], &mut Silent).unwrap();
        assert!(player.failed > 0, "{}: nobody sees that they {name}", lesson.file);
        programs += 1;
    }
    assert_eq!(programs, 1);
}

/// A rule that students write instead, in words and as it is set.
type Wrong = (&'static str, fn(&mut Rules));

/// By each of these rules something is not as the script expects.
fn all_are_seen(file: &str, wrong: &[Wrong]) {
    let script = open(file);
    for (name, set) in wrong {
        let mut rules = Rules::default();
        set(&mut rules);
        let modelled = Modelled::new(&script.plan, rules);
        let mut player = Player::new(&script, &modelled);
        player.play(&[], &mut Silent).unwrap();
        assert!(player.failed > 0, "nobody sees that {name}");
    }
}

/// What students write instead of Close: the script of closing sees each of them.
#[test]
fn every_wrong_close_is_seen() {
    let wrong: [Wrong; 5] = [
        ("the tear-down's hub is one too many", |rules| rules.close_one_too_far = true),
        ("the table is cleared at once", |rules| rules.close_clears_at_once = true),
        ("the entries are freed before the tear-down", |rules| rules.close_frees_early = true),
        ("it is accepted until torn down", |rules| rules.accepted_until_torn_down = true),
        ("it is accepted at the ACK's arrival", |rules| rules.accepted_at_the_arrival = true),
    ];
    all_are_seen("scripts/close.run", &wrong);
}

/// What students write instead of turn about: the script of turns sees each of them.
#[test]
fn every_wrong_turn_is_seen() {
    let wrong: [Wrong; 2] = [
        ("the first in order is always picked", |rules| rules.lowest_first = true),
        ("the one served last is asked first", |rules| rules.same_one_again = true),
    ];
    all_are_seen("scripts/turns.run", &wrong);
}

/// What students write instead of Look and Drop: the script of looking sees each of them.
#[test]
fn every_wrong_look_is_seen() {
    let wrong: [Wrong; 4] = [
        ("a Look raises the flag", |rules| rules.look_raises_the_flag = true),
        ("a Drop accepts the next head", |rules| rules.next_head_accepted = true),
        ("a Look accepts", |rules| rules.accepted_at_the_look = true),
        ("a Look gives back the allowance", |rules| rules.allowance_at_the_look = true),
    ];
    all_are_seen("scripts/look.run", &wrong);
}

/// What students write instead of a unit with four Q: the script of heads sees each of them.
#[test]
fn every_wrong_unit_is_seen() {
    let wrong: [Wrong; 4] = [
        ("a unit handles one head a round", |rules| rules.one_head_a_unit = true),
        ("side 3 is handled first", |rules| rules.highest_side_first = true),
        ("the lowest side is sent first", |rules| rules.unit_sends_lowest_first = true),
        ("the first in order is always picked", |rules| rules.lowest_first = true),
    ];
    all_are_seen("scripts/heads.run", &wrong);
}

/// The number of a lesson's file: 10 of "scripts/lessons/10-look.run".
fn number(file: &str) -> usize {
    let name = file.rsplit('/').next().unwrap_or(file);
    name.split('-').next().and_then(|number| number.parse().ok()).expect("a number")
}

#[test]
fn every_lesson_has_its_file() {
    let mut stored = files("scripts/lessons", ".run");
    stored.sort_by_key(|file| number(file));
    assert_eq!(stored.len(), LESSONS.len());
    for (file, lesson) in stored.iter().zip(&LESSONS) {
        assert_eq!(file, &format!("scripts/lessons/{}", lesson.file));
        assert_eq!(common::text(file), lesson.script);
        let of_file = open(file);
        assert_eq!(of_file.plan.bytes(), lesson::script(lesson).plan.bytes());
    }
}

/// Without arguments the program shows the first run, the same as from its file.
#[test]
fn the_first_run_is_the_files() {
    let alone = common::run(&[]);
    let (out, _, status) = common::run(&["run", "scripts/first.run"]);
    assert_eq!((alone.2, status), (0, 0));
    let body = |text: &str| text.lines().take(30).collect::<Vec<_>>().join("\n");
    assert_eq!(body(&alone.0), body(&out));
}

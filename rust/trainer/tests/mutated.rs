//! 50,000 mutated texts, plans and scripts, and 12,500 files with changed bytes: each is read or gets a message with a place in it, and
//! nothing crashes.

mod common;

use common::{files, text};
use trace::Proved;
use trainer::plan::{faults, PlanFile, Unread};
use trainer::play::deals::Random;
use trainer::play::{Player, Silent};
use trainer::script::{self, Broken, Deed, Script};
use trainer::text::Source;

const TEXTS: usize = 62_500;

/// Signs that texts are made of, and some that they are not.
const SIGNS: &[char] = &[
    'a', 'r', '0', '1', '3', '7', '9', '.', ',', ';', '{', '}', '#', '-', '>', ' ', '\n', '\t',
    '"', '/', '_', 'é', '☃', '\u{0}', '\u{301}',
];

/// Words of plans and scripts, and some numbers.
const WORDS: &[&str] = &[
    "slots",
    "capacity",
    "router",
    "active",
    "passive",
    "joint",
    "serve",
    "route",
    "bytes",
    "all",
    "at",
    "--",
    "->",
    "by",
    "none",
    "to",
    "plan",
    "launch",
    "close",
    "reply",
    "look",
    "drop",
    "entry",
    "remaining",
    "wait",
    "empty",
    "read",
    "execute",
    "write",
    "round",
    "until",
    "quiet",
    "within",
    "any",
    "order",
    "spaced",
    "show",
    "table",
    "where",
    "expect",
    "ok",
    "refused",
    "last",
    "r0.F1set",
    "r0.F1ans",
    "r0.Q0",
    "r0.1",
    "r1",
    "camera",
    "drive",
    "0",
    "1",
    "4",
    "31",
    "32",
    "63",
    "99999999999999999999",
    "0..3",
    "3..",
    "WRITE",
    "accept",
    "decline",
    "not",
];

fn below(random: &mut Random, bound: usize) -> usize {
    random.below(bound as u128) as usize
}

/// One to four changes of signs, words and lines.
fn mutated(random: &mut Random, text: &str) -> String {
    let mut text = text.to_string();
    for _ in 0..1 + below(random, 4) {
        text = match below(random, 8) {
            0..3 => change_sign(random, &text),
            3..6 => change_word(random, &text),
            6 => change_line(random, &text),
            _ => {
                let kept = below(random, 2 * text.len() + 1);
                text.chars().take(kept).collect()
            }
        };
    }
    text
}

fn change_sign(random: &mut Random, text: &str) -> String {
    let mut signs: Vec<char> = text.chars().collect();
    let at = below(random, signs.len() + 1);
    let sign = SIGNS[below(random, SIGNS.len())];
    match below(random, 3) {
        0 => signs.insert(at, sign),
        1 if at < signs.len() => signs[at] = sign,
        _ if at < signs.len() => {
            signs.remove(at);
        }
        _ => {}
    }
    signs.into_iter().collect()
}

fn change_word(random: &mut Random, text: &str) -> String {
    let mut words: Vec<&str> = text.split(' ').collect();
    let at = below(random, words.len());
    let word = WORDS[below(random, WORDS.len())];
    match below(random, 3) {
        0 => words.insert(at, word),
        1 => words[at] = word,
        _ => {
            words.remove(at);
        }
    }
    words.join(" ")
}

fn change_line(random: &mut Random, text: &str) -> String {
    let mut lines: Vec<&str> = text.lines().collect();
    if lines.is_empty() {
        return text.to_string();
    }
    let (one, other) = (below(random, lines.len()), below(random, lines.len()));
    match below(random, 3) {
        0 => lines.swap(one, other),
        1 => lines.insert(one, lines[other]),
        _ => {
            lines.remove(one);
        }
    }
    lines.join("\n")
}

/// A message begins with the name and a place that is in the text.
fn check_message(message: &str, text: &str) {
    let place = message.strip_prefix("text:").unwrap_or_else(|| panic!("no place: {message}"));
    let mut numbers = place.split(':').map(|number| number.parse::<usize>().unwrap_or(0));
    let (line, column) = (numbers.next().unwrap_or(0), numbers.next().unwrap_or(0));
    let lines: Vec<&str> = text.split('\n').collect();
    assert!((1..=lines.len()).contains(&line), "{message}");
    assert!((1..=lines[line - 1].chars().count() + 1).contains(&column), "{message}");
    assert!(message.lines().all(|line| line.chars().count() <= 200), "{message}");
}

/// The contents of a file with some bytes changed: text, hex digits or bytes, or none of them.
fn try_contents(random: &mut Random, text: &str, tally: &mut Tally) {
    let mut contents = match PlanFile::of_text("text", text) {
        Ok(plan) if below(random, 2) == 0 => plan.bytes,
        _ => text.as_bytes().to_vec(),
    };
    for _ in 0..1 + below(random, 3) {
        let at = below(random, contents.len() + 1);
        if at < contents.len() {
            contents[at] = random.number() as u8;
        }
    }
    match PlanFile::of_contents("text", contents) {
        Err(unread) => {
            assert!(unread.show().starts_with("text:"), "{}", unread.show());
            tally.mistaken += 1;
        }
        Ok(plan) => match faults::find(&plan) {
            Ok(_) => tally.read += 1,
            Err(_) => tally.refused += 1,
        },
    }
}

/// What became of the texts: read, refused, with a mistake; scripts played.
#[derive(Debug, Default)]
struct Tally {
    read: usize,
    refused: usize,
    mistaken: usize,
    played: usize,
}

fn try_plan(text: &str, tally: &mut Tally) {
    match PlanFile::of_text("text", text) {
        Err(Unread::Text(source, mistake)) => {
            check_message(&mistake.show(&source), text);
            tally.mistaken += 1;
        }
        Err(Unread::File(message)) => panic!("{message}"),
        Ok(plan) => match faults::find(&plan) {
            Ok(_) => tally.read += 1,
            Err(refused) => {
                assert_ne!(refused.sentence, refused.refusal.sentence(), "{text}");
                tally.refused += 1;
            }
        },
    }
}

fn try_script(text: &str, tally: &mut Tally, plans: &[(String, String)]) {
    let source = Source { name: "text".to_string(), text: text.to_string() };
    let find = |file: &str| {
        let known = plans.iter().find(|(name, _)| file.ends_with(name.as_str()));
        match known {
            Some((name, text)) => PlanFile::of_text(name, text),
            None => Err(Unread::File(format!("{file}: cannot be read"))),
        }
    };
    match script::of_text(source, &find) {
        Err(Broken::Unread(message)) => {
            check_message(&message, text);
            tally.mistaken += 1;
        }
        Err(Broken::Refused(_)) => tally.refused += 1,
        Ok(script) => {
            tally.read += 1;
            tally.played += usize::from(is_short(&script) && play(&script));
        }
    }
}

/// Whether a script asks for few rounds.
fn is_short(script: &Script) -> bool {
    let rounds = script.statements.iter().map(|statement| match &statement.deed {
        Deed::Rounds(rounds) | Deed::UntilRound(rounds) => *rounds,
        Deed::UntilQuiet(_) | Deed::Wait => 30,
        Deed::AnyOrder(block) => block.gaps.0 * block.items.len(),
        _ => 1,
    });
    rounds.sum::<usize>() <= 120
}

fn play(script: &Script) -> bool {
    let proved = Proved::new(&script.plan);
    let mut player = Player::new(script, &proved);
    match player.play(&[], &mut Silent) {
        Ok(()) => true,
        Err(mistake) => {
            check_message(&mistake.show(&script.source), &script.source.text);
            false
        }
    }
}

#[test]
fn mutated_texts_do_no_harm() {
    let read = |names: Vec<String>| -> Vec<(String, String)> {
        names.into_iter().map(|name| (name.clone(), text(&name))).collect()
    };
    let plans = read([files("plans", ".plan"), files("plans/refused", ".plan")].concat());
    let scripts = read([files("scripts", ".run"), files("scripts/lessons", ".run")].concat());
    let mut random = Random(30);
    let mut tally = Tally::default();
    for number in 0..TEXTS {
        if number % 5 == 0 {
            let (_, text) = &plans[below(&mut random, plans.len())];
            try_contents(&mut random, text, &mut tally);
        } else if number % 2 == 0 {
            let (_, text) = &plans[below(&mut random, plans.len())];
            try_plan(&mutated(&mut random, text), &mut tally);
        } else {
            let (_, text) = &scripts[below(&mut random, scripts.len())];
            try_script(&mutated(&mut random, text), &mut tally, &plans);
        }
    }
    assert_eq!(tally.read + tally.refused + tally.mistaken, TEXTS);
    assert!(tally.read > 5_000 && tally.mistaken > 10_000, "{tally:?}");
    assert!(tally.refused > 500 && tally.played > 1_000, "{tally:?}");
}

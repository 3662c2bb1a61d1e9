//! What cannot be written is told, by every command: exit status 2 and a message. A reader that has
//! gone away is not: then the program ends quietly.

mod common;

use std::fs::File;
use std::io::PipeWriter;
use std::process::{Command, Output};

use common::program;
use trainer::commands::{COMMANDS, FINE, GONE, UNREAD};

/// Every command with something to write, and what is written without one.
const WRITING: &[&[&str]] = &[
    &[],
    &["--help"],
    &["help", "show"],
    &["--version"],
    &["show"],
    &["show", "plans/largest.plan", "--all"],
    &["show", "--json"],
    &["check", "plans/t.plan", "plans/refused/6-clockwise.plan"],
    &["check", "plans/t.plan", "--json"],
    &["encode", "plans/two.plan"],
    &["encode", "plans/two.plan", "--bytes"],
    &["encode", "plans/two.plan", "--json"],
    &["encode", "plans/refused/6-clockwise.plan"],
    &["decode", "plans/two.plan"],
    &["decode", "plans/two.plan", "--json"],
    &["run", "scripts/first.run"],
    &["run", "scripts/declined.run", "--brief"],
    &["run", "scripts/declined.run", "--json"],
    &["orders", "scripts/orders.run"],
    &["orders", "scripts/orders.run", "--json"],
    &["lesson"],
    &["lesson", "--json"],
    &["lesson", "1"],
    &["lesson", "1", "--answers"],
    &["lesson", "1", "--json"],
    &["replay", "scripts/declined.run", "-o", "/dev/null"],
];

/// A place where nothing can be written.
fn full() -> File {
    File::options().write(true).open("/dev/full").expect("/dev/full")
}

/// A pipe that nobody reads.
fn gone() -> PipeWriter {
    std::io::pipe().expect("a pipe").1
}

fn done(program: &mut Command) -> (String, Option<i32>) {
    let Output { stderr, status, .. } = program.output().expect("the program runs");
    (String::from_utf8_lossy(&stderr).to_string(), status.code())
}

/// The table, and the help of each command.
fn writing() -> Vec<Vec<&'static str>> {
    let helps = COMMANDS.iter().map(|command| vec![command.name, "--help"]);
    WRITING.iter().map(|words| words.to_vec()).chain(helps).collect()
}

#[test]
fn every_command_is_in_the_table() {
    for command in COMMANDS {
        assert!(
            WRITING.iter().any(|words| words.first() == Some(&command.name)),
            "{}",
            command.name
        );
    }
}

#[test]
fn an_output_that_cannot_be_written_is_told() {
    for words in writing() {
        let (err, status) = done(program(&words).stdout(full()));
        assert_eq!(status, Some(UNREAD.into()), "{words:?}: {err}");
        let last = err.lines().last().unwrap_or("");
        assert!(last.starts_with("the output cannot be written: "), "{words:?}: {err}");
    }
}

#[test]
fn what_a_command_says_is_told_before() {
    let (err, _) = done(program(&["encode", "plans/refused/6-clockwise.plan"]).stdout(full()));
    assert!(err.starts_with("plans/refused/6-clockwise.plan: refused 6: "), "{err}");
}

#[test]
fn a_file_that_cannot_be_written_is_told() {
    let commands: [&[&str]; 3] = [
        &["encode", "plans/two.plan"],
        &["decode", "plans/two.plan"],
        &["replay", "scripts/declined.run"],
    ];
    for words in commands {
        let (err, status) = done(program(words).args(["-o", "/dev/full"]));
        assert_eq!(status, Some(UNREAD.into()), "{words:?}: {err}");
        assert!(err.starts_with("/dev/full: cannot be written: "), "{words:?}: {err}");
    }
}

#[test]
fn a_reader_that_has_gone_away_is_not_told() {
    let refused = |words: &Vec<&str>| words.iter().any(|word| word.contains("refused"));
    for words in writing().into_iter().filter(|words| !refused(words)) {
        let (err, status) = done(program(&words).stdout(gone()));
        assert_eq!((err.as_str(), status), ("", Some(GONE.into())), "{words:?}");
    }
}

/// Messages that nobody can read: the status is all there is. A crash would say 101.
#[test]
fn messages_that_cannot_be_written_crash_nothing() {
    let refused = ["encode", "plans/refused/6-clockwise.plan"];
    for words in [&refused[..], &["show", "plans/nowhere.plan"], &["sing"]] {
        assert_eq!(done(program(words).stderr(full())).1, Some(UNREAD.into()));
        assert_eq!(done(program(words).stdout(full()).stderr(full())).1, Some(UNREAD.into()));
        assert_eq!(done(program(words).stderr(gone())).1, Some(GONE.into()));
    }
    let (_, status) = done(program(&["check", "plans/t.plan"]).stderr(full()));
    assert_eq!(status, Some(FINE.into()), "nothing was to be told");
}

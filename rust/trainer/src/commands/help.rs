//! Help for the program and for each command.

use super::{Command, COMMANDS};

/// Help for the program.
pub fn program() -> String {
    let mut text = "\
pandabrass: the reservation network of the arm controllers, for those who write and teach its tables

usage: pandabrass [COMMAND] ..          without a command: the first run of document 01, on plan T

"
    .to_string();
    for command in COMMANDS {
        text += &format!("  {:8}{}\n", command.name, command.summary);
    }
    text += "
pandabrass COMMAND --help tells more. Every answer and every state that is shown comes from the
proved library. Exit status: 0; 1 if an expectation failed or something was refused; 2 if
something cannot be read or written. Colour is used on a terminal only, and not if NO_COLOR is set.
";
    text
}

/// Help for a command.
pub fn command(command: &Command) -> String {
    let Command { name, usage, summary, help, .. } = command;
    format!("pandabrass {name}: {summary}\n\nusage: pandabrass {name} {usage}\n\n{help}")
}

//! The words after a command: names and options.

use super::Command;
use crate::print::Paint;

/// What was given to a command.
#[derive(Clone, Debug, Default)]
pub struct Args {
    /// What is not an option.
    pub names: Vec<String>,
    flags: Vec<String>,
    values: Vec<(String, String)>,
}

impl Args {
    /// Reads the words; a message where an option is not known or lacks its value.
    pub fn parse(words: &[String], command: &Command) -> Result<Args, String> {
        let mut args = Args::default();
        let mut words = words.iter();
        while let Some(word) = words.next() {
            let (name, value) = match word.split_once('=') {
                Some((name, value)) if name.starts_with("--") => (name, Some(value.to_string())),
                _ => (word.as_str(), None),
            };
            if name == "-h" || name == "--help" {
                args.flags.push("--help".to_string());
            } else if command.flags.contains(&name) && value.is_none() {
                args.flags.push(name.to_string());
            } else if command.options.contains(&name) {
                let value = value.or_else(|| words.next().cloned());
                let value = value.ok_or_else(|| format!("'{name}' needs a value"))?;
                args.values.push((name.to_string(), value));
            } else if name.starts_with('-') && name != "-" {
                return Err(format!("no option '{name}'"));
            } else {
                args.names.push(word.clone());
            }
        }
        Ok(args)
    }

    /// Whether an option without value was given.
    pub fn has(&self, flag: &str) -> bool {
        self.flags.iter().any(|given| given == flag)
    }

    /// The value of an option.
    pub fn value(&self, option: &str) -> Option<&str> {
        let given = self.values.iter().rev().find(|(name, _)| name == option);
        given.map(|(_, value)| value.as_str())
    }

    /// The value of an option as a number.
    pub fn number(&self, option: &str) -> Result<Option<u64>, String> {
        let Some(value) = self.value(option) else { return Ok(None) };
        let number = value.parse();
        number.map(Some).map_err(|_| format!("'{option}' needs a number, not '{value}'"))
    }

    /// Colour, unless the output is for another program.
    pub fn paint(&self) -> Paint {
        if self.has("--json") {
            Paint::none()
        } else {
            Paint::of_terminal()
        }
    }
}

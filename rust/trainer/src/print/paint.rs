//! Colour, on a terminal only.

use std::io::IsTerminal;

/// Whether to write colour.
#[derive(Clone, Copy, Debug, Default, PartialEq, Eq)]
pub struct Paint {
    on: bool,
}

/// What a colour says.
#[derive(Clone, Copy, Debug, PartialEq, Eq)]
pub enum Colour {
    /// Refused, declined, left behind.
    Red,
    /// Accepted, as expected.
    Green,
    /// Under way.
    Yellow,
    /// Where to look first.
    Bold,
    /// What can be passed over.
    Dim,
}

impl Paint {
    /// Colour if the standard output is a terminal and NO_COLOR is not set.
    pub fn of_terminal() -> Paint {
        let wanted = std::env::var_os("NO_COLOR").is_none_or(|value| value.is_empty());
        Paint { on: wanted && std::io::stdout().is_terminal() }
    }

    /// No colour.
    pub fn none() -> Paint {
        Paint { on: false }
    }

    /// A text in a colour.
    pub fn text(self, colour: Colour, text: &str) -> String {
        if !self.on {
            return text.to_string();
        }
        let code = match colour {
            Colour::Red => "1;31",
            Colour::Green => "32",
            Colour::Yellow => "33",
            Colour::Bold => "1",
            Colour::Dim => "2",
        };
        format!("\x1b[{code}m{text}\x1b[0m")
    }
}

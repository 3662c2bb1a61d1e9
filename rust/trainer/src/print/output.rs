//! The one place where the program writes: the standard output, the standard error, and files.

use std::io::{self, ErrorKind, Write};

/// Why something is not written.
#[derive(Debug, PartialEq, Eq)]
pub enum Unwritten {
    /// The reader of a pipe has gone away, and needs no message.
    Gone,
    /// It cannot be written: the message.
    Failed(String),
}

/// Writes to the standard output, to the last byte.
pub fn out(bytes: &[u8]) -> Result<(), Unwritten> {
    put(&mut io::stdout().lock(), bytes).map_err(|error| unwritten("the output", &error))
}

/// Writes to the standard error.
pub fn err(text: &str) -> Result<(), Unwritten> {
    put(&mut io::stderr().lock(), text.as_bytes())
        .map_err(|error| unwritten("the messages", &error))
}

/// Writes a file.
pub fn file(name: &str, contents: &[u8]) -> Result<(), Unwritten> {
    std::fs::write(name, contents).map_err(|error| unwritten(&format!("{name}:"), &error))
}

fn put(to: &mut dyn Write, bytes: &[u8]) -> io::Result<()> {
    to.write_all(bytes)?;
    to.flush()
}

fn unwritten(what: &str, error: &io::Error) -> Unwritten {
    match error.kind() {
        ErrorKind::BrokenPipe => Unwritten::Gone,
        _ => Unwritten::Failed(format!("{what} cannot be written: {error}\n")),
    }
}

#[cfg(test)]
mod tests {
    use super::*;

    /// Takes what is written, and fails at the last step.
    struct Late(Vec<u8>);

    impl Write for Late {
        fn write(&mut self, bytes: &[u8]) -> io::Result<usize> {
            self.0.extend_from_slice(bytes);
            Ok(bytes.len())
        }

        fn flush(&mut self) -> io::Result<()> {
            Err(ErrorKind::StorageFull.into())
        }
    }

    #[test]
    fn what_fails_at_the_last_step_is_not_written() {
        let mut late = Late(Vec::new());
        assert_eq!(put(&mut late, b"a line\n").unwrap_err().kind(), ErrorKind::StorageFull);
        assert_eq!(late.0, b"a line\n");
    }

    #[test]
    fn a_reader_that_has_gone_needs_no_message() {
        assert_eq!(unwritten("the output", &ErrorKind::BrokenPipe.into()), Unwritten::Gone);
        let Unwritten::Failed(message) = unwritten("the output", &ErrorKind::StorageFull.into())
        else {
            panic!("a full disk has a message");
        };
        assert!(message.starts_with("the output cannot be written: "), "{message}");
    }
}

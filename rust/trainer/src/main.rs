//! The program.

use std::process::ExitCode;

fn main() -> ExitCode {
    let args: Vec<String> =
        std::env::args_os().skip(1).map(|arg| arg.to_string_lossy().to_string()).collect();
    ExitCode::from(trainer::commands::main(&args).deliver())
}

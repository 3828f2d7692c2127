//! The program `compare`: see `command`.

use std::env;
use std::process::ExitCode;

use compare::command::{answer, request};

fn main() -> ExitCode {
    let arguments: Vec<String> = env::args().skip(1).collect();
    let arguments: Vec<&str> = arguments.iter().map(String::as_str).collect();
    let (answered, failed) = match request(&arguments) {
        Ok((cases, seed)) => (answer(cases, seed), 1),
        Err(wrong) => (Err(wrong), 2),
    };
    match answered {
        Ok(report) => {
            print!("{report}");
            ExitCode::SUCCESS
        }
        Err(report) => {
            eprint!("{report}");
            ExitCode::from(failed)
        }
    }
}

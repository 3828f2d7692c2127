//! The program `simulate`: see `command`.

use std::env;
use std::io::{self, Write};
use std::process::ExitCode;

use simulate::command::{answer, request, Answer};

fn main() -> ExitCode {
    let arguments: Vec<String> = env::args().skip(1).collect();
    let arguments: Vec<&str> = arguments.iter().map(String::as_str).collect();
    let (answer, failed) = match request(&arguments) {
        Ok(request) => (answer(&request), 1),
        Err(errors) => (
            Answer {
                errors,
                ..Answer::default()
            },
            2,
        ),
    };
    let written = io::stdout()
        .write_all(answer.output.as_bytes())
        .and_then(|()| io::stderr().write_all(answer.errors.as_bytes()));
    if written.is_ok() && answer.errors.is_empty() {
        ExitCode::SUCCESS
    } else {
        ExitCode::from(failed)
    }
}

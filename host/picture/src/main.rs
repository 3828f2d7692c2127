//! The program behind `./tsendurkho simulate --svg`: see `command`.

use std::env;
use std::io::{self, Write};
use std::process::ExitCode;

use picture::command::{answer, Failure};

fn main() -> ExitCode {
    let arguments: Vec<String> = env::args().skip(1).collect();
    let arguments: Vec<&str> = arguments.iter().map(String::as_str).collect();
    let (text, status) = match answer(&arguments) {
        Ok(line) => {
            return ExitCode::from(u8::from(io::stdout().write_all(line.as_bytes()).is_err()))
        }
        Err(Failure::NotWritten(text)) => (text, 1),
        Err(Failure::WrongUse(text)) => (text, 2),
    };
    // Where standard error is closed too, the status says it.
    let _ = io::stderr().write_all(text.as_bytes());
    ExitCode::from(status)
}

//! `record FILE` writes the recorded list to FILE, and its sum beside it with the ending `sum`.
use std::process::ExitCode;

use record::command::{Failure, run};

fn main() -> ExitCode {
    let words: Vec<_> = std::env::args_os().skip(1).collect();
    let (status, message) = match run(&words, record::list) {
        Ok(told) => {
            println!("{told}");
            return ExitCode::SUCCESS;
        }
        Err(Failure::Files(message)) => (1, message),
        Err(Failure::Usage(message)) => (2, message),
    };
    eprintln!("record: {message}");
    ExitCode::from(status)
}

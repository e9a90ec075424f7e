//! `classreport`: class reports of builds on the command line. `classreport --help` says what it does.
mod args;
mod chains;
mod chart;
mod columns;
mod commands;
mod csv;
mod describe;
mod diff;
mod document;
mod drawing;
mod example;
mod explain;
mod failure;
mod files;
mod filter;
mod folder;
mod header;
mod html;
mod input;
mod json;
mod limits;
mod markup;
mod output;
mod progress;
mod schema;
mod sheet;
mod show;
mod steps;
mod summary;
mod table;
mod terminal;
mod text;
mod verify;
mod why;

use std::env;
use std::ffi::{OsStr, OsString};
use std::io::{self, Write};
use std::process::ExitCode;

use args::{Flag, Words};
use commands::{COMMANDS, Command, EVERYWHERE};
use failure::Failure;

fn main() -> ExitCode {
    let all: Vec<OsString> = env::args_os().skip(1).collect();
    match run(&all) {
        Ok(status) => ExitCode::from(status),
        Err(failure) => {
            // Which errors are wanted is known even where the rest of the line is wrong.
            let json = all
                .windows(2)
                .any(|two| two[0] == "--errors" && two[1] == "json")
                || all.iter().any(|word| word == "--errors=json");
            say(&failure, json);
            ExitCode::from(failure.status())
        }
    }
}

fn say(failure: &Failure, json: bool) {
    if let Some(told) = failure.told(json) {
        let _ = writeln!(io::stderr(), "{told}");
    }
}

/// Tells of a failure after which the work goes on.
pub fn tell(words: &Words, failure: &Failure) {
    say(failure, errors_are_json(words));
}

/// Whether errors are told to a program.
pub fn errors_are_json(words: &Words) -> bool {
    words.value("errors").is_some_and(|format| format == "json")
}

fn run(all: &[OsString]) -> Result<u8, Failure> {
    let Some(place) = command_place(all) else {
        return without_command(all);
    };
    let (before, after) = (&all[..place], &all[place + 1..]);
    if all[place] == "help" {
        return help(after);
    }
    let command = named(&all[place])?;
    with_command(command, before.iter().chain(after).cloned())
}

/// Where the command stands: the first word that is neither an option nor the value of one.
fn command_place(all: &[OsString]) -> Option<usize> {
    let mut place = 0;
    while all.get(place)?.as_encoded_bytes().starts_with(b"-") {
        let takes_value = |flag: &Flag| flag.value.is_some() && flag.is(&all[place]);
        let with_value = EVERYWHERE.iter().any(takes_value);
        place += if with_value { 2 } else { 1 };
    }
    Some(place)
}

fn named(name: &OsStr) -> Result<&'static Command, Failure> {
    let found = COMMANDS.iter().find(|command| name == command.name);
    found.ok_or_else(|| Failure::usage(format!("there is no command '{}'", name.display())))
}

fn without_command(all: &[OsString]) -> Result<u8, Failure> {
    let words = Words::read(&EVERYWHERE, all.iter().cloned())?;
    if words.has("version") {
        return print(&version());
    }
    if words.has("help") {
        return print(&commands::overview());
    }
    Err(Failure::usage(
        "which command? `classreport --help` lists them",
    ))
}

/// `classreport help [COMMAND]`.
fn help(rest: &[OsString]) -> Result<u8, Failure> {
    match rest.first() {
        None => print(&commands::overview()),
        Some(name) => print(&named(name)?.whole_help()),
    }
}

fn with_command(command: &Command, words: impl Iterator<Item = OsString>) -> Result<u8, Failure> {
    let flags: Vec<Flag> = EVERYWHERE.iter().chain(command.flags).copied().collect();
    let words = Words::read(&flags, words)?;
    if words.has("help") {
        return print(&command.whole_help());
    }
    if words.has("version") {
        return print(&version());
    }
    words.choice("errors", &[("text", ()), ("json", ())])?;
    limits::limits(&words)?;
    let given = words.operands.len() + usize::from(words.has("example"));
    let (least, most) = command.count;
    if !(least..=most).contains(&given) {
        let Command { name, operands, .. } = command;
        return Err(Failure::usage(format!(
            "usage: classreport {name} {operands}"
        )));
    }
    (command.run)(&words)
}

fn version() -> String {
    format!("classreport {}\n", env!("CARGO_PKG_VERSION"))
}

fn print(text: &str) -> Result<u8, Failure> {
    output::write_text(&Words::default(), text)?;
    Ok(0)
}

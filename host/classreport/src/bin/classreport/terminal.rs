//! What is known of the terminal: its width, and whether it shows colours.
use std::env;
use std::fs::File;
use std::io::IsTerminal;
use std::process::{Command, Stdio};

use crate::args::Words;
use crate::failure::Failure;

/// How output for people looks.
#[derive(Debug, Clone, Copy)]
pub struct Look {
    /// no limit where it goes to a file or a pipe
    pub width: Option<usize>,
    colour: bool,
}

#[derive(Clone, Copy)]
enum When {
    Auto,
    Always,
    Never,
}

impl Look {
    pub fn of(words: &Words) -> Result<Look, Failure> {
        let choices = [
            ("auto", When::Auto),
            ("always", When::Always),
            ("never", When::Never),
        ];
        let to_file = words.value("output").is_some_and(|file| file != "-");
        let terminal = std::io::stdout().is_terminal() && !to_file;
        let plain = env::var_os("NO_COLOR").is_some_and(|value| !value.is_empty());
        let colour = match words.choice("color", &choices)? {
            When::Auto => terminal && !plain,
            When::Always => true,
            When::Never => false,
        };
        let width = match words.text("width")? {
            Some(width) => Some(wanted(width)?),
            None if terminal => told_width().or_else(asked_width),
            None => None,
        };
        Ok(Look { width, colour })
    }

    pub fn bold(self, text: &str) -> String {
        self.coloured("1", text)
    }

    /// For what is unknown or refused.
    pub fn warn(self, text: &str) -> String {
        self.coloured("33", text)
    }

    pub fn removed(self, text: &str) -> String {
        self.coloured("31", text)
    }

    pub fn added(self, text: &str) -> String {
        self.coloured("32", text)
    }

    fn coloured(self, code: &str, text: &str) -> String {
        if self.colour {
            format!("\x1b[{code}m{text}\x1b[0m")
        } else {
            text.to_owned()
        }
    }
}

fn wanted(width: &str) -> Result<usize, Failure> {
    let number = width.parse().ok().filter(|width| *width > 0);
    number.ok_or_else(|| Failure::usage(format!("--width: '{width}' is no number of columns")))
}

/// By the variable that shells have for it.
fn told_width() -> Option<usize> {
    let width = env::var("COLUMNS").ok()?.parse().ok()?;
    (width > 0).then_some(width)
}

/// By the terminal itself: `stty size` says rows and columns.
fn asked_width() -> Option<usize> {
    let terminal = File::open("/dev/tty").ok()?;
    let said = Command::new("stty")
        .arg("size")
        .stdin(terminal)
        .stderr(Stdio::null())
        .output()
        .ok()?;
    let said = String::from_utf8(said.stdout).ok()?;
    let width = said.split_whitespace().nth(1)?.parse().ok()?;
    (width > 0).then_some(width)
}

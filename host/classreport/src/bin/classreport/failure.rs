//! What ends a command, how it is told, and its exit status.
use std::io;
use std::path::Path;

use classreport::Refusal;
use classreport::chain::Disagreement;

use crate::json::quoted;
use crate::sheet::shown_id;

/// Why a command ended without doing all of its work.
#[derive(Debug)]
pub struct Failure {
    kind: Kind,
    /// the file that it is about
    file: Option<String>,
    /// line and column in it, from 1
    place: Option<(usize, usize)>,
    message: String,
    /// of a refusal, with the id of its package
    refusal: Option<(Refusal, Option<u64>)>,
}

#[derive(Debug, Clone, Copy, PartialEq, Eq)]
enum Kind {
    Refused,
    Disagreement,
    Usage,
    Files,
    Malformed,
    /// hashes or ids that are not those of the names
    Mismatch,
    /// no failure: something could not be taken over
    LeftOut,
    /// nobody reads what is written
    Closed,
}

impl Failure {
    fn new(kind: Kind, message: impl Into<String>) -> Failure {
        Failure {
            kind,
            file: None,
            place: None,
            message: message.into(),
            refusal: None,
        }
    }

    pub fn usage(message: impl Into<String>) -> Failure {
        Failure::new(Kind::Usage, message)
    }

    pub fn malformed(message: impl Into<String>) -> Failure {
        Failure::new(Kind::Malformed, message)
    }

    /// Hashes or ids that are not those of the names.
    pub fn mismatch(message: impl Into<String>) -> Failure {
        Failure::new(Kind::Mismatch, message)
    }

    /// What could not be taken over, though all else was.
    pub fn left_out(message: impl Into<String>) -> Failure {
        Failure::new(Kind::LeftOut, message)
    }

    /// A refusal, and the id of the package that it names.
    pub fn refused(refusal: Refusal, id: Option<u64>) -> Failure {
        Failure {
            refusal: Some((refusal, id)),
            ..Failure::new(Kind::Refused, refusal.to_string())
        }
    }

    /// A refusal in a file that holds several packages, so that the id is told too.
    pub fn refused_among(refusal: Refusal, id: u64) -> Failure {
        let Refusal { question, .. } = refusal;
        let (place, failed) = (refusal.place(), refusal.failed());
        Failure {
            message: format!("refused {question} ({place}, id {id:016x}): {failed}"),
            ..Failure::refused(refusal, Some(id))
        }
    }

    /// A refusal of a file that is the only block that was asked about, so that no block is told.
    pub fn refused_alone(refusal: Refusal) -> Failure {
        Failure {
            message: format!("refused {}: {}", refusal.question, refusal.failed()),
            ..Failure::refused(refusal, None)
        }
    }

    pub fn disagreement(disagreement: &Disagreement) -> Failure {
        Failure::new(Kind::Disagreement, disagreement.to_string())
    }

    /// A file that can't be read or written.
    pub fn files(error: &io::Error) -> Failure {
        let kind = match error.kind() {
            io::ErrorKind::BrokenPipe => Kind::Closed,
            _ => Kind::Files,
        };
        // Without the number that the system has for it.
        let message = error.to_string();
        let message = message.split(" (os error").next().unwrap_or_default();
        Failure::new(kind, message)
    }

    /// The same, about this file.
    pub fn about(mut self, file: impl AsRef<Path>) -> Failure {
        self.file = Some(file.as_ref().display().to_string());
        self
    }

    /// The same, at this line and column of it.
    pub fn at(mut self, line: usize, column: usize) -> Failure {
        self.place = Some((line, column));
        self
    }

    /// The same, with a reason.
    pub fn because(mut self, reason: &str) -> Failure {
        self.message = format!("{}: {reason}", self.message);
        self
    }

    /// 0 done, 1 refused or differing, 2 usage, 3 input or output, 4 malformed file, 5 mismatch.
    pub fn status(&self) -> u8 {
        match self.kind {
            Kind::Closed | Kind::LeftOut => 0,
            Kind::Refused | Kind::Disagreement => 1,
            Kind::Usage => 2,
            Kind::Files => 3,
            Kind::Malformed => 4,
            Kind::Mismatch => 5,
        }
    }

    /// What is told, without the name of the program: the file with the place in it, then what is wrong.
    pub fn text(&self) -> String {
        let message = crate::text::visible(&self.message);
        let file = self.file.as_deref().map(crate::text::visible);
        match (file, self.place) {
            (None, _) => message,
            (Some(file), None) => format!("{file}: {message}"),
            (Some(file), Some((line, column))) => format!("{file}:{line}:{column}: {message}"),
        }
    }

    /// What is told to a person or, in JSON, to a program; nothing where nobody reads any more.
    pub fn told(&self, json: bool) -> Option<String> {
        match self.kind {
            Kind::Closed => None,
            _ if json => Some(self.json()),
            Kind::Usage => Some(format!(
                "classreport: {}\nTry 'classreport --help'.",
                self.text()
            )),
            _ => Some(format!("classreport: {}", self.text())),
        }
    }

    fn json(&self) -> String {
        let error = match self.kind {
            Kind::Refused => "refused",
            Kind::Disagreement => "disagreement",
            Kind::Usage => "usage",
            Kind::Files => "files",
            Kind::Malformed => "malformed",
            Kind::Mismatch => "mismatch",
            Kind::LeftOut => "left_out",
            Kind::Closed => "closed",
        };
        let mut fields = vec![
            ("error", quoted(error)),
            ("status", self.status().to_string()),
        ];
        if let Some(file) = &self.file {
            fields.push(("file", quoted(file)));
        }
        if let Some((line, column)) = self.place {
            fields.push(("line", line.to_string()));
            fields.push(("column", column.to_string()));
        }
        if let Some((refusal, id)) = self.refusal {
            fields.push(("question", refusal.question.to_string()));
            fields.push(("block", refusal.block.to_string()));
            let package = refusal.package().map(|package| package.to_string());
            fields.push(("package", package.unwrap_or("null".to_owned())));
            let id = id.map(|id| quoted(&shown_id(id)));
            fields.push(("id", id.unwrap_or("null".to_owned())));
        }
        fields.push(("message", quoted(&self.message)));
        let fields: Vec<String> = fields
            .iter()
            .map(|(name, value)| format!("{}:{value}", quoted(name)))
            .collect();
        format!("{{{}}}", fields.join(","))
    }
}

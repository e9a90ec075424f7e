//! `explain`: what a refusal means.
use classreport::{QUESTIONS, Question, Refusal};

use crate::args::Words;
use crate::failure::Failure;
use crate::output;
use crate::terminal::Look;

/// `explain NUMBER` tells of one question, `explain` lists all.
pub fn run(words: &Words) -> Result<u8, Failure> {
    let look = Look::of(words)?;
    let text = match words.operands.first() {
        None => list(),
        Some(word) => {
            let word = word.to_string_lossy();
            let (question, place) = asked(&word).ok_or_else(|| {
                Failure::usage(format!(
                    "'{word}' is neither a question (1 to 22, 24 to 29) nor a number that the call returned"
                ))
            })?;
            told(question, place, look)
        }
    };
    output::write_text(words, &text)?;
    Ok(0)
}

/// A line for each question.
fn list() -> String {
    let line = |question: &Question| format!("{:2}  {}", question.number, question.failed);
    let lines: Vec<String> = QUESTIONS.iter().map(line).collect();
    lines.join("\n") + "\n"
}

/// The question that a word names: by its number, or by all of the number that the call returned, which names a block too.
fn asked(word: &str) -> Option<(&'static Question, Option<Refusal>)> {
    let number: u64 = match word.strip_prefix("0x") {
        Some(digits) => u64::from_str_radix(digits, 16).ok()?,
        None => word.parse().ok()?,
    };
    match Refusal::of_number(number) {
        Some(refusal) => Some((Question::numbered(refusal.question)?, Some(refusal))),
        None => Some((Question::numbered(u8::try_from(number).ok()?)?, None)),
    }
}

fn told(question: &Question, place: Option<Refusal>, look: Look) -> String {
    let Question {
        number,
        failed,
        asked,
        cause,
    } = question;
    let place = place.map_or(String::new(), |refusal| format!(" ({})", refusal.place()));
    let head = look.bold(&format!("Refused {number}{place}: {failed}."));
    let blocks = match number {
        27 | 28 => "It names block 0: what describes a header has no blocks.",
        1 | 2 | 25 | 26 | 29 => "It names block 0, the corpus.",
        8 | 9 | 11..=13 => "It names block 1, the script block.",
        14..=24 => "It names the block of the package: block j + 1 is package j, from 1.",
        _ => "It names the block: 1 is the script block, j + 1 is package j, from 1.",
    };
    format!("{head}\n\nThe question: {asked}\n\nUsually: {cause}\n\n{blocks}\n")
}

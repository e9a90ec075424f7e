//! A chain as boxes, one below the other.
use std::fmt::Write;

use classreport::chain::Chain;

use crate::markup::escaped;
use crate::steps::{Step, What, steps};

/// A chain as boxes from the class down.
pub fn boxes(chain: &Chain) -> String {
    let mut out = String::from("<ol class=\"chain\">");
    for (place, step) in steps(chain).iter().enumerate() {
        out.push_str(&boxed(place, step));
    }
    out.push_str("</ol>");
    out
}

fn boxed(place: usize, step: &Step) -> String {
    let (class, by) = match step.what {
        What::Class => ("class", "super"),
        What::Native => ("native", "super"),
        What::Object => ("object", "super"),
        What::Outer => ("outer", "lies in"),
        What::Broken => ("broken", "breaks off"),
    };
    let by = if place == 0 { "class" } else { by };
    let title = escaped(&step.title);
    let mut out = format!("<li class=\"{class}\" data-by=\"{by}\"><bdi>{title}</bdi>");
    for note in [&step.place, &step.reference].into_iter().flatten() {
        let note = escaped(note);
        let _ = write!(out, "<small><bdi>{note}</bdi></small>");
    }
    out + "</li>"
}

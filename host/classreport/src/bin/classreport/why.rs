//! `why`: a row's chain, step by step in words.
use classreport::chain::Chain;
use classreport::{Row, Section};

use crate::args::Words;
use crate::chains::{self, LEFT_OUT};
use crate::failure::Failure;
use crate::filter::Filter;
use crate::input::subject;
use crate::output;
use crate::steps::{What, steps};
use crate::terminal::Look;
use crate::text::visible;

pub fn run(words: &Words) -> Result<u8, Failure> {
    let look = Look::of(words)?;
    let wanted = words.operands.last().and_then(|word| word.to_str());
    let wanted = wanted.ok_or_else(|| Failure::usage("the export's name is not UTF-8"))?;
    let filter = Filter::of(words)?.of_component(wanted);
    let subject = subject(words, 0)?;
    let mut text = String::new();
    chains::each(&subject, &filter, &mut |section, row, chain| {
        if !text.is_empty() {
            text.push('\n');
        }
        text.push_str(&story(section, row, chain, look));
    })?;
    if text.is_empty() {
        let none = format!(
            "no row has the export or instance '{wanted}'; `show --columns package,export` lists them"
        );
        return Err(Failure::usage(none).about(&subject.name));
    }
    output::write_text(words, &text)?;
    Ok(0)
}

fn story(section: &Section, row: &Row, chain: Option<&Chain>, look: Look) -> String {
    let (instance, export, package) = (
        visible(row.instance),
        visible(row.export),
        visible(section.name),
    );
    let head = format!("{instance} (export {export} of package {package})");
    let mut lines = vec![look.bold(&head)];
    match chain {
        None => lines.push(format!("  its class is {}", visible(row.reference))),
        Some(chain) => lines.extend(told(chain)),
    }
    let class = row.class.map_or("unknown".to_owned(), visible);
    let native = row.native.map_or("unknown".to_owned(), visible);
    let end = format!("  Class: {class}\n  Native class: {native}");
    lines.push(if row.native.is_none() {
        look.warn(&end)
    } else {
        end
    });
    if chain.is_none() {
        lines.push(format!("  {LEFT_OUT}"));
    }
    lines.join("\n") + "\n"
}

/// A line for each reference and each thing that it leads to.
fn told(chain: &Chain) -> Vec<String> {
    let mut lines = Vec::new();
    for (place, step) in steps(chain).iter().enumerate() {
        let whose = if place == 0 {
            "its class is"
        } else {
            "   its super is"
        };
        if let Some(reference) = &step.reference {
            lines.push(format!("  {whose} {}", visible(reference)));
        }
        let title = visible(&step.title);
        let number = place + 1;
        lines.push(match (step.what, &step.place) {
            (What::Class, package) => {
                let package = package.as_deref().map(visible).unwrap_or_default();
                format!("  {number}. class {title}, in {package}")
            }
            (What::Native, _) => format!("  {number}. native class {title}, a script object"),
            (What::Object, _) => format!("  {number}. script object {title}"),
            (What::Outer, _) => format!("     which lies in {title}"),
            (What::Broken, _) => format!("  {number}. here the chain breaks off: {title}"),
        });
    }
    lines
}

//! The chains of a subject's rows, where its corpus is at hand.
use classreport::chain::{Chain, Headers};
use classreport::{Corpus, Row, Section};

use crate::failure::Failure;
use crate::filter::Filter;
use crate::input::Subject;

/// Why there are none where only a report was given.
pub const LEFT_OUT: &str = "Chains are not in a report: give the corpus or the build to see them.";

/// Goes through the rows that a filter takes, each with its chain, which is compared with the row.
pub fn each(
    subject: &Subject,
    filter: &Filter,
    visit: &mut dyn FnMut(&Section, &Row, Option<&Chain>),
) -> Result<(), Failure> {
    let failed = |error| Failure::disagreement(&error).about(&subject.name);
    let Some(source) = &subject.source else {
        for section in filter.sections(&subject.report) {
            filter
                .rows(&section)
                .for_each(|row| visit(&section, &row, None));
        }
        return Ok(());
    };
    let corpus = Corpus::read(&source.bytes).map_err(|refusal| source.refused(refusal))?;
    let headers = Headers::read(&corpus, subject.limits).map_err(failed)?;
    for (package, section) in subject.report.sections().enumerate() {
        if !filter.takes_section(&section) {
            continue;
        }
        let components = headers.components(package, &section).map_err(failed)?;
        for (row, export) in section
            .rows()
            .zip(components)
            .filter(|(row, _)| filter.takes_row(row))
        {
            let chain = headers.chain(package, export, &row).map_err(failed)?;
            visit(&section, &row, Some(&chain));
        }
    }
    Ok(())
}

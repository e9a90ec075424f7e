//! All headers of a corpus, and the chains through them.
use std::collections::HashMap;

use super::agree::{Disagreement, agree};
use super::header::Header;
use super::index::{Kind, kind};
use super::objects::{Line, LineEnd, Objects};
use super::reference::{Key, Meaning, Reference, reference};
use super::{Chain, Class, End};
use crate::{ClassKind, Corpus, Export, Limits, Row, Section};

/// The headers of an accepted corpus, to be followed within the limits of its report.
///
/// ```
/// # let bytes = classreport::CorpusBuilder::new(&[0; 8]).unwrap().finish();
/// let corpus = classreport::Corpus::read(&bytes)?;
/// let report = classreport::report(&bytes)?;
/// let headers = classreport::chain::Headers::read(&corpus, Default::default())?;
/// for (package, section) in report.sections().enumerate() {
///     for (row, export) in section.rows().zip(headers.components(package, &section)?) {
///         let chain = headers.chain(package, export, &row)?;
///         println!("{}: {} classes", row.export, chain.classes.len());
///     }
/// }
/// # Ok::<(), Box<dyn std::error::Error>>(())
/// ```
pub struct Headers {
    limits: Limits,
    pub(super) objects: Objects,
    pub(super) packages: Vec<Header>,
    /// every class by its key: package and export, both from 0
    classes: HashMap<Key, (usize, usize)>,
    /// a package of each id
    by_id: HashMap<u64, usize>,
}

impl Headers {
    /// Reads the headers of a corpus that the call accepted with these limits.
    ///
    /// # Errors
    /// Where a block can't be read here, though the call read it.
    pub fn read(corpus: &Corpus, limits: Limits) -> Result<Headers, Disagreement> {
        let objects = Objects::read(corpus.script()).ok_or(Disagreement::unreadable(1))?;
        let mut headers = Headers {
            limits,
            objects,
            packages: Vec::new(),
            classes: HashMap::new(),
            by_id: HashMap::new(),
        };
        for (number, package) in corpus.packages().iter().enumerate() {
            let header = Header::read(package.id, package.bytes);
            let header = header.ok_or(Disagreement::unreadable(number + 2))?;
            headers.add(number, header);
        }
        Ok(headers)
    }

    fn line(&self, index: u64) -> Line {
        self.objects.line(index, self.limits.objects)
    }

    fn add(&mut self, number: usize, header: Header) {
        for (place, export) in header.exports.iter().enumerate() {
            if self.is_class(export) {
                self.classes
                    .insert((header.id, export.hash), (number, place));
            }
        }
        self.by_id.entry(header.id).or_insert(number);
        self.packages.push(header);
    }

    /// Whether an export defines a class: its own class is a known script object called something with `Class` at the
    /// end, and it has a super and a hash.
    fn is_class(&self, export: &Export) -> bool {
        if kind(export.class) != Kind::Script
            || kind(export.super_index) == Kind::Null
            || export.hash == 0
        {
            return false;
        }
        let line = self.line(export.class);
        line.end == LineEnd::Null
            && line
                .names
                .first()
                .is_some_and(|name| name.ends_with("Class"))
    }

    /// The exports, from 0, of a package (from 0) that are components, in the order of their rows.
    ///
    /// # Errors
    /// Where they are not as many as the section has rows.
    pub fn components(
        &self,
        package: usize,
        section: &Section,
    ) -> Result<Vec<usize>, Disagreement> {
        let header = self.packages.get(package);
        let header = header.ok_or(Disagreement::unreadable(package + 2))?;
        let exports = header.exports.iter().enumerate();
        let found: Vec<usize> = exports
            .filter(|(_, export)| header.is_component(export))
            .map(|(place, _)| place)
            .collect();
        Disagreement::unless(
            found.len() == section.row_count as usize,
            (package, "", "the number of rows"),
            &section.row_count.to_string(),
            &found.len().to_string(),
        )?;
        Ok(found)
    }

    /// The chain of a component, given by package and export (both from 0), and the row that the call gave for it.
    ///
    /// # Errors
    /// Where the chain ends elsewhere than the row says, or there is no such export.
    pub fn chain(&self, package: usize, export: usize, row: &Row) -> Result<Chain, Disagreement> {
        let header = self.packages.get(package);
        let found = header.and_then(|header| Some((header, header.exports.get(export)?)));
        let (header, export) = found.ok_or(Disagreement::unreadable(package + 2))?;
        let class = reference(header, export.class);
        let text = class.text.clone();
        let chain = self.follow(class);
        agree(package, row, &header.rendered(export), &text, &chain)?;
        Ok(chain)
    }

    fn follow(&self, from: Reference) -> Chain {
        let class_kind = self.class_kind(&from.meaning);
        let mut classes = Vec::new();
        let mut keys = Vec::new();
        let mut at = from;
        let end = loop {
            let (Meaning::Import(key) | Meaning::Export(key)) = at.meaning else {
                break self.end(&at.meaning);
            };
            if let Some(place) = keys.iter().position(|seen| *seen == key) {
                break End::Ring(place);
            }
            let Some((package, export)) = self.classes.get(&key).copied() else {
                break self.no_class(key);
            };
            if classes.len() == self.limits.lookups as usize {
                break End::TooLong;
            }
            keys.push(key);
            let header = &self.packages[package];
            let next = reference(header, header.exports[export].super_index);
            classes.push(Class {
                reference: at.text,
                path: header.class_path(&header.exports[export]),
                package: header.name.clone(),
                package_number: package + 1,
            });
            at = next;
        };
        Chain {
            class_kind,
            classes,
            last_reference: at.text,
            end,
        }
    }

    /// Where a reference leads that means no class of a package.
    fn end(&self, meaning: &Meaning) -> End {
        match meaning {
            Meaning::Script(index) => End::Script(self.line(*index)),
            Meaning::Bad => End::Bad,
            _ => End::Null,
        }
    }

    fn no_class(&self, (id, hash): Key) -> End {
        let package = self.by_id.get(&id);
        End::NoClass {
            id,
            hash,
            package: package.map(|number| self.packages[*number].name.clone()),
        }
    }

    fn class_kind(&self, class: &Meaning) -> ClassKind {
        match class {
            Meaning::Script(index) if self.line(*index).end == LineEnd::Null => {
                ClassKind::ScriptFound
            }
            Meaning::Script(_) => ClassKind::ScriptUnresolved,
            Meaning::Import(key) if self.classes.contains_key(key) => ClassKind::ImportFound,
            Meaning::Import(_) => ClassKind::ImportUnresolved,
            Meaning::Export(key) if self.classes.contains_key(key) => ClassKind::ExportFound,
            Meaning::Export(_) => ClassKind::ExportUnresolved,
            Meaning::Null => ClassKind::Null,
            Meaning::Bad => ClassKind::Bad,
        }
    }
}

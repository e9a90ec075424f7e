//! A whole corpus described by what it means.
use crate::draft::Draft;
use crate::{Package, ScriptEntry, Text, corpus, script_block};

#[derive(Debug, Clone, Default)]
pub struct Described {
    /// the script block's names and entries
    pub names: Vec<Text>,
    pub entries: Vec<ScriptEntry>,
    /// ids and packages
    pub packages: Vec<(u64, Package)>,
}

impl Described {
    pub fn draft(&self) -> Draft {
        Draft::of(self)
    }

    pub fn bytes(&self) -> Vec<u8> {
        let packages: Vec<(u64, Vec<u8>)> = (self.packages.iter())
            .map(|(id, package)| (*id, package.bytes()))
            .collect();
        corpus(&script_block(&self.names, &self.entries), &packages)
    }

    /// Adds a script object with a name of its own and gives its global index.
    pub fn add_object(&mut self, name: Text, number: u32, global: u64, outer: u64) -> u64 {
        self.names.push(name);
        let name = self.names.len() as u32 - 1;
        self.entries.push(ScriptEntry {
            name,
            number,
            global,
            outer,
        });
        global
    }
}

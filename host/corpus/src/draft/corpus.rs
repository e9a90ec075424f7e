use super::{PackageDraft, ScriptDraft};
use crate::Described;

/// A corpus and the lengths of the buffers that it is called with. An absent length or count is written as it is.
#[derive(Debug, Clone)]
pub struct Draft {
    pub length: Option<u32>,
    pub version: u8,
    pub script_length: Option<u32>,
    pub script: ScriptDraft,
    pub count: Option<u32>,
    pub packages: Vec<(u64, PackageDraft)>,
    /// the last package's length
    pub last_length: Option<u32>,
    pub tail: Vec<u8>,
    /// the corpus's length where it is cut short
    pub cut: Option<usize>,
    pub work: u64,
    pub report: u64,
}

impl Draft {
    pub fn of(d: &Described) -> Draft {
        Draft {
            length: None,
            version: 1,
            script_length: None,
            script: ScriptDraft::of(&d.names, &d.entries),
            count: None,
            packages: (d.packages.iter())
                .map(|(id, p)| (*id, PackageDraft::of(p)))
                .collect(),
            last_length: None,
            tail: Vec::new(),
            cut: None,
            work: 1 << 16,
            report: 1 << 15,
        }
    }

    pub fn bytes(&self) -> Vec<u8> {
        let mut out = vec![0, 0, 0, 0, self.version];
        let script = self.script.bytes();
        out.extend(
            self.script_length
                .unwrap_or(script.len() as u32)
                .to_be_bytes(),
        );
        out.extend(script);
        let count = self.packages.len();
        out.extend(self.count.unwrap_or(count as u32).to_be_bytes());
        for (i, (id, package)) in self.packages.iter().enumerate() {
            let block = package.bytes();
            let told = self.last_length.filter(|_| i + 1 == count);
            out.extend(id.to_be_bytes());
            out.extend(told.unwrap_or(block.len() as u32).to_be_bytes());
            out.extend(block);
        }
        out.extend(&self.tail);
        let rest = self.length.unwrap_or(out.len() as u32 - 4);
        out[..4].copy_from_slice(&rest.to_be_bytes());
        out.truncate(self.cut.unwrap_or(usize::MAX));
        out
    }
}

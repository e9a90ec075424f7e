use super::BatchDraft;
use crate::{NULL, ScriptEntry, Text};

/// The script block.
#[derive(Debug, Clone, Default)]
pub struct ScriptDraft {
    pub batch: BatchDraft,
    pub count: i32,
    pub entries: Vec<EntryDraft>,
    pub tail: Vec<u8>,
    /// the block's length where it is cut short
    pub cut: Option<usize>,
}

#[derive(Debug, Clone, Copy)]
pub struct EntryDraft {
    pub name: u32,
    pub number: u32,
    pub global: u64,
    pub outer: u64,
    pub default_object: u64,
}

impl ScriptDraft {
    pub fn of(names: &[Text], entries: &[ScriptEntry]) -> ScriptDraft {
        let entry = |e: &ScriptEntry| EntryDraft {
            name: e.name,
            number: e.number,
            global: e.global,
            outer: e.outer,
            default_object: NULL,
        };
        ScriptDraft {
            batch: BatchDraft::of(names),
            count: entries.len() as i32,
            entries: entries.iter().map(entry).collect(),
            ..ScriptDraft::default()
        }
    }

    pub fn bytes(&self) -> Vec<u8> {
        let mut out = Vec::new();
        self.batch.write(&mut out);
        out.extend(self.count.to_le_bytes());
        for e in &self.entries {
            out.extend(e.name.to_le_bytes());
            out.extend(e.number.to_le_bytes());
            let indices = [e.global, e.outer, e.default_object];
            out.extend(indices.map(u64::to_le_bytes).as_flattened());
        }
        out.extend(&self.tail);
        out.truncate(self.cut.unwrap_or(usize::MAX));
        out
    }
}

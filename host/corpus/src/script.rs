//! The script block.
use crate::Text;
use crate::draft::ScriptDraft;

#[derive(Debug, Clone, Copy)]
pub struct ScriptEntry {
    pub name: u32,
    pub number: u32,
    pub global: u64,
    pub outer: u64,
}

pub fn script_block(names: &[Text], entries: &[ScriptEntry]) -> Vec<u8> {
    ScriptDraft::of(names, entries).bytes()
}

use super::{Batch, le, mapped};

#[derive(Debug)]
pub struct Script {
    pub batch: Batch,
    pub entries: Vec<Entry>,
}

#[derive(Debug)]
pub struct Entry {
    pub at: usize,
    pub name: (usize, u32),
    pub global: u64,
    pub outer: u64,
}

impl Script {
    pub fn read(bytes: &[u8], at: usize) -> Script {
        let batch = Batch::read(bytes, at);
        let first = batch.end + 4;
        let entry = |i: u64| {
            let at = first + 32 * i as usize;
            Entry {
                at,
                name: mapped(bytes, at),
                global: le(bytes, at + 8, 8),
                outer: le(bytes, at + 16, 8),
            }
        };
        let entries = (0..le(bytes, batch.end, 4)).map(entry).collect();
        Script { batch, entries }
    }
}

//! The rearranger changes what document 01 lists as passed over and nothing else, here worked out from drafts.
use corpus::damage::sound;
use corpus::draft::{BatchDraft, Draft, ExportDraft, PackageDraft};
use corpus::generate::{Random, dense_described};
use corpus::rearrange::rearrange;

/// Gives every passed-over field all bits or none.
fn fill(draft: &mut Draft, bits: u64) {
    fill_batch(&mut draft.script.batch, bits);
    for entry in &mut draft.script.entries {
        entry.name = top_bits(entry.name, bits);
        entry.default_object = bits;
    }
    for (_, package) in &mut draft.packages {
        fill_package(package, bits);
    }
}

fn top_bits(index: u32, bits: u64) -> u32 {
    index & 0x3fff_ffff | bits as u32 & 0xc000_0000
}

fn fill_batch(batch: &mut BatchDraft, bits: u64) {
    batch.hashes.fill(bits as u8);
}

fn fill_package(p: &mut PackageDraft, bits: u64) {
    fill_batch(&mut p.batch, bits);
    fill_batch(&mut p.imported, bits);
    p.name.0 = top_bits(p.name.0, bits);
    (p.package_flags, p.cooked_size) = (bits as u32, bits as u32);
    p.bulk.fill(bits as u8);
    p.imports.fill(bits);
    p.skipped.iter_mut().for_each(|s| s.fill(bits as u8));
    p.tail.fill(bits as u8);
    for e in &mut p.exports {
        *e = ExportDraft {
            name: top_bits(e.name, bits),
            serial: [bits; 2],
            template: bits,
            object_flags: bits as u32,
            filter: [bits as u8; 4],
            ..*e
        };
    }
}

fn filled(draft: &Draft, bits: u64) -> Vec<u8> {
    let mut draft = draft.clone();
    fill(&mut draft, bits);
    draft.bytes()
}

/// The draft with its packages in that order.
fn ordered(draft: &Draft, order: &[usize]) -> Draft {
    let mut out = draft.clone();
    out.packages = order.iter().map(|i| draft.packages[*i].clone()).collect();
    out
}

#[test]
fn nothing_else_changes() {
    let mut random = Random(8);
    let mut reordered = 0;
    for seed in 0..500 {
        let draft = dense_described(seed).draft();
        let new = rearrange(&draft.bytes(), &mut random);
        let same = ordered(&draft, &new.order);
        let (none, all) = (filled(&same, 0), filled(&same, u64::MAX));
        for (at, byte) in new.corpus.iter().enumerate() {
            let passed_over = none[at] ^ all[at];
            assert_eq!(byte & !passed_over, none[at] & !passed_over, "byte {at}");
        }
        assert_eq!(new.corpus.len(), none.len());
        reordered += u64::from(!new.order.is_sorted());
    }
    assert!(reordered > 100);
}

/// In the end every passed-over bit has had both values.
#[test]
fn all_of_it_changes() {
    let mut random = Random(9);
    let mut draft = sound(0);
    draft.packages.truncate(1);
    let mut seen = vec![[0u8; 2]; draft.bytes().len()];
    for _ in 0..200 {
        let new = rearrange(&draft.bytes(), &mut random);
        for (bits, byte) in seen.iter_mut().zip(&new.corpus) {
            *bits = [bits[0] | !byte, bits[1] | byte];
        }
    }
    let (none, all) = (filled(&draft, 0), filled(&draft, u64::MAX));
    for (at, bits) in seen.iter().enumerate() {
        assert_eq!(bits[0] & bits[1], none[at] ^ all[at], "byte {at}");
    }
}

//! Blocks of every length.
use crate::draft::Draft;

/// The draft with each block cut to each length in turn; packages also with a header size that says so.
pub fn cuts(draft: &Draft) -> impl Iterator<Item = Vec<u8>> {
    let script = (0..draft.script.bytes().len()).map(move |n| {
        let mut cut = draft.clone();
        cut.script.cut = Some(n);
        cut.bytes()
    });
    let packages = (0..draft.packages.len()).flat_map(move |i| {
        let length = draft.packages[i].1.bytes().len();
        (0..length).flat_map(move |n| {
            let mut cut = draft.clone();
            cut.packages[i].1.cut = Some(n);
            let short = cut.bytes();
            cut.packages[i].1.header_size = n as u32;
            [short, cut.bytes()]
        })
    });
    script.chain(packages)
}

//! The model against the recorded list of the reference's answers; the reference itself isn't needed.
use corpus::list::{read, sum};
use model::class_report;

fn committed(name: &str) -> Vec<u8> {
    let data = concat!(env!("CARGO_MANIFEST_DIR"), "/../../crates/replay/data/");
    std::fs::read(format!("{data}{name}")).expect("the committed list")
}

#[test]
fn answers_as_recorded() {
    let cases = read(&committed("list.bin")).expect("a whole list");
    assert!(cases.len() >= 300);
    for (i, case) in cases.iter().enumerate() {
        let given = class_report(&case.corpus, case.work, case.buffer);
        let number = answer::number(&given);
        let recorded = case.answer;
        assert_eq!(number, recorded, "case {i}: {number:#x}, {recorded:#x}");
        let report = given.unwrap_or_default();
        assert!(report == case.report, "case {i}: another report");
    }
}

/// A changed byte may be one that no answer shows.
#[test]
fn list_is_whole() {
    let recorded = String::from_utf8(committed("list.sum")).expect("a sum in ASCII");
    assert_eq!(sum(&committed("list.bin")), recorded, "the list's sum");
}

//! The call against the recorded list of the reference's answers.
use corpus::list::read;
use corpus::tally::Tally;

use crate::judged::{Judged, Reports};
use crate::lent::Caller;

#[test]
fn answers_as_recorded() {
    let list = concat!(
        env!("CARGO_MANIFEST_DIR"),
        "/../../crates/replay/data/list.bin"
    );
    let list = std::fs::read(list).expect("the recorded list");
    let cases = read(&list).expect("a whole list");
    let mut caller = Caller::new(Reports::call, 4);
    let mut tally = Tally::default();
    for (i, case) in cases.iter().enumerate() {
        let given = caller.ask(&case.corpus, case.work as usize, case.buffer as usize);
        let number = answer::number(&given);
        assert_eq!(number, case.answer, "case {i}: {number:#x}");
        assert!(
            given.as_deref().unwrap_or_default() == case.report,
            "case {i}"
        );
        tally.add(case.outcome());
    }
    println!("{} cases: {tally}", cases.len());
    assert_eq!(tally.missing(), Vec::<String>::new());
}

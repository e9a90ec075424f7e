//! The number against document 01's sentence, at the edges of its fields.
use answer::{Refusal, number, refusal};

#[test]
fn each_field_has_its_bits() {
    let packed: [(Refusal, u64); 5] = [
        ((1, 0), 0x8000_0001_0000_0000),
        ((3, 1), 0x8000_0003_0000_0001),
        ((26, 0), 0x8000_001a_0000_0000),
        ((255, 0), 0x8000_00ff_0000_0000),
        ((0, u32::MAX), 0x8000_0000_ffff_ffff),
    ];
    for (refused, expected) in packed {
        assert_eq!(number(&Err(refused)), expected, "{refused:?}");
        assert_eq!(refusal(expected), Some(refused), "{expected:#x}");
    }
}

#[test]
fn a_length_is_no_refusal() {
    assert_eq!(number(&Ok(vec![0; 9])), 9);
    for length in [0, 9, 4_294_967_299, u64::MAX >> 1] {
        assert_eq!(refusal(length), None, "{length}");
    }
}

//! The lowering of reference, model and generator on every scalar value. The reference's is seen by its hash.
use oracle::cityhash::hash_package_name;

fn hash(c: char) -> u64 {
    let units = &mut [0; 2];
    let units: Vec<[u8; 2]> = (c.encode_utf16(units).iter())
        .map(|unit| unit.to_le_bytes())
        .collect();
    cityhasher::hash(units.as_flattened())
}

#[test]
fn every_scalar_value() {
    let mut changed = 0;
    for c in '\0'..=char::MAX {
        let low = model::lower(c);
        assert_eq!(hash_package_name(&c.to_string()), hash(low), "{c:?}");
        assert_eq!(corpus::name::lower(c), low, "{c:?}");
        changed += u64::from(c != low);
    }
    assert_eq!(changed, 1_487);
    assert_eq!(model::lower('\u{130}'), '\u{130}');
}

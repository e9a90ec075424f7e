//! The model's CityHash64 against the stand-in's, which is held against Google's own vectors.

#[test]
fn every_length() {
    let text: Vec<u8> = (0..2_200u32)
        .map(|i| (i.wrapping_mul(0x9e37_79b9) >> 24) as u8)
        .collect();
    for n in 0..=1_100 {
        let part = &text[n..2 * n];
        assert_eq!(
            model::city_hash64(part),
            cityhasher::hash(part),
            "length {n}"
        );
    }
}

//! The stand-in against Google's own code: vectors.txt, printed by vectors.cc.

/// Byte k of the text of length n, as vectors.cc has it.
fn byte(n: u64, k: u64) -> u8 {
    let mut z = (n << 32) + k;
    z = (z ^ (z >> 30)).wrapping_mul(0xbf58_476d_1ce4_e5b9);
    z = (z ^ (z >> 27)).wrapping_mul(0x94d0_49bb_1331_11eb);
    ((z ^ (z >> 31)) >> 56) as u8
}

#[test]
fn every_vector() {
    let mut lines = 0;
    for line in include_str!("../vectors.txt").lines() {
        let (n, hash) = line.split_once(' ').expect("a length and a hash");
        let n: u64 = n.parse().expect("a length");
        let text: Vec<u8> = (0..n).map(|k| byte(n, k)).collect();
        let hash = u64::from_str_radix(hash, 16).expect("a hash");
        assert_eq!(cityhasher::hash(text), hash, "length {n}");
        lines += 1;
    }
    assert_eq!(lines, 270);
}

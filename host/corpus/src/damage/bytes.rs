//! Damage to bytes by chance.
use crate::decode::decode;
use crate::generate::Random;

/// Damages up to four places. Some take eight bytes from elsewhere, so that indices, hashes and names meet.
pub fn damage(random: &mut Random, bytes: &mut [u8], elsewhere: &[u8]) {
    for _ in 0..=random.below(4) {
        let at = random.below(bytes.len() as u64) as usize;
        match random.below(9) {
            0 => bytes[at] = random.next() as u8,
            1 => bytes[at] ^= 1 << random.below(8),
            2 => bytes[at] = 0,
            3 => bytes[at] = 0xff,
            4 | 5 => put(bytes, at, &edge(random)),
            6 => {
                let from = random.below(elsewhere.len() as u64 - 8) as usize & !7;
                put(bytes, at & !7, &elsewhere[from..from + 8]);
            }
            7 => bytes[at] = bytes[at].wrapping_sub(1),
            _ => bytes[at] = bytes[at].wrapping_add(1),
        }
    }
}

/// A number at an edge of its range, in 4 or 8 bytes.
fn edge(random: &mut Random) -> Vec<u8> {
    let edges = [
        0,
        1,
        2,
        0x7fff_ffff,
        0x8000_0000,
        0xffff_ffff,
        1 << 62,
        1 << 63,
        u64::MAX,
    ];
    let length = if random.chance(50) { 4 } else { 8 };
    random.pick(&edges).to_le_bytes()[..length].to_vec()
}

/// Overwrites as much as fits.
fn put(bytes: &mut [u8], at: usize, new: &[u8]) {
    let n = new.len().min(bytes.len() - at);
    bytes[at..at + n].copy_from_slice(&new[..n]);
}

/// An accepted corpus with damage in one block, often near its start, where most is decided; sometimes anywhere.
pub fn damage_block(random: &mut Random, corpus: &[u8]) -> Vec<u8> {
    let mut out = corpus.to_vec();
    let parts = decode(corpus);
    let script_end = parts
        .packages
        .first()
        .map_or(corpus.len(), |p| p.block.start - 12)
        - 4;
    let block = match random.below(parts.packages.len() as u64 + 1) {
        0 => 9..script_end,
        k => parts.packages[k as usize - 1].block.clone(),
    };
    let range = match random.below(10) {
        0 => 0..corpus.len(),
        1..6 => block.start..block.end.min(block.start + 120),
        _ => block,
    };
    damage(random, &mut out[range], corpus);
    out
}

/// A description with damage by chance: bytes changed, taken out or put in, or cut short; mostly with the length that it
/// then has, since most is asked behind that.
pub fn damage_description(random: &mut Random, description: &[u8]) -> Vec<u8> {
    let mut out = description.to_vec();
    let at = random.below(out.len() as u64) as usize;
    let some = random.below(9) as usize;
    match random.below(10) {
        0 => out.truncate(at),
        1 => drop(out.drain(at..out.len().min(at + some))),
        2 => drop(out.splice(at..at, vec![0; some])),
        _ => damage(random, &mut out[4..], description),
    }
    if random.chance(95) && out.len() >= 4 {
        let length = out.len() as u32 - 4;
        put(&mut out, 0, &length.to_be_bytes());
    }
    out
}

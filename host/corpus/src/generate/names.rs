//! Words and package names.
use super::Random;
use super::spelling::ACCENTED;

#[rustfmt::skip]
const WORDS: [&str; 40] = [
    "Ability", "Aim", "Alarm", "Ammo", "Anchor", "Audio", "Barrier", "Beam", "Blind", "Bomb",
    "Camera", "Capsule", "Character", "Charge", "Collision", "Cooldown", "Damage", "Decal", "Door",
    "Drone", "Effect", "Equip", "Flash", "Ground", "Health", "Impact", "Light", "Mesh", "Montage",
    "Niagara", "Orb", "Particle", "Player", "Projectile", "Reload", "Scene", "Shield", "Smoke",
    "Target", "Widget",
];

/// Text that one byte to a character can't hold; some of it in surrogate pairs.
pub const WIDE: [&str; 6] = ["音声", "Эффект", "Größe€", "테스트", "🎯Target", "ライト"];

/// Names that a careless reader could take for something else.
pub const ODD: [&str; 8] = ["?", "", "a.b", "c:d", ".", ":", "é", "/x.y:z"];

pub fn words(random: &mut Random, n: u64) -> String {
    (0..n).map(|_| *random.pick(&WORDS)).collect()
}

/// Of so many packages one has a name beyond ASCII.
const ACCENTS: u64 = 8;

/// Package i's name without its last part, the number i as an instance number has it: any package can import any
/// other, written or not.
pub fn package_base(seed: u64, i: u64) -> String {
    let mut random = Random(seed ^ i.wrapping_mul(0xd6e8_feb8_6659_fd93));
    let (folder, group, leaf) = (
        words(&mut random, 1),
        words(&mut random, 2),
        words(&mut random, 2),
    );
    let accent = match i % ACCENTS {
        5 => ACCENTED[(i / ACCENTS) as usize % ACCENTED.len()],
        _ => "",
    };
    format!("/Game/{folder}/{group}/BP_{leaf}{accent}")
}

/// Package i's name, rendered.
pub fn package_name(seed: u64, i: u64) -> String {
    format!("{}_{i}", package_base(seed, i))
}

/// The public hash of package i's own class.
pub fn class_hash(seed: u64, i: u64) -> u64 {
    Random(seed ^ i.wrapping_mul(0xa076_1d64_78bd_642f)).next() | 1
}

//! Generated, damaged and rearranged corpora, with a count of what was answered. Whatever is never answered fails the test.
use corpus::damage::sound;
use corpus::generate::{LARGE, dense, generate, hashed, heavy, hostile, ladder, spelt};

use super::Verifies;
use crate::agree::{accented, cut_short, damaged, faulty, larger, small};
use crate::asked::Asked;
use crate::demand3::Held;
use crate::hostile::ask_all;

fn named(seed: u64) -> Vec<u8> {
    hashed(seed).bytes()
}

#[test]
fn verify_oracle_and_model_agree() {
    let mut all = Asked::<Verifies>::new(11);
    small(&mut all, (400_000..417_000).map(named));
    small(&mut all, (400_000..401_000).map(dense));
    accented(&mut all, 400_000..400_500);
    larger(&mut all, 400..405);
    damaged(&mut all, 9_000, named);
    (50..53).for_each(|seed| faulty(&mut all, &sound(seed)));
    (50..52).for_each(|seed| cut_short(&mut all, &hashed(seed).draft()));
    cut_short(&mut all, &sound(2));
    all.all_of(50_000);
}

#[test]
fn verify_hostile_shapes() {
    let mut asked = Asked::<Verifies>::new(12);
    ask_all(&mut asked, &heavy::SHAPES);
    ask_all(&mut asked, &hostile::SHAPES);
}

/// The counts stay, and each package keeps its flag; what is passed over counts for nothing.
#[test]
fn counts_stay_and_flags_move() {
    let small = (500_000..506_000).map(named);
    let accents = (500_000..500_500).map(|seed| spelt(seed).bytes());
    let medium = (500..510).map(|seed| generate(seed, 20_000));
    let lines = ladder::all(10).map(|line| line.hashed().bytes());
    let all = small.chain(accents).chain(medium).chain(lines);
    let held = Held::over::<Verifies>(13, all.chain([generate(500, LARGE)]));
    held.all_changed();
    let unmoved = held.corpora - held.reordered;
    println!("{unmoved} of them in their order: the same bytes");
    assert!(held.reordered > 1_000 && unmoved > 1_000);
}

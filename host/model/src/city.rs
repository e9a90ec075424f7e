//! CityHash64 v1.1 (google/cityhash, city.cc); arithmetic wraps at 64 bits.
#![expect(
    clippy::many_single_char_names,
    reason = "the letters are those of city.cc"
)]
use std::num::Wrapping;

use crate::reader::little_endian;

type Word = Wrapping<u64>;

const K0: Word = Wrapping(0xc3a5_c85c_97cb_3127);
const K1: Word = Wrapping(0xb492_b66f_be98_f273);
const K2: Word = Wrapping(0x9ae1_6a3b_2f90_404f);
const K_MUL: Word = Wrapping(0x9ddf_ea08_eb38_2d69);
const NINE: Word = Wrapping(9);

pub fn city_hash64(text: &[u8]) -> u64 {
    let hash = match text.len() {
        0..=16 => upto16(text),
        17..=32 => upto32(text),
        33..=64 => upto64(text),
        _ => above64(text),
    };
    hash.0
}

fn number(n: usize) -> Word {
    Wrapping(n as u64)
}

/// The 8 bytes at a place.
fn word(text: &[u8], at: usize) -> Word {
    Wrapping(little_endian(&text[at..at + 8]))
}

fn rotate(x: Word, by: u32) -> Word {
    Wrapping(x.0.rotate_right(by))
}

fn swap(x: Word) -> Word {
    Wrapping(x.0.swap_bytes())
}

fn shift_mix(x: Word) -> Word {
    x ^ (x >> 47)
}

fn two_words(u: Word, v: Word, mul: Word) -> Word {
    let a = shift_mix((u ^ v) * mul);
    shift_mix((v ^ a) * mul) * mul
}

fn upto16(text: &[u8]) -> Word {
    let n = text.len();
    let mul = K2 + number(2 * n);
    if n >= 8 {
        let a = word(text, 0) + K2;
        let b = word(text, n - 8);
        return two_words(rotate(b, 37) * mul + a, (rotate(a, 25) + b) * mul, mul);
    }
    if n >= 4 {
        let half = |at: usize| Wrapping(little_endian(&text[at..at + 4]));
        return two_words(number(n) + (half(0) << 3), half(n - 4), mul);
    }
    if n > 0 {
        let byte = |at: usize| number(usize::from(text[at]));
        let y = byte(0) + (byte(n / 2) << 8);
        let z = number(n) + (byte(n - 1) << 2);
        return shift_mix((y * K2) ^ (z * K0)) * K2;
    }
    K2
}

fn upto32(text: &[u8]) -> Word {
    let n = text.len();
    let mul = K2 + number(2 * n);
    let a = word(text, 0) * K1;
    let b = word(text, 8);
    let c = word(text, n - 8) * mul;
    let d = word(text, n - 16) * K2;
    let u = rotate(a + b, 43) + rotate(c, 30) + d;
    let v = a + rotate(b + K2, 18) + c;
    two_words(u, v, mul)
}

fn upto64(text: &[u8]) -> Word {
    let n = text.len();
    let mul = K2 + number(2 * n);
    let a = word(text, 0) * K2;
    let b = word(text, 8);
    let c = word(text, n - 24);
    let d = word(text, n - 32);
    let e = word(text, 16) * K2;
    let f = word(text, 24) * NINE;
    let g = word(text, n - 8);
    let h = word(text, n - 16) * mul;
    let u = rotate(a + g, 43) + (rotate(b, 30) + c) * NINE;
    let v = ((a + g) ^ d) + f + number(1);
    let w = swap((u + v) * mul) + h;
    let x = rotate(e + f, 42) + c;
    let y = (swap((v + w) * mul) + g) * mul;
    let z = e + f + c;
    let a = swap((x + z) * mul + y) + b;
    shift_mix((z + a) * mul + d + h) * mul + x
}

/// Four words and two seeds to two words.
fn weak(text: &[u8], at: usize, a: Word, b: Word) -> (Word, Word) {
    let [w, x, y, z] = [0, 8, 16, 24].map(|i| word(text, at + i));
    let a = a + w;
    let sum = a + x + y;
    (sum + z, rotate(b + a + z, 21) + rotate(sum, 44) + a)
}

fn above64(text: &[u8]) -> Word {
    let n = text.len();
    let mut x = word(text, n - 40);
    let mut y = word(text, n - 16) + word(text, n - 56);
    let mut z = two_words(word(text, n - 48) + number(n), word(text, n - 24), K_MUL);
    let mut v = weak(text, n - 64, number(n), z);
    let mut w = weak(text, n - 32, y + K1, x);
    x = x * K1 + word(text, 0);
    // whole blocks of 64; the last 64 bytes went in above
    for at in (0..(n - 1) / 64 * 64).step_by(64) {
        x = (rotate(x + y + v.0 + word(text, at + 8), 37) * K1) ^ w.1;
        y = rotate(y + v.1 + word(text, at + 48), 42) * K1 + v.0 + word(text, at + 40);
        z = rotate(z + w.0, 33) * K1;
        v = weak(text, at, v.1 * K1, x + w.0);
        w = weak(text, at + 32, z + w.1, y + word(text, at + 16));
        (x, z) = (z, x);
    }
    let first = two_words(v.0, w.0, K_MUL) + shift_mix(y) * K1 + z;
    let second = two_words(v.1, w.1, K_MUL) + x;
    two_words(first, second, K_MUL)
}

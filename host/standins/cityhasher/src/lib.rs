//! Stand-in for the crate `cityhasher`, of which the reference calls `cityhasher::hash(Vec<u8>) -> u64` alone:
//! the published CityHash64 v1.1 (google/cityhash, city.cc).
#![expect(
    clippy::many_single_char_names,
    reason = "the letters are those of city.cc"
)]

const K0: u64 = 0xc3a5_c85c_97cb_3127;
const K1: u64 = 0xb492_b66f_be98_f273;
const K2: u64 = 0x9ae1_6a3b_2f90_404f;
const K_MUL: u64 = 0x9ddf_ea08_eb38_2d69;

/// The one function that the reference calls.
pub fn hash(bytes: impl AsRef<[u8]>) -> u64 {
    city64(bytes.as_ref())
}

/// CityHash64.
pub fn city64(s: &[u8]) -> u64 {
    match s.len() {
        0 => K2,
        1..=3 => len1to3(s),
        4..=7 => len4to7(s),
        8..=16 => len8to16(s),
        17..=32 => len17to32(s),
        33..=64 => len33to64(s),
        _ => long(s),
    }
}

fn fetch64(s: &[u8], at: usize) -> u64 {
    u64::from_le_bytes(s[at..at + 8].try_into().expect("eight bytes"))
}

fn fetch32(s: &[u8], at: usize) -> u64 {
    u64::from(u32::from_le_bytes(
        s[at..at + 4].try_into().expect("four bytes"),
    ))
}

fn shift_mix(v: u64) -> u64 {
    v ^ (v >> 47)
}

/// The multiplier of the short branches: new in v1.1.
fn mul_of(s: &[u8]) -> u64 {
    K2.wrapping_add(s.len() as u64 * 2)
}

fn hash_len16(u: u64, v: u64, mul: u64) -> u64 {
    let a = shift_mix((u ^ v).wrapping_mul(mul));
    let b = shift_mix((v ^ a).wrapping_mul(mul));
    b.wrapping_mul(mul)
}

fn len1to3(s: &[u8]) -> u64 {
    let (a, b, c) = (s[0], s[s.len() / 2], s[s.len() - 1]);
    let y = u64::from(a) + (u64::from(b) << 8);
    let z = s.len() as u64 + (u64::from(c) << 2);
    shift_mix(y.wrapping_mul(K2) ^ z.wrapping_mul(K0)).wrapping_mul(K2)
}

fn len4to7(s: &[u8]) -> u64 {
    let len = s.len();
    let first = len as u64 + (fetch32(s, 0) << 3);
    hash_len16(first, fetch32(s, len - 4), mul_of(s))
}

fn len8to16(s: &[u8]) -> u64 {
    let mul = mul_of(s);
    let a = fetch64(s, 0).wrapping_add(K2);
    let b = fetch64(s, s.len() - 8);
    let c = b.rotate_right(37).wrapping_mul(mul).wrapping_add(a);
    let d = a.rotate_right(25).wrapping_add(b).wrapping_mul(mul);
    hash_len16(c, d, mul)
}

fn len17to32(s: &[u8]) -> u64 {
    let len = s.len();
    let mul = mul_of(s);
    let a = fetch64(s, 0).wrapping_mul(K1);
    let b = fetch64(s, 8);
    let c = fetch64(s, len - 8).wrapping_mul(mul);
    let d = fetch64(s, len - 16).wrapping_mul(K2);
    let u = a
        .wrapping_add(b)
        .rotate_right(43)
        .wrapping_add(c.rotate_right(30))
        .wrapping_add(d);
    let v = a
        .wrapping_add(b.wrapping_add(K2).rotate_right(18))
        .wrapping_add(c);
    hash_len16(u, v, mul)
}

fn len33to64(s: &[u8]) -> u64 {
    let len = s.len();
    let mul = mul_of(s);
    let a = fetch64(s, 0).wrapping_mul(K2);
    let b = fetch64(s, 8);
    let c = fetch64(s, len - 24);
    let d = fetch64(s, len - 32);
    let e = fetch64(s, 16).wrapping_mul(K2);
    let f = fetch64(s, 24).wrapping_mul(9);
    let g = fetch64(s, len - 8);
    let h = fetch64(s, len - 16).wrapping_mul(mul);
    let ag = a.wrapping_add(g);
    let ef = e.wrapping_add(f);
    let u = ag
        .rotate_right(43)
        .wrapping_add(b.rotate_right(30).wrapping_add(c).wrapping_mul(9));
    let v = (ag ^ d).wrapping_add(f).wrapping_add(1);
    let swapped = |x: u64, y: u64| x.wrapping_add(y).wrapping_mul(mul);
    let w = swapped(u, v).swap_bytes().wrapping_add(h);
    let x = ef.rotate_right(42).wrapping_add(c);
    let y = swapped(swapped(v, w).swap_bytes(), g);
    let z = ef.wrapping_add(c);
    let a = swapped(x, z).wrapping_add(y).swap_bytes().wrapping_add(b);
    let b = shift_mix(swapped(z, a).wrapping_add(d).wrapping_add(h)).wrapping_mul(mul);
    b.wrapping_add(x)
}

/// `WeakHashLen32WithSeeds` over the 32 bytes at a place.
fn weak(s: &[u8], at: usize, a: u64, b: u64) -> (u64, u64) {
    let [w, x, y, z] = [0, 8, 16, 24].map(|i| fetch64(s, at + i));
    let a = a.wrapping_add(w);
    let b = b.wrapping_add(a).wrapping_add(z).rotate_right(21);
    let c = a;
    let a = a.wrapping_add(x).wrapping_add(y);
    let b = b.wrapping_add(a.rotate_right(44));
    (a.wrapping_add(z), b.wrapping_add(c))
}

/// The 56 bytes of state over a text of more than 64 bytes.
struct State {
    x: u64,
    y: u64,
    z: u64,
    v: (u64, u64),
    w: (u64, u64),
}

impl State {
    /// From the last 64 bytes.
    fn new(s: &[u8]) -> State {
        let len = s.len();
        let last = |back: usize| fetch64(s, len - back);
        let x = last(40);
        let y = last(16).wrapping_add(last(56));
        let z = hash_len16(last(48).wrapping_add(len as u64), last(24), K_MUL);
        State {
            x: x.wrapping_mul(K1).wrapping_add(fetch64(s, 0)),
            y,
            z,
            v: weak(s, len - 64, len as u64, z),
            w: weak(s, len - 32, y.wrapping_add(K1), x),
        }
    }

    /// Takes in the 64 bytes at a place.
    fn take(self, s: &[u8], at: usize) -> State {
        let State { x, y, z, v, w } = self;
        let x = x
            .wrapping_add(y)
            .wrapping_add(v.0)
            .wrapping_add(fetch64(s, at + 8))
            .rotate_right(37)
            .wrapping_mul(K1)
            ^ w.1;
        let y = y
            .wrapping_add(v.1)
            .wrapping_add(fetch64(s, at + 48))
            .rotate_right(42)
            .wrapping_mul(K1)
            .wrapping_add(v.0)
            .wrapping_add(fetch64(s, at + 40));
        let z = z.wrapping_add(w.0).rotate_right(33).wrapping_mul(K1);
        State {
            x: z,
            y,
            z: x,
            v: weak(s, at, v.1.wrapping_mul(K1), x.wrapping_add(w.0)),
            w: weak(
                s,
                at + 32,
                z.wrapping_add(w.1),
                y.wrapping_add(fetch64(s, at + 16)),
            ),
        }
    }
}

fn long(s: &[u8]) -> u64 {
    let mut state = State::new(s);
    for at in (0..(s.len() - 1) & !63).step_by(64) {
        state = state.take(s, at);
    }
    let State { x, y, z, v, w } = state;
    let first = hash_len16(v.0, w.0, K_MUL)
        .wrapping_add(shift_mix(y).wrapping_mul(K1))
        .wrapping_add(z);
    let second = hash_len16(v.1, w.1, K_MUL).wrapping_add(x);
    hash_len16(first, second, K_MUL)
}

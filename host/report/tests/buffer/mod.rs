//! Buffers that are lent to a call: they start anywhere, and all around them is watched.
use answer::Answer;
use corpus::generate::Random;

/// So many bytes stand before and behind each buffer.
const CANARY: usize = 64;

fn canary(i: usize) -> u8 {
    (i as u8).wrapping_mul(151) ^ 0xc5
}

/// What an output buffer holds at a place when it is lent.
fn noise(seed: u8, i: usize) -> u8 {
    seed.wrapping_add((i as u8).wrapping_mul(29)) ^ (i >> 8) as u8
}

/// A buffer with canaries on both sides.
#[derive(Default)]
pub(crate) struct Buffer {
    bytes: Vec<u8>,
    start: usize,
    length: usize,
    /// of the noise that it holds, where it is an output
    seed: u8,
    /// how often it started at each of eight addresses
    starts: [u64; 8],
}

impl Buffer {
    /// Sets the canaries around so many bytes, which keep what an earlier call left there.
    pub(crate) fn lay(&mut self, length: usize, random: &mut Random) {
        self.start = CANARY + random.below(16) as usize;
        self.length = length;
        let end = self.start + length;
        self.bytes.resize(self.bytes.len().max(end + CANARY), 0);
        for i in 0..CANARY {
            self.bytes[self.start - CANARY + i] = canary(i);
            self.bytes[end + i] = canary(i);
        }
        let address = self.bytes[self.start..].as_ptr().addr();
        self.starts[address % 8] += 1;
    }

    /// Lays it around an input.
    pub(crate) fn lay_input(&mut self, input: &[u8], random: &mut Random) {
        self.lay(input.len(), random);
        self.lent().copy_from_slice(input);
    }

    /// Lays it for an output, full of noise.
    pub(crate) fn lay_output(&mut self, length: usize, random: &mut Random) {
        self.lay(length, random);
        let seed = random.next() as u8;
        self.seed = seed;
        for (i, byte) in self.lent().iter_mut().enumerate() {
            *byte = noise(seed, i);
        }
    }

    pub(crate) fn lent(&mut self) -> &mut [u8] {
        &mut self.bytes[self.start..self.start + self.length]
    }

    pub(crate) fn intact(&self) -> bool {
        let end = self.start + self.length;
        let before = &self.bytes[self.start - CANARY..self.start];
        let behind = &self.bytes[end..end + CANARY];
        let whole = |side: &[u8]| side.iter().enumerate().all(|(i, b)| *b == canary(i));
        whole(before) && whole(behind)
    }

    /// The answer of a number, of the call that this was the output buffer of: past the output, and where there is none, it
    /// is as it was.
    pub(crate) fn answer(&mut self, number: u64) -> Answer {
        let refusal = answer::refusal(number);
        let length = refusal.map_or(number, |_| 0);
        let seed = self.seed;
        let buffer = self.lent();
        assert!(length <= buffer.len() as u64, "{length} bytes, too many");
        let (output, rest) = buffer.split_at(length as usize);
        let as_it_was = (output.len()..)
            .zip(rest)
            .all(|(i, b)| *b == noise(seed, i));
        assert!(as_it_was, "written past an output of {length} bytes");
        let answer = refusal.map_or_else(|| Ok(output.to_vec()), Err);
        assert_eq!(number, answer::number(&answer), "bits beside the answer");
        answer
    }

    /// Starts that never were.
    pub(crate) fn missing(&self) -> impl Iterator<Item = String> {
        let never = (0..8).filter(|i| self.starts[*i] == 0);
        never.map(|i| format!("a start {i} bytes past a multiple of 8"))
    }
}

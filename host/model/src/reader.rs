//! Fields of a block, as they are read: little-endian, and each asked whether its bytes are there.

use answer::Refusal;

pub struct Reader<'a> {
    bytes: &'a [u8],
    at: usize,
    block: u32,
}

impl<'a> Reader<'a> {
    pub fn new(bytes: &'a [u8], block: u32) -> Reader<'a> {
        Reader::starting(bytes, 0, block)
    }

    pub fn starting(bytes: &'a [u8], at: usize, block: u32) -> Reader<'a> {
        Reader { bytes, at, block }
    }

    pub fn position(&self) -> usize {
        self.at
    }

    pub fn left(&self) -> usize {
        self.bytes.len() - self.at
    }

    /// Refuses in this block unless the question is answered with yes.
    pub fn ask(&self, yes: bool, question: u8) -> Result<(), Refusal> {
        if yes {
            Ok(())
        } else {
            Err((question, self.block))
        }
    }

    /// Question 3: are its bytes there?
    pub fn take(&mut self, count: u64) -> Result<&'a [u8], Refusal> {
        self.ask(count <= self.left() as u64, 3)?;
        let from = self.at;
        self.at += count as usize;
        Ok(&self.bytes[from..self.at])
    }

    /// A field of this width.
    fn field<const WIDTH: usize>(&mut self) -> Result<[u8; WIDTH], Refusal> {
        let taken = self.take(WIDTH as u64)?;
        Ok(taken.try_into().expect("as many bytes as were taken"))
    }

    pub fn u32(&mut self) -> Result<u32, Refusal> {
        self.field().map(u32::from_le_bytes)
    }

    pub fn u64(&mut self) -> Result<u64, Refusal> {
        self.field().map(u64::from_le_bytes)
    }

    pub fn i32(&mut self) -> Result<i32, Refusal> {
        self.field().map(i32::from_le_bytes)
    }

    pub fn i64(&mut self) -> Result<i64, Refusal> {
        self.field().map(i64::from_le_bytes)
    }
}

/// The byte at place i counts 256 to the power of i.
pub fn little_endian(bytes: &[u8]) -> u64 {
    let places = (0..).step_by(8).zip(bytes);
    places.fold(0, |sum, (shift, byte)| sum | u64::from(*byte) << shift)
}

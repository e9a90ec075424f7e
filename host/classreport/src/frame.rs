//! A corpus's frame: the script block and the packages with their ids, put together and taken apart.
//!
//! Big-endian: 4-byte length of the rest, version byte 1, 4-byte length and bytes of the script block, 4-byte package
//! count, then for each package an 8-byte id, a 4-byte length and bytes.
use std::error::Error;
use std::fmt;

use crate::Refusal;

/// A package of a corpus.
#[derive(Debug, Clone, Copy, PartialEq, Eq)]
pub struct Package<'a> {
    /// Its id, as the loader has it.
    pub id: u64,
    /// Its block: the header, and perhaps more behind it.
    pub bytes: &'a [u8],
}

/// A corpus taken apart, without copying. What the blocks hold is not looked at.
///
/// ```
/// let mut builder = classreport::CorpusBuilder::new(b"script").unwrap();
/// builder.add(0xab, b"package").unwrap();
/// let bytes = builder.finish();
/// let corpus = classreport::Corpus::read(&bytes).unwrap();
/// assert_eq!(corpus.script(), b"script");
/// assert_eq!((corpus.packages()[0].id, corpus.packages()[0].bytes), (0xab, &b"package"[..]));
/// ```
#[derive(Debug, Clone)]
pub struct Corpus<'a> {
    script: &'a [u8],
    packages: Vec<Package<'a>>,
}

impl<'a> Corpus<'a> {
    /// Takes a corpus apart.
    ///
    /// # Errors
    /// Refusals 1 and 2, where the call gives them too.
    pub fn read(bytes: &'a [u8]) -> Result<Corpus<'a>, Refusal> {
        let broken = refused(1);
        let mut rest = bytes;
        let length = number(&mut rest, 4).ok_or(broken)?;
        if length != rest.len() as u64 {
            return Err(broken);
        }
        if number(&mut rest, 1).ok_or(broken)? != 1 {
            return Err(refused(2));
        }
        let corpus = parts(&mut rest).ok_or(broken)?;
        if rest.is_empty() {
            Ok(corpus)
        } else {
            Err(broken)
        }
    }

    /// The script block.
    pub fn script(&self) -> &'a [u8] {
        self.script
    }

    /// The packages, in corpus order.
    pub fn packages(&self) -> &[Package<'a>] {
        &self.packages
    }
}

fn refused(question: u8) -> Refusal {
    Refusal { question, block: 0 }
}

fn parts<'a>(rest: &mut &'a [u8]) -> Option<Corpus<'a>> {
    let script = block(rest)?;
    let count = number(rest, 4)?;
    let mut packages = Vec::new();
    for _ in 0..count {
        let id = number(rest, 8)?;
        let bytes = block(rest)?;
        packages.push(Package { id, bytes });
    }
    Some(Corpus { script, packages })
}

/// Takes so many bytes off the front, where they lie inside.
fn take<'a>(rest: &mut &'a [u8], count: usize) -> Option<&'a [u8]> {
    let (taken, left) = rest.split_at_checked(count)?;
    *rest = left;
    Some(taken)
}

fn number(rest: &mut &[u8], width: usize) -> Option<u64> {
    let bytes = take(rest, width)?.iter();
    Some(bytes.fold(0, |sum, byte| sum << 8 | u64::from(*byte)))
}

fn block<'a>(rest: &mut &'a [u8]) -> Option<&'a [u8]> {
    let length = number(rest, 4)?;
    take(rest, length as usize)
}

/// Puts a corpus together: a script block, then packages in the order in which they are added.
///
/// ```
/// let mut builder = classreport::CorpusBuilder::new(&[0; 8])?;
/// builder.add(7, &[0; 3])?;
/// let refusal = classreport::report(&builder.finish()).unwrap_err();
/// assert_eq!((refusal.question, refusal.package()), (3, Some(1)));
/// # Ok::<(), classreport::TooLong>(())
/// ```
#[derive(Debug, Clone)]
pub struct CorpusBuilder {
    bytes: Vec<u8>,
    /// where the package count stands
    count_at: usize,
    count: u32,
}

impl CorpusBuilder {
    /// A corpus with this script block and no packages yet.
    ///
    /// # Errors
    /// Where it gets longer than its 4-byte length can tell.
    pub fn new(script: &[u8]) -> Result<CorpusBuilder, TooLong> {
        CorpusBuilder::with_room(script, 0)
    }

    /// The same, with memory for so many bytes of packages, of which each also takes 12 bytes.
    ///
    /// # Errors
    /// Where it gets longer than its 4-byte length can tell.
    pub fn with_room(script: &[u8], room: usize) -> Result<CorpusBuilder, TooLong> {
        fits(13 + script.len())?;
        let mut bytes = Vec::with_capacity(13 + script.len() + room);
        bytes.extend([0, 0, 0, 0, 1]);
        bytes.extend((script.len() as u32).to_be_bytes());
        bytes.extend(script);
        let count_at = bytes.len();
        bytes.extend([0; 4]);
        Ok(CorpusBuilder {
            bytes,
            count_at,
            count: 0,
        })
    }

    /// Adds a package behind those that are there.
    ///
    /// # Errors
    /// Where the corpus would get longer than its 4-byte length can tell; it is then as it was.
    pub fn add(&mut self, id: u64, block: &[u8]) -> Result<(), TooLong> {
        fits(self.bytes.len() + 12 + block.len())?;
        self.bytes.extend(id.to_be_bytes());
        self.bytes.extend((block.len() as u32).to_be_bytes());
        self.bytes.extend(block);
        self.count += 1;
        Ok(())
    }

    /// The corpus's bytes.
    pub fn finish(mut self) -> Vec<u8> {
        let rest = (self.bytes.len() - 4) as u32;
        self.bytes[..4].copy_from_slice(&rest.to_be_bytes());
        self.bytes[self.count_at..][..4].copy_from_slice(&self.count.to_be_bytes());
        self.bytes
    }
}

/// A corpus's length counts the bytes behind it, in 32 bits.
fn fits(length: usize) -> Result<(), TooLong> {
    if length - 4 > u32::MAX as usize {
        return Err(TooLong);
    }
    Ok(())
}

/// A corpus would have more than 4,294,967,299 bytes, which its length can't tell.
#[derive(Debug, Clone, Copy, PartialEq, Eq)]
pub struct TooLong;

impl fmt::Display for TooLong {
    fn fmt(&self, f: &mut fmt::Formatter) -> fmt::Result {
        f.write_str("a corpus can't have more than 4,294,967,299 bytes: split the build")
    }
}

impl Error for TooLong {}

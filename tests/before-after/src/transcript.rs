//! The file of records: a line each, which begins with the seed of its list and the number of the
//! last command.

use std::fmt::{self, Arguments, Display, Formatter};
use std::fs::File;
use std::io::{BufWriter, Write};
use std::path::Path;

pub struct Transcript {
    file: BufWriter<File>,
    records: u64,
}

impl Transcript {
    pub fn create(file: &Path) -> Self {
        let file = File::create(file).expect("the file of records can be made");
        Self { file: BufWriter::with_capacity(1 << 20, file), records: 0 }
    }

    pub fn record(&mut self, seed: u64, command: u32, said: Arguments) {
        writeln!(self.file, "{seed} {command} {said}").expect("a record can be written");
        self.records += 1;
    }

    /// How many records there are, all of them written.
    pub fn end(mut self) -> u64 {
        self.file.flush().expect("the records can be written");
        self.records
    }
}

/// Bytes as they are, two digits each.
pub struct Bytes<'a>(pub &'a [u8]);

impl Display for Bytes<'_> {
    fn fmt(&self, f: &mut Formatter) -> fmt::Result {
        self.0.iter().try_for_each(|byte| write!(f, "{byte:02x}"))
    }
}

/// The 64-bit FNV-1a hash.
pub fn fnv1a(bytes: impl Iterator<Item = u8>) -> u64 {
    bytes.fold(0xcbf2_9ce4_8422_2325, |hash, byte| {
        (hash ^ u64::from(byte)).wrapping_mul(0x0100_0000_01b3)
    })
}

/// An image: how many cells it has, and the hash of their bytes, the least first.
pub struct Hash {
    cells: usize,
    hash: u64,
}

impl Hash {
    pub fn of<C: LittleEndian>(image: &[C]) -> Self {
        let bytes = image.iter().flat_map(|cell| cell.bytes());
        Self { cells: image.len(), hash: fnv1a(bytes) }
    }
}

impl Display for Hash {
    fn fmt(&self, f: &mut Formatter) -> fmt::Result {
        write!(f, "{}:{:016x}", self.cells, self.hash)
    }
}

/// A cell of an image, by its bytes.
pub trait LittleEndian {
    fn bytes(&self) -> impl Iterator<Item = u8>;
}

macro_rules! little_endian {
    ($($cell:ty),*) => {
        $(impl LittleEndian for $cell {
            fn bytes(&self) -> impl Iterator<Item = u8> {
                self.to_le_bytes().into_iter()
            }
        })*
    };
}

little_endian!(u8, u32, u64);

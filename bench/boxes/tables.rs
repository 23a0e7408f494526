//! Tables of samples and of chunks.

use super::{head_fits, Measured};

#[derive(Debug, PartialEq)]
pub struct StszBox {
    pub version: u8,
    pub flags: u32,
    pub sample_size: u32,
    pub sample_count: u32,
    pub sample_sizes: Vec<u32>,
}

/// A table with a count, of numbers or of the entries below.
#[derive(Debug, PartialEq)]
pub struct Table<T> {
    pub version: u8,
    pub flags: u32,
    pub entries: Vec<T>,
}

pub type StcoBox = Table<u32>;
pub type Co64Box = Table<u64>;
pub type StssBox = Table<u32>;
pub type SttsBox = Table<SttsEntry>;
pub type CttsBox = Table<CttsEntry>;
pub type StscBox = Table<StscEntry>;

#[derive(Debug, PartialEq)]
pub struct StscEntry {
    pub first_chunk: u32,
    pub samples_per_chunk: u32,
    pub sample_description_index: u32,
    pub first_sample: u32,
}

#[derive(Debug, PartialEq)]
pub struct SttsEntry {
    pub sample_count: u32,
    pub sample_delta: u32,
}

#[derive(Debug, PartialEq)]
pub struct CttsEntry {
    pub sample_count: u32,
    pub sample_offset: i32,
}

#[derive(Debug, PartialEq)]
pub struct ElstBox {
    pub version: u8,
    pub flags: u32,
    pub entries: Vec<ElstEntry>,
}

#[derive(Debug, PartialEq)]
pub struct ElstEntry {
    pub segment_duration: u64,
    pub media_time: u64,
    pub media_rate: u16,
    pub media_rate_fraction: u16,
}

/// An entry of a table.
pub trait Entry: Sized {
    /// The number of bytes of an entry.
    const ROW: u64;

    /// Returns whether a table with these entries can be written.
    fn all_fit(_: &[Self]) -> bool {
        true
    }
}

impl Entry for u32 {
    const ROW: u64 = 4;
}

impl Entry for u64 {
    const ROW: u64 = 8;
}

impl Entry for SttsEntry {
    const ROW: u64 = 8;
}

impl Entry for CttsEntry {
    const ROW: u64 = 8;
}

impl Entry for StscEntry {
    const ROW: u64 = 12;

    fn all_fit(entries: &[StscEntry]) -> bool {
        let mut numbering = Numbering::before(entries);
        let mut next =
            |entry: &StscEntry| numbering.next(entry.first_chunk, entry.samples_per_chunk);
        entries.iter().all(|entry| next(entry).is_some())
    }
}

impl<T: Entry> Measured for Table<T> {
    fn size(&self) -> u64 {
        16 + T::ROW * self.entries.len() as u64
    }

    fn is_writable(&self) -> bool {
        head_fits(self.flags, self.size()) && T::all_fit(&self.entries)
    }
}

impl Measured for StszBox {
    fn size(&self) -> u64 {
        20 + 4 * self.sample_sizes.len() as u64
    }

    fn is_writable(&self) -> bool {
        let count = if self.sample_size == 0 {
            self.sample_count as usize
        } else {
            0
        };
        head_fits(self.flags, self.size()) && self.sample_sizes.len() == count
    }
}

impl ElstBox {
    /// Returns the number of bytes of an entry in this version.
    pub fn row(&self) -> u64 {
        if self.version == 1 {
            20
        } else {
            12
        }
    }
}

impl Measured for ElstBox {
    fn size(&self) -> u64 {
        16 + self.row() * self.entries.len() as u64
    }

    fn is_writable(&self) -> bool {
        let fits = |entry: &ElstEntry| (entry.segment_duration | entry.media_time) < 1 << 32;
        head_fits(self.flags, self.size()) && (self.version == 1 || self.entries.iter().all(fits))
    }
}

/// The state of a computation that gives the first samples of the entries of an `stsc`, in order.
pub struct Numbering {
    sample: u32,
    chunk: u32,
    samples_per_chunk: u32,
}

impl Numbering {
    fn before(entries: &[StscEntry]) -> Numbering {
        Numbering::from(entries.first().map_or(0, |entry| entry.first_chunk))
    }

    /// Returns the state before the first entry, which begins with `chunk`.
    pub fn from(chunk: u32) -> Numbering {
        Numbering {
            sample: 1,
            chunk,
            samples_per_chunk: 0,
        }
    }

    /// Returns the first sample of the next entry, or `None` if the chunks decrease or a number exceeds 32 bits.
    pub fn next(&mut self, first_chunk: u32, samples_per_chunk: u32) -> Option<u32> {
        self.sample = first_chunk
            .checked_sub(self.chunk)?
            .checked_mul(self.samples_per_chunk)?
            .checked_add(self.sample)?;
        self.chunk = first_chunk;
        self.samples_per_chunk = samples_per_chunk;
        Some(self.sample)
    }
}

/// Fills in the first samples of `entries`. Returns `None` if they can't be computed.
pub fn number_chunks(entries: &mut [StscEntry]) -> Option<()> {
    let mut numbering = Numbering::before(entries);
    for entry in entries {
        entry.first_sample = numbering.next(entry.first_chunk, entry.samples_per_chunk)?;
    }
    Some(())
}

//! Positions of boxes, samples, and the entries of tables.

use crate::FourCC;

/// The position of a box in the bytes that `list` reads.
#[derive(Clone, Copy, Debug, Default, PartialEq, Eq, Hash)]
pub struct Span {
    /// The offset of the first byte, where the header begins.
    pub position: u64,
    /// The number of bytes, including the header.
    pub length: u64,
    /// 8 or 16: the distance from the position to the content.
    pub header_length: u64,
    /// The code of the box.
    pub code: FourCC,
}

/// Returns `length` bytes of `bytes` at a position, if `bytes` has them.
pub(crate) fn bytes_at(bytes: &[u8], position: u64, length: u64) -> Option<&[u8]> {
    let position = usize::try_from(position).ok()?;
    bytes.get(position..position.checked_add(usize::try_from(length).ok()?)?)
}

impl Span {
    /// Returns the bytes of the box, including its header, from the bytes that were listed, if these have them.
    pub fn bytes<'a>(&self, listed: &'a [u8]) -> Option<&'a [u8]> {
        bytes_at(listed, self.position, self.length)
    }

    /// Returns the bytes after the header from the bytes that were listed: the boxes inside, if the box contains only
    /// boxes.
    pub fn content<'a>(&self, listed: &'a [u8]) -> Option<&'a [u8]> {
        self.bytes(listed)?.get(usize::try_from(self.header_length).ok()?..)
    }
}

/// The position of the box at a path, which `find` returns.
#[derive(Clone, Copy, Debug, Default, PartialEq, Eq, Hash)]
pub struct Place {
    /// The offset of the first byte, where the header begins.
    pub position: u64,
    /// The number of bytes, including the header, as the header states it: also for a box that is cut, and for one
    /// whose size is smaller than its header.
    pub length: u64,
    /// 8 or 16: the distance from the position to the content.
    pub header_length: u64,
    /// The code of the box.
    pub code: FourCC,
    /// True if the file has all bytes of the box, and the size counts the header.
    pub is_whole: bool,
}

impl Place {
    /// Returns the bytes of the box, including its header, from the bytes of the file, if these have them.
    pub fn bytes<'a>(&self, file: &'a [u8]) -> Option<&'a [u8]> {
        bytes_at(file, self.position, self.length)
    }
}

/// A sample of a track. Times are in the timescale of the media.
#[repr(C)]
#[derive(Clone, Copy, Debug, Default, PartialEq, Eq, Hash)]
pub struct Sample {
    /// The offset of the first byte, from the front of the file; the file may end before the sample.
    pub offset: u64,
    /// The time at which the sample is decoded: the sum of the durations of the samples before it.
    pub start_time: u64,
    /// The composition time minus the decode time; 0 without `ctts`.
    pub rendering_offset: i64,
    /// The number of bytes.
    pub size: u32,
    /// The duration.
    pub duration: u32,
    /// The index of the sample entry in `stsd`, counted from 1.
    pub description: u32,
    /// The number of the chunk, counted from 1; in a fragment the number of the run.
    pub chunk: u32,
    // The library writes only 0 and 1 here, which are the values of a `bool`.
    /// True for a sync sample. Without `stss` each sample is one.
    pub is_sync: bool,
}

impl Sample {
    /// Returns the bytes of the sample from the bytes of the file, if these have them.
    pub fn bytes<'a>(&self, file: &'a [u8]) -> Option<&'a [u8]> {
        bytes_at(file, self.offset, self.size.into())
    }
}

/// A run of consecutive samples with the same duration.
#[repr(C)]
#[derive(Clone, Copy, Debug, Default, PartialEq, Eq, Hash)]
pub struct SttsEntry {
    /// The number of samples.
    pub sample_count: u32,
    /// The duration of each sample, in the timescale of the media.
    pub sample_delta: u32,
}

/// A run of consecutive samples with the same composition offset.
#[repr(C)]
#[derive(Clone, Copy, Debug, Default, PartialEq, Eq, Hash)]
pub struct CttsEntry {
    /// The number of samples.
    pub sample_count: u32,
    /// The offset, in the timescale of the media; signed in every version.
    pub sample_offset: i32,
}

/// A run of consecutive chunks that have the same number of samples each. Chunks, sample entries and samples count from
/// 1.
#[repr(C)]
#[derive(Clone, Copy, Debug, Default, PartialEq, Eq, Hash)]
pub struct StscEntry {
    /// The first chunk of the run.
    pub first_chunk: u32,
    /// The number of samples of each chunk.
    pub samples_per_chunk: u32,
    /// The sample entry of all these samples.
    pub sample_description_index: u32,
    /// The first sample of the run. It is computed: the bytes don't have it, and it has no effect when the box is
    /// written.
    pub first_sample: u32,
}

/// An edit of a track.
#[derive(Clone, Copy, Debug, Default, PartialEq, Eq, Hash)]
pub struct ElstEntry {
    /// The duration, in the timescale of the movie.
    pub segment_duration: u64,
    /// The time in the media at which the edit begins, in the timescale of the media; -1 for an empty edit.
    pub media_time: i64,
    /// The whole part of the rate of playback.
    pub media_rate: i16,
    /// The fraction of the rate, in units of 1/65536.
    pub media_rate_fraction: i16,
}

/// The fields that a run of a track fragment has for one sample. All entries of a run have the same fields.
#[derive(Clone, Copy, Debug, Default, PartialEq, Eq, Hash)]
pub struct TrunEntry {
    /// The duration, in the timescale of the media.
    pub duration: Option<u32>,
    /// The number of bytes.
    pub size: Option<u32>,
    /// The flags of the sample.
    pub flags: Option<u32>,
    /// The composition time minus the decode time. In version 0 of the box it isn't negative.
    pub composition_offset: Option<i64>,
}

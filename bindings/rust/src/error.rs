//! The reasons why a call has no value.

use std::collections::TryReserveError;
use std::error;
use std::fmt;
use std::io;

use crate::calls::{MAJOR, MINOR};
use crate::{raw, FourCC, JsonFault};

/// Something wrong in the bytes of a box or a file.
#[derive(Clone, Copy, Debug, PartialEq, Eq, Hash)]
#[non_exhaustive]
pub enum Fault {
    /// The bytes end before everything that a box needs.
    EndOfInput,
    /// A check of the layout failed: a size is too small, a count doesn't fit its box, or a box is of another type.
    InvalidData,
    /// A box lacks a child, or a file or track lacks a box that its samples need.
    BoxNotFound,
    /// Boxes of this type are not read.
    UnknownBox,
    /// A box ends after what is around it.
    Cut,
    /// The size of a box is smaller than its header.
    SmallSize,
    /// There are fewer bytes than a header has.
    NoHeader,
    /// The number of sizes in `stsz` differs from its number of samples.
    SampleSizesDisagree,
    /// The first entry of `stsc` doesn't begin at chunk 1.
    FirstChunkDisagrees,
    /// An entry of `stsc` begins no later than the entry before it.
    ChunkOrderDisagrees,
    /// A track has 2^32 chunks or more, or a fragment 2^32 runs or more.
    ChunkCountDisagrees,
    /// The chunks hold fewer samples than `stsz` counts.
    ChunksDisagree,
    /// `stts` has durations for fewer samples than `stsz` counts, or a fragment ends past the time 2^64 - 1.
    DurationsDisagree,
    /// An entry of `stss` is not above the entry before it, or the first entry is 0.
    SyncSamplesDisagree,
    /// Samples would end past the offset 2^64 - 1 or begin before the file, or the base of an offset is unknown.
    OffsetsDisagree,
}

/// The faults with a status of the library.
const FAULTS: [(u32, Fault); 12] = [
    (raw::END_OF_INPUT, Fault::EndOfInput),
    (raw::INVALID_DATA, Fault::InvalidData),
    (raw::BOX_NOT_FOUND, Fault::BoxNotFound),
    (raw::UNKNOWN_BOX, Fault::UnknownBox),
    (110, Fault::SampleSizesDisagree),
    (111, Fault::FirstChunkDisagrees),
    (112, Fault::ChunkOrderDisagrees),
    (113, Fault::ChunkCountDisagrees),
    (114, Fault::ChunksDisagree),
    (115, Fault::DurationsDisagree),
    (116, Fault::SyncSamplesDisagree),
    (117, Fault::OffsetsDisagree),
];

/// Shows the text that the library and the programs show for the fault.
impl fmt::Display for Fault {
    fn fmt(&self, f: &mut fmt::Formatter<'_>) -> fmt::Result {
        f.write_str(match self {
            Fault::EndOfInput => "unexpected end of input",
            Fault::InvalidData => "invalid data",
            Fault::BoxNotFound => "box not found",
            Fault::UnknownBox => "boxes of this type are not read",
            Fault::Cut => "the box ends after what is around it",
            Fault::SmallSize => "the size of the box is smaller than its header",
            Fault::NoHeader => "there are fewer bytes than a header has",
            Fault::SampleSizesDisagree => "stsz lists another number of sizes than it counts samples",
            Fault::FirstChunkDisagrees => "stsc begins at another chunk than 1",
            Fault::ChunkOrderDisagrees => "an entry of stsc begins no later than the one before it",
            Fault::ChunkCountDisagrees => "there are 2^32 chunks or more, or runs of a fragment",
            Fault::ChunksDisagree => "the chunks hold fewer samples than stsz counts",
            Fault::DurationsDisagree => {
                "stts has a duration for fewer samples than stsz counts, or a fragment ends too late"
            }
            Fault::SyncSamplesDisagree => "an entry of stss is not above the one before it",
            Fault::OffsetsDisagree => {
                "a chunk begins too far out for the bytes of all samples, or a fragment's are outside"
            }
        })
    }
}

impl error::Error for Fault {}

/// The reason why a call has no value.
///
/// ```
/// use mp4_box_codec::{tree, Error, Fault, MdhdBox};
/// use std::error::Error as _;
///
/// let file = b"\0\0\0\x20moov\0\0\0\x18trak\0\0\0\x10mdia\0\0\0\x08mdhd";
/// let boxes = tree(file)?;
/// let mdhd = boxes.find("moov/trak/mdia/mdhd").unwrap();
/// let error = mdhd.read::<MdhdBox>(file).unwrap_err();
/// assert_eq!(error.to_string(), "moov/trak/mdia/mdhd at 24: unexpected end of input");
/// assert_eq!(error.fault(), Some(Fault::EndOfInput));
/// assert!(error.source().is_some());
/// # Ok::<(), Error>(())
/// ```
#[derive(Debug)]
#[non_exhaustive]
pub enum Error {
    /// Something is wrong in the bytes that a call got.
    Fault(Fault),
    /// Something is wrong in a box of a file.
    At {
        /// The offset in the file at which the header of the box begins.
        position: u64,
        /// The codes of the boxes around it and its own, as in `moov/trak[1]/tkhd`.
        path: String,
        /// The fault of the box.
        fault: Fault,
    },
    /// A box of this type can't be written: a number doesn't fit its field, or fields disagree.
    Unwritable(FourCC),
    /// A box of this type can't be written, or made from JSON, because of one of its members.
    Json {
        /// The code of the box.
        code: FourCC,
        /// The member, and what is wrong with it.
        fault: JsonFault,
    },
    /// The library shows a box of this type with fields that this crate doesn't know.
    UnknownFields(FourCC),
    /// There is no such new file.
    Refused {
        /// The reason, in the words of `mp4remux`.
        reason: String,
    },
    /// No track has this track_ID.
    TrakNotFound(u32),
    /// The text is not a path.
    InvalidPath,
    /// Memory was refused.
    OutOfMemory,
    /// Reading or writing failed.
    IoError(io::Error),
    /// The library has this version, a number such as `version` returns, and this crate needs another one.
    OtherVersion(u32),
    /// The library returned a status that this crate doesn't know.
    Other(u32),
}

impl Error {
    /// Returns the error of a call that reads, from its status.
    pub(crate) fn of_status(status: u32) -> Error {
        let fault = FAULTS.iter().find(|it| it.0 == status);
        match (status, fault) {
            (_, Some(it)) => Error::Fault(it.1),
            (raw::OUT_OF_MEMORY, _) => Error::OutOfMemory,
            _ => Error::Other(status),
        }
    }

    /// Returns what is wrong in the bytes, if that is the reason.
    pub fn fault(&self) -> Option<Fault> {
        match self {
            Error::Fault(fault) | Error::At { fault, .. } => Some(*fault),
            _ => None,
        }
    }
}

impl fmt::Display for Error {
    fn fmt(&self, f: &mut fmt::Formatter<'_>) -> fmt::Result {
        match self {
            Error::Fault(fault) => fault.fmt(f),
            Error::At { position, path, fault } => write!(f, "{path} at {position}: {fault}"),
            Error::Unwritable(code) => {
                write!(f, "the box '{code}' can't be written: a number doesn't fit its field, or fields disagree")
            }
            Error::Json { code, fault } => write!(f, "the box '{code}' can't be written: {fault}"),
            Error::UnknownFields(code) => write!(f, "the library shows a '{code}' with fields that this crate lacks"),
            Error::Refused { reason } => f.write_str(reason),
            Error::TrakNotFound(track_id) => write!(f, "no track has the track_ID {track_id}"),
            Error::InvalidPath => f.write_str("the text is not a path such as moov/trak[1]/mdia"),
            Error::OutOfMemory => f.write_str("out of memory"),
            Error::IoError(why) => why.fmt(f),
            Error::OtherVersion(found) => {
                let (major, minor, patch) = (found / 1_000_000, found / 1000 % 1000, found % 1000);
                write!(f, "libmp4_box_codec is version {major}.{minor}.{patch}, and this crate needs ")?;
                write!(f, "version {MAJOR}.{MINOR}.x")
            }
            Error::Other(status) => write!(f, "status {status}"),
        }
    }
}

impl error::Error for Error {
    fn source(&self) -> Option<&(dyn error::Error + 'static)> {
        match self {
            Error::At { fault, .. } => Some(fault),
            Error::IoError(why) => why.source(),
            _ => None,
        }
    }
}

/// Two errors of reading or writing are equal if they have the same kind.
impl PartialEq for Error {
    fn eq(&self, other: &Error) -> bool {
        match (self, other) {
            (Error::Fault(a), Error::Fault(b)) => a == b,
            (Error::At { position, path, fault }, Error::At { position: at, path: name, fault: why }) => {
                (position, path, fault) == (at, name, why)
            }
            (Error::Unwritable(a), Error::Unwritable(b)) => a == b,
            (Error::Json { code, fault }, Error::Json { code: other, fault: why }) => (code, fault) == (other, why),
            (Error::UnknownFields(a), Error::UnknownFields(b)) => a == b,
            (Error::Refused { reason }, Error::Refused { reason: other }) => reason == other,
            (Error::IoError(a), Error::IoError(b)) => a.kind() == b.kind(),
            (Error::TrakNotFound(a), Error::TrakNotFound(b)) => a == b,
            (Error::OtherVersion(a), Error::OtherVersion(b)) | (Error::Other(a), Error::Other(b)) => a == b,
            (Error::InvalidPath, Error::InvalidPath) | (Error::OutOfMemory, Error::OutOfMemory) => true,
            _ => false,
        }
    }
}

impl From<Fault> for Error {
    fn from(fault: Fault) -> Error {
        Error::Fault(fault)
    }
}

impl From<TryReserveError> for Error {
    fn from(_: TryReserveError) -> Error {
        Error::OutOfMemory
    }
}

impl From<io::Error> for Error {
    fn from(why: io::Error) -> Error {
        Error::IoError(why)
    }
}

#[cfg(test)]
mod tests {
    use super::FAULTS;
    use crate::{status_text, Error};

    /// Checks that a fault has the text that the library has for its status.
    #[test]
    fn texts() {
        for (status, fault) in FAULTS {
            assert_eq!(fault.to_string(), status_text(status), "{status}");
            assert_eq!(Error::of_status(status), Error::Fault(fault));
        }
        assert_eq!(Error::OutOfMemory.to_string(), status_text(12));
    }
}

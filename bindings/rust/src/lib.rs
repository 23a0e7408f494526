//! Reads and writes the boxes of MP4 files (ISO/IEC 14496-12) by safe calls of libmp4_box_codec, for Rust programs.
//!
//! - `tree` and `tree_of` return all boxes of a file, `tracks` its tracks, and `samples` the samples of a track.
//! - `check_file` returns the faults of a file, and `info` what the file and its tracks are.
//! - `ReadBox` and `WriteBox` read and write single boxes. Structs have the names of the crate `mp4`.
//! - The module `extra` has structs for 74 types of boxes more, with all fields of each.
//! - `fields` returns the fields of a box of any of 103 types as JSON, and `box_from_json` the box of such fields.
//! - `faststart`, `edit`, `fragment`, `defragment` and `cut` plan the new files that `mp4remux` writes.
//!
//! Numbers such as (8.3.2) are sections of ISO/IEC 14496-12. The results of the library are proved for all bytes;
//! nothing is proved about this crate, which passes pointers. A call that gets no memory returns `Error::OutOfMemory`.
//! All functions may be called from several threads at once.
//!
//! ```
//! use mp4_box_codec::{tree, MehdBox};
//!
//! let file = b"\0\0\0\x20moov\0\0\0\x18mvex\0\0\0\x10mehd\0\0\0\0\0\0\x03\xE8";
//! let tree = tree(file)?;
//! let mehd: MehdBox = tree.find("moov/mvex/mehd").unwrap().read(file)?;
//! assert_eq!(mehd.fragment_duration, 1000);
//! # Ok::<(), mp4_box_codec::Error>(())
//! ```

#![deny(missing_docs)]

mod boxes;
mod calls;
mod code;
mod entries;
mod error;
pub mod extra;
mod faults;
mod info;
mod json;
mod members;
mod new_file;
mod numbers;
#[allow(missing_docs)]
mod raw;
mod rows;
mod structs;
mod texts;
mod track;
mod tree;

pub use boxes::{container, ReadBox, WriteBox};
pub use boxes::{Co64Box, CttsBox, ElstBox, StcoBox, StscBox, StssBox, StszBox, SttsBox, TfhdBox, TrunBox};
pub use boxes::{MdhdBox, MehdBox, MfhdBox, MvhdBox, SmhdBox, TfdtBox, TkhdBox, TrexBox, VmhdBox};
pub use code::FourCC;
pub use entries::{
    Avc1Box, AvcCBox, Hev1Box, HvcCBox, NalUnit, SampleEntry, StsdBox, Tx3gBox, Units, Vp09Box, VpccBox,
};
pub use entries::{DecoderConfigDescriptor, DecoderSpecificDescriptor, ESDescriptor, EsdsBox, Mp4aBox};
pub use error::{Error, Fault};
pub use faults::{check_file, FaultCode, FileFault, Severity};
pub use info::{info, Encryption, FileInfo, FrameRate, Picture, SampleTotals, Sound, TrackInfo};
pub use json::{box_from_json, check_json, JsonFault};
pub use new_file::{cut, defragment, edit, faststart, fragment, Change, FragmentOptions, NewFile, Piece};
pub use numbers::{DataType, FixedPointI8, FixedPointU16, FixedPointU8, Matrix, RgbColor, RgbaColor, TrackType};
pub use rows::{CttsEntry, ElstEntry, Place, Sample, Span, StscEntry, SttsEntry, TrunEntry};
pub use texts::{DataBox, DinfBox, DrefBox, EmsgBox, FtypBox, HdlrBox, UrlBox};
pub use track::{fragment_samples, samples, tracks, tracks_of, Track};
pub use tree::{tree, tree_of, BoxHeader, Boxes, Tree, TreeBox, What};

use calls::{converted, filled, filled_by, read_by};

/// Reads all boxes from the front of the bytes to their end. The error is that of the first fault. It skips boxes of
/// types that the codec doesn't read, so it doesn't look into a `moov`: pass it the content of such a box.
pub fn check(bytes: &[u8]) -> Result<(), Error> {
    // SAFETY: the slice has `bytes.len()` bytes, all with values.
    read_by(|_: &mut ()| unsafe { raw::mp4_check(bytes.as_ptr(), bytes.len()) })
}

/// Lists the boxes at the top level of the bytes, in their order. It reads only their headers.
pub fn list(bytes: &[u8]) -> Result<Vec<Span>, Error> {
    let spans = filled(raw::mp4_list, bytes)?.0;
    converted(&spans, |it: &raw::Span| {
        let raw::Span { position, length, header_length, code } = *it;
        Ok(Span { position, length, header_length, code: code.into() })
    })
}

/// Returns the boxes of the bytes in their normal form. Boxes of types that the codec doesn't read stay as they are.
pub fn normal(bytes: &[u8]) -> Result<Vec<u8>, Error> {
    Ok(filled(raw::mp4_normal, bytes)?.0)
}

/// Returns the fields of the box at the front of the bytes, which begin with its header, as the text of a JSON object
/// (RFC 8259), like `mp4inspect --json`. It reads all types of boxes that have a struct here, and those that the header
/// `mp4_box_codec.h` lists. `Fault::UnknownBox` for another type.
///
/// ```
/// use mp4_box_codec::{fields, Error, Fault};
///
/// assert_eq!(fields(b"\0\0\0\x0Cfrmaavc1")?, r#"{"data_format":"avc1"}"#);
/// assert_eq!(fields(b"\0\0\0\x08free"), Err(Fault::UnknownBox.into()));
/// # Ok::<(), Error>(())
/// ```
pub fn fields(bytes: &[u8]) -> Result<String, Error> {
    let text = filled(raw::mp4_fields, bytes)?.0;
    Ok(String::from_utf8(text).unwrap_or_default())
}

/// Returns the box at a path in the bytes of a file, such as `moov/trak[1]/mdia/mdhd`. `[1]` is the second box with its
/// code in the enclosing box; no number is the first. None if there is no such box or its header isn't whole.
/// `Error::InvalidPath` if the text is not a path. It reads the file only up to the box; `tree` is faster for several
/// boxes.
pub fn find(file: &[u8], path: &str) -> Result<Option<Place>, Error> {
    // SAFETY: as in `filled`.
    let found = read_by(|place: &mut raw::Place| unsafe {
        raw::mp4_find(file.as_ptr(), file.len(), path.as_ptr(), path.len(), place)
    });
    match found {
        Err(Error::Fault(Fault::BoxNotFound)) => Ok(None),
        Err(Error::Fault(Fault::InvalidData)) => Err(Error::InvalidPath),
        found => {
            let raw::Place { position, length, header_length, code, is_whole } = found?;
            Ok(Some(Place { position, length, header_length, code: code.into(), is_whole: is_whole != 0 }))
        }
    }
}

/// Returns the version of the library: 1000000 for each major version, 1000 for each minor version, 1 for each patch.
pub fn version() -> u32 {
    // SAFETY: it takes nothing.
    unsafe { raw::mp4_version() }
}

/// Returns the meaning of a status of the library.
pub fn status_text(status: u32) -> String {
    // SAFETY: as in `filled`.
    let found = filled_by(|rows: &mut Vec<u8>, count: &mut usize| unsafe {
        raw::mp4_status_text(status, rows.as_mut_ptr(), rows.len(), count)
    });
    found.map(|it| String::from_utf8(it.0).unwrap_or_default()).unwrap_or_else(|why| why.to_string())
}

/// The examples of the page and of the package are compiled and run with the tests.
#[cfg(doctest)]
#[doc = include_str!("../../../docs/RUST.md")]
#[doc = include_str!("../README.md")]
struct Page;

//! The faults of a file.

use std::fmt;

use crate::calls::{called, converted, defaults};
use crate::info::text_at;
use crate::{raw, Error};

/// The kind of a fault of a file. docs/CHECK.md explains each code.
#[derive(Clone, Copy, Debug, PartialEq, Eq, Hash)]
#[non_exhaustive]
pub enum FaultCode {
    /// The file begins with no header of a box.
    NotMp4,
    /// A box of the top level declares more bytes than the file has left.
    FileCut,
    /// A box inside another one declares more bytes than that has left, or bytes are too few for a header.
    BoxCut,
    /// A box declares fewer bytes than its header has.
    BoxTooSmall,
    /// The content of a box breaks its layout.
    BoxInvalid,
    /// A box is one too many.
    BoxRepeated,
    /// A box that another one has to contain is missing.
    BoxMissing,
    /// The sizes in an `stz2` can't be listed.
    SizesUnlisted,
    /// An `avcC` lacks a sequence or picture parameter set.
    AvcWithoutSets,
    /// The file has no `moov`, `moof`, `meta` or `sidx`.
    MovieMissing,
    /// A track_ID is 0.
    TrackIdZero,
    /// Two tracks have one track_ID.
    TrackIdRepeated,
    /// The `moov` has no track for a fragment.
    TrackIdUnknown,
    /// The tables of a track count different numbers of samples, or list them out of order.
    TablesDisagree,
    /// Some bytes of a chunk are in no `mdat`.
    ChunkOutsideMedia,
    /// A chunk shares bytes with the chunk before it in the table.
    ChunksOverlap,
    /// The duration in an `mdhd` is not the sum of the samples.
    MediaDuration,
    /// The duration in a `tkhd` is not the sum of the edits, or of the samples.
    TrackDuration,
    /// The duration in the `mvhd` is not that of the longest track.
    MovieDuration,
    /// Some bytes of a run are in no `mdat`.
    RunOutsideMedia,
    /// The time of a fragment is before that of the fragment of the same track before it.
    DecodeTimeBack,
    /// A subsegment of a `sidx` begins or ends where no box of the top level does.
    IndexSizes,
    /// NAL units don't fill samples. `check_file` doesn't look at samples.
    NalUnitsMisfit,
    /// Samples have a part of a frame of PCM. `check_file` doesn't look at samples.
    PcmFramesCut,
}

/// The codes by their numbers, which count from 1, with their words.
const CODES: [(FaultCode, &str); 24] = [
    (FaultCode::NotMp4, "not-mp4"),
    (FaultCode::FileCut, "file-cut"),
    (FaultCode::BoxCut, "box-cut"),
    (FaultCode::BoxTooSmall, "box-too-small"),
    (FaultCode::BoxInvalid, "box-invalid"),
    (FaultCode::BoxRepeated, "box-repeated"),
    (FaultCode::BoxMissing, "box-missing"),
    (FaultCode::SizesUnlisted, "sizes-unlisted"),
    (FaultCode::AvcWithoutSets, "avc-without-sets"),
    (FaultCode::MovieMissing, "movie-missing"),
    (FaultCode::TrackIdZero, "track-id-zero"),
    (FaultCode::TrackIdRepeated, "track-id-repeated"),
    (FaultCode::TrackIdUnknown, "track-id-unknown"),
    (FaultCode::TablesDisagree, "tables-disagree"),
    (FaultCode::ChunkOutsideMedia, "chunk-outside-media"),
    (FaultCode::ChunksOverlap, "chunks-overlap"),
    (FaultCode::MediaDuration, "media-duration"),
    (FaultCode::TrackDuration, "track-duration"),
    (FaultCode::MovieDuration, "movie-duration"),
    (FaultCode::RunOutsideMedia, "run-outside-media"),
    (FaultCode::DecodeTimeBack, "decode-time-back"),
    (FaultCode::IndexSizes, "index-sizes"),
    (FaultCode::NalUnitsMisfit, "nal-units-misfit"),
    (FaultCode::PcmFramesCut, "pcm-frames-cut"),
];

impl FaultCode {
    /// Returns the word of the code, such as `box-cut`. It never changes.
    pub fn word(self) -> &'static str {
        CODES[self as usize].1
    }

    /// Returns the code with a number of the library.
    fn of(number: u32) -> Option<FaultCode> {
        let index = usize::try_from(number).ok()?.checked_sub(1)?;
        CODES.get(index).map(|it| it.0)
    }
}

/// Shows the word of the code.
impl fmt::Display for FaultCode {
    fn fmt(&self, f: &mut fmt::Formatter<'_>) -> fmt::Result {
        f.write_str(self.word())
    }
}

/// The severity of a fault of a file.
#[derive(Clone, Copy, Debug, PartialEq, Eq, Hash)]
pub enum Severity {
    /// A player fails, or leaves something out.
    Error,
    /// The standard is broken, and players cope.
    Warning,
}

/// Shows `error` or `warning`.
impl fmt::Display for Severity {
    fn fmt(&self, f: &mut fmt::Formatter<'_>) -> fmt::Result {
        f.write_str(match self {
            Severity::Error => "error",
            Severity::Warning => "warning",
        })
    }
}

/// A fault of a file, which `check_file` returns. It is shown as `mp4inspect check` writes it.
#[derive(Clone, Debug, PartialEq, Eq, Hash)]
#[non_exhaustive]
pub struct FileFault {
    /// The position of the box that has the fault, or 0 if no box has it.
    pub position: u64,
    /// The path of that box, such as `moov/trak[1]/tkhd`.
    pub path: String,
    /// The kind of the fault.
    pub code: FaultCode,
    /// The severity of all faults of this kind.
    pub severity: Severity,
    /// The words for people. They may change.
    pub text: String,
}

impl fmt::Display for FileFault {
    fn fmt(&self, f: &mut fmt::Formatter<'_>) -> fmt::Result {
        let front = match self.severity {
            Severity::Error => "",
            Severity::Warning => "warning: ",
        };
        write!(f, "{} {}: {front}{}", self.position, self.path, self.text)
    }
}

/// Returns the faults that `mp4inspect check` finds in the bytes of a file, in its order.
///
/// ```
/// use mp4_box_codec::{check_file, FaultCode, Severity};
///
/// let faults = check_file(b"\0\0\0\x10moov\0\0\0\x09trac")?;
/// assert_eq!(faults[0].to_string(), "0 moov: there is no mvhd");
/// assert_eq!((faults[1].position, faults[1].path.as_str()), (8, "moov/trac"));
/// assert_eq!((faults[1].code, faults[1].severity), (FaultCode::BoxCut, Severity::Error));
/// # Ok::<(), mp4_box_codec::Error>(())
/// ```
pub fn check_file(file: &[u8]) -> Result<Vec<FileFault>, Error> {
    type Arrays = (Vec<raw::FaultRow>, Vec<u8>);
    // SAFETY: as in `filled`, for two arrays.
    let ((rows, texts), _) = called(
        |(rows, texts): &mut Arrays, found: &mut raw::FaultTable| unsafe {
            let (places, bytes) = (rows.len(), texts.len());
            raw::mp4_check_file(file.as_ptr(), file.len(), rows.as_mut_ptr(), places, texts.as_mut_ptr(), bytes, found)
        },
        |found| Ok((defaults(found.count)?, defaults(found.text_bytes)?)),
    )?;
    converted(&rows, |it| {
        Ok(FileFault {
            position: it.position,
            path: text_at(&texts, it.path)?,
            code: FaultCode::of(it.code).ok_or(Error::Other(it.code))?,
            severity: if it.severity == raw::WARNING { Severity::Warning } else { Severity::Error },
            text: text_at(&texts, it.text)?,
        })
    })
}

#[cfg(test)]
mod tests {
    use super::{FaultCode, CODES};
    use crate::calls::filled_by;
    use crate::raw;

    /// Checks that each code has the number and the word that the library has for it.
    #[test]
    fn words() {
        let word = |number: u32| {
            // SAFETY: as in `filled`.
            let found = filled_by(|rows: &mut Vec<u8>, count: &mut usize| unsafe {
                raw::mp4_fault_name(number, rows.as_mut_ptr(), rows.len(), count)
            });
            String::from_utf8(found.unwrap().0).unwrap()
        };
        for (index, (code, text)) in CODES.into_iter().enumerate() {
            let number = index as u32 + 1;
            assert_eq!((word(number).as_str(), FaultCode::of(number)), (text, Some(code)));
            assert_eq!((code.word(), code.to_string().as_str()), (text, text));
        }
        for number in [0, CODES.len() as u32 + 1, u32::MAX] {
            assert_eq!((word(number).as_str(), FaultCode::of(number)), ("", None));
        }
    }
}

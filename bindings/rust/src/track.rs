//! The tracks of a movie, and their samples.

use std::io::{Cursor, Read, Seek, SeekFrom};
use std::time::Duration;

use crate::calls::{defaults, filled_by, roomy};
use crate::{info, raw, tree, tree_of, Error, Fault, FileInfo, FourCC, HdlrBox, MdhdBox, Sample};
use crate::{TkhdBox, TrackInfo, TrackType, Tree, TreeBox};

/// A track of a movie: its headers, and what `info` knows of it.
#[derive(Clone, Debug, PartialEq, Eq)]
#[non_exhaustive]
pub struct Track {
    /// The position in the file of its `trak`.
    pub position: u64,
    /// The path of its `trak`, such as `moov/trak[1]`.
    pub path: String,
    /// The track header.
    pub tkhd: TkhdBox,
    /// The media header.
    pub mdhd: MdhdBox,
    /// The kind of the media.
    pub hdlr: HdlrBox,
    /// The codes of the sample entries, such as `avc1` or `Opus`, in their order.
    pub box_types: Vec<FourCC>,
    /// The kind, the codec, the pictures or the sound, the encryption, and the numbers of samples.
    pub info: TrackInfo,
}

impl Track {
    fn of<F: Read + Seek>(trak: TreeBox<'_>, file: &mut F, info: TrackInfo) -> Result<Track, Error> {
        let mut box_types = Vec::new();
        if let Some(stsd) = trak.find("mdia/minf/stbl/stsd") {
            box_types = roomy(stsd.children().count())?;
            box_types.extend(stsd.children().map(|it| it.code));
        }
        Ok(Track {
            position: trak.position,
            path: trak.path()?,
            tkhd: trak.require("tkhd")?.read_from(file)?,
            mdhd: trak.require("mdia/mdhd")?.read_from(file)?,
            hdlr: trak.require("mdia/hdlr")?.read_from(file)?,
            box_types,
            info,
        })
    }

    /// Returns the track_ID.
    pub fn track_id(&self) -> u32 {
        self.tkhd.track_id
    }

    /// Returns the kind of the track, or `None` for another kind than video, audio and subtitles.
    pub fn track_type(&self) -> Option<TrackType> {
        TrackType::try_from(self.hdlr.handler_type).ok()
    }

    /// Returns the code of the first sample entry.
    pub fn box_type(&self) -> Option<FourCC> {
        self.box_types.first().copied()
    }

    /// Returns the language: a tag such as `de-CH`, or three letters such as `eng`.
    pub fn language(&self) -> &str {
        &self.info.language
    }

    /// Returns the number of units of time per second.
    pub fn timescale(&self) -> u32 {
        self.mdhd.timescale
    }

    /// Returns the duration of the media that its header states, rounded down to nanoseconds; 0 if the timescale is 0.
    /// A file with fragments often states 0: `info` has the duration by the edits and the samples.
    pub fn duration(&self) -> Duration {
        let (duration, timescale) = (self.mdhd.duration, u64::from(self.mdhd.timescale));
        if timescale == 0 {
            return Duration::ZERO;
        }
        // The remainder has 32 bits at most, and the product 62.
        let nanoseconds = duration % timescale * 1_000_000_000 / timescale;
        Duration::new(duration / timescale, nanoseconds as u32)
    }

    /// Returns the width of the video on screen, in whole pixels.
    pub fn width(&self) -> u16 {
        self.tkhd.width.value()
    }

    /// Returns the height of the video on screen, in whole pixels.
    pub fn height(&self) -> u16 {
        self.tkhd.height.value()
    }

    /// Returns the samples of the track, over its tables and then over the fragments of the file. The error of a fault
    /// has the position and the path of the `trak`.
    pub fn samples(&self, file: &[u8]) -> Result<Vec<Sample>, Error> {
        match self.all_samples(file) {
            Err(Error::Fault(fault)) => {
                let mut path = String::new();
                path.try_reserve(self.path.len())?;
                path.push_str(&self.path);
                Err(Error::At { position: self.position, path, fault })
            }
            found => found,
        }
    }

    fn all_samples(&self, file: &[u8]) -> Result<Vec<Sample>, Error> {
        let mut found = samples(file, self.track_id())?;
        let more = fragment_samples(file, self.track_id())?;
        found.try_reserve_exact(more.len())?;
        found.extend(more);
        Ok(found)
    }
}

/// Returns the tracks of the first `moov` of the bytes of a file. The error is that of the first track whose `tkhd`,
/// `mdhd` or `hdlr` is missing or can't be read, with its position and path.
///
/// ```
/// use mp4_box_codec::{tracks, Error, Fault};
///
/// let error = tracks(b"\0\0\0\x10moov\0\0\0\x08trak").unwrap_err();
/// assert_eq!(error, Error::At { position: 8, path: "moov/trak".to_string(), fault: Fault::BoxNotFound });
/// assert!(error.to_string().starts_with("moov/trak at 8: "));
/// ```
pub fn tracks(file: &[u8]) -> Result<Vec<Track>, Error> {
    listed_tracks(&tree(file)?, &mut Cursor::new(file), || info(file))
}

/// Returns the tracks of a file, like `tracks`. It reads the boxes of the top level except `mdat`, and keeps their
/// bytes until it returns.
pub fn tracks_of<F: Read + Seek>(file: &mut F) -> Result<Vec<Track>, Error> {
    let tree = tree_of(file)?;
    let mut bytes = Vec::new();
    for it in tree.children().filter(|it| it.code != "mdat") {
        let part = bytes_of(it, file)?;
        bytes.try_reserve(part.len())?;
        bytes.extend(part);
    }
    listed_tracks(&tree, file, || info(&bytes))
}

/// Returns the bytes of a box of the top level: those that the file has.
fn bytes_of<F: Read + Seek>(it: TreeBox<'_>, file: &mut F) -> Result<Vec<u8>, Error> {
    let end = file.seek(SeekFrom::End(0))?.min(it.position.saturating_add(it.length));
    let length = usize::try_from(end.saturating_sub(it.position)).map_err(|_| Error::OutOfMemory)?;
    let mut bytes = defaults(length)?;
    file.seek(SeekFrom::Start(it.position))?;
    file.read_exact(&mut bytes)?;
    Ok(bytes)
}

/// Returns the tracks of a file with the boxes `tree`, of which `known` returns what the library knows.
fn listed_tracks<F: Read + Seek>(
    tree: &Tree,
    file: &mut F,
    known: impl FnOnce() -> Result<FileInfo, Error>,
) -> Result<Vec<Track>, Error> {
    let moov = tree.find("moov").ok_or(Fault::BoxNotFound)?;
    let mut infos = known()?.tracks.into_iter();
    let mut tracks = roomy(infos.len())?;
    for trak in moov.children().filter(|it| it.code == "trak") {
        let info = infos.next().ok_or(Fault::BoxNotFound)?;
        tracks.push(Track::of(trak, file, info)?);
    }
    Ok(tracks)
}

/// Returns the samples in the tables of the first track with a track_ID (8.3.2). A track without `stsz`, `stz2` and
/// chunks has none. The bytes may be those of a file, or only those of its `moov`: offsets count from the front of the
/// file.
pub fn samples(bytes: &[u8], track_id: u32) -> Result<Vec<Sample>, Error> {
    listed(bytes, track_id, raw::mp4_samples)
}

/// Returns the samples of all fragments of the first track with a track_ID (8.8) in the bytes of a file, in the order
/// of the file. Their `chunk` is the number of the run in its fragment, counted from 1. Without a `tfdt` the times of a
/// fragment continue those of the fragment before it; those of the first fragment begin where the samples of the
/// track's tables end, by `stts`.
pub fn fragment_samples(file: &[u8], track_id: u32) -> Result<Vec<Sample>, Error> {
    listed(file, track_id, raw::mp4_fragment_samples)
}

/// A function of the library that lists samples.
type Lists = unsafe extern "C" fn(*const u8, usize, u32, *mut Sample, usize, *mut usize) -> u32;

fn listed(file: &[u8], track_id: u32, list: Lists) -> Result<Vec<Sample>, Error> {
    // SAFETY: as in `filled`. The library writes 0 or 1 for `is_sync`.
    let found = filled_by(|rows: &mut Vec<Sample>, count: &mut usize| unsafe {
        list(file.as_ptr(), file.len(), track_id, rows.as_mut_ptr(), rows.len(), count)
    });
    match found {
        Err(Error::Other(raw::NO_TRACK)) => Err(Error::TrakNotFound(track_id)),
        found => Ok(found?.0),
    }
}

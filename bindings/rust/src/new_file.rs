//! New files: what `mp4remux` writes, without a copy of the media data.

use std::io::Write;
use std::time::Duration;

use crate::calls::{answered, defaults, result_of, roomy};
use crate::info::text_at;
use crate::{raw, Error, FourCC};

/// A new file, as pieces of the old file and new bytes.
///
/// ```
/// use mp4_box_codec::{edit, Change, Error, Piece};
///
/// let (file, free) = (b"\0\0\0\x10ftypisom\0\0\0\0\0\0\0\x08moov", b"\0\0\0\x08free");
/// let new = edit(file, &[Change::Insert { path: "/", before: None, boxes: free }])?;
/// assert_eq!(new.pieces().next(), Some(Piece::Old { position: 0, bytes: &file[..16] }));
/// assert_eq!(new.pieces().last(), Some(Piece::New(free)));
/// assert_eq!((new.length(), new.to_vec()?), (32, [&file[..], free].concat()));
/// let error = edit(file, &[Change::Remove("moov/udta")]).unwrap_err();
/// assert_eq!(error, Error::Refused { reason: "there is no moov/udta".into() });
/// # Ok::<(), Error>(())
/// ```
#[derive(Clone, Debug)]
pub struct NewFile<'a> {
    old: &'a [u8],
    new: Vec<u8>,
    rows: Vec<raw::Piece>,
    found: raw::NewFile,
}

/// A piece of a new file.
#[derive(Clone, Copy, Debug, PartialEq, Eq, Hash)]
pub enum Piece<'a> {
    /// Bytes of the old file.
    Old {
        /// The position of the first one in the old file.
        position: u64,
        /// The bytes.
        bytes: &'a [u8],
    },
    /// New bytes.
    New(&'a [u8]),
}

impl<'a> Piece<'a> {
    /// Returns the bytes.
    pub fn bytes(self) -> &'a [u8] {
        match self {
            Piece::Old { bytes, .. } => bytes,
            Piece::New(bytes) => bytes,
        }
    }
}

/// Returns the bytes of a range, which the library ensures are present.
fn range(bytes: &[u8], position: u64, length: u64) -> &[u8] {
    let (begin, length) = (position as usize, length as usize);
    bytes.get(begin..begin.saturating_add(length)).unwrap_or_default()
}

impl NewFile<'_> {
    /// Returns the pieces, in their order. No piece is empty.
    pub fn pieces(&self) -> impl Iterator<Item = Piece<'_>> {
        self.rows.iter().map(move |it| {
            if it.is_new == 1 {
                Piece::New(range(&self.new, it.position, it.length))
            } else {
                Piece::Old { position: it.position, bytes: range(self.old, it.position, it.length) }
            }
        })
    }

    /// Returns the number of bytes.
    pub fn length(&self) -> u64 {
        self.found.length
    }

    /// Returns the number of fragments that `fragment` makes or `defragment` joins.
    pub fn fragments(&self) -> u64 {
        self.found.fragments
    }

    /// Returns the number of samples in the new tables of `defragment`, or in the part of `cut`.
    pub fn samples(&self) -> u64 {
        self.found.samples
    }

    /// Returns the old and the new position of the `moov` that `faststart` moves. None if the new file is a copy.
    pub fn moved(&self) -> Option<(u64, u64)> {
        let raw::NewFile { moved_from, moved_to, .. } = self.found;
        (moved_from != moved_to).then_some((moved_from, moved_to))
    }

    /// Writes the bytes to `writer`.
    pub fn write_to<W: Write>(&self, writer: &mut W) -> Result<(), Error> {
        for piece in self.pieces() {
            writer.write_all(piece.bytes())?;
        }
        Ok(())
    }

    /// Returns the bytes.
    pub fn to_vec(&self) -> Result<Vec<u8>, Error> {
        let mut found = roomy(usize::try_from(self.length()).map_err(|_| Error::OutOfMemory)?)?;
        for piece in self.pieces() {
            found.extend_from_slice(piece.bytes());
        }
        Ok(found)
    }
}

/// The arrays of a new file: its pieces, its new bytes, and the reason why there is none.
type Arrays = (Vec<raw::Piece>, Vec<u8>, Vec<u8>);

/// The pointers and lengths of the arrays.
type Places = (*mut raw::Piece, usize, *mut u8, usize, *mut u8, usize);

/// Returns the new file that a call plans over the bytes `old`.
fn planned<'a>(old: &'a [u8], call: impl Fn(Places, &mut raw::NewFile) -> u32) -> Result<NewFile<'a>, Error> {
    let (status, (rows, new, text), found) = answered(
        |(rows, new, text): &mut Arrays, found: &mut raw::NewFile| {
            let (pieces, bytes, words) = (rows.len(), new.len(), text.len());
            call((rows.as_mut_ptr(), pieces, new.as_mut_ptr(), bytes, text.as_mut_ptr(), words), found)
        },
        |found| Ok((defaults(found.piece_count)?, defaults(found.new_bytes)?, defaults(found.text_bytes)?)),
    )?;
    if status == raw::REFUSED {
        let part = raw::TextPart { position: 0, length: text.len() };
        return Err(Error::Refused { reason: text_at(&text, part)? });
    }
    result_of(status, NewFile { old, new, rows, found })
}

/// Returns the file with its `moov` before its media data: what `mp4remux faststart` writes. Every offset leads to the
/// same byte. If no media data are before the `moov`, the new file is a copy.
pub fn faststart(file: &[u8]) -> Result<NewFile<'_>, Error> {
    // SAFETY: as in `filled`, for three arrays.
    planned(file, |(pieces, places, bytes, byte_places, text, text_places), found| unsafe {
        raw::mp4_faststart(file.as_ptr(), file.len(), pieces, places, bytes, byte_places, text, text_places, found)
    })
}

/// A change of a file that `edit` makes. A path is that of `find`. A track is that with the track_ID.
#[derive(Clone, Copy, Debug, PartialEq, Eq, Hash)]
#[non_exhaustive]
pub enum Change<'a> {
    /// Removes the box at a path.
    Remove(&'a str),
    /// Inserts boxes.
    Insert {
        /// The path of the box that the new boxes are in. `/` stands for the file.
        path: &'a str,
        /// The number of the box before which they are inserted, counted from 0. None: after the last box.
        before: Option<u64>,
        /// The boxes, with their headers.
        boxes: &'a [u8],
    },
    /// Replaces a box.
    Replace {
        /// Its path.
        path: &'a str,
        /// The new box, with its header.
        bytes: &'a [u8],
    },
    /// Sets the major brand to the first of these, and adds those that are missing to the compatible brands.
    Brands(&'a [FourCC]),
    /// Sets the language of a track.
    Language {
        /// The track_ID.
        track_id: u32,
        /// Three lower-case letters, such as `deu`.
        language: &'a str,
    },
    /// Turns the pictures of a track.
    Rotate {
        /// The track_ID.
        track_id: u32,
        /// The degrees clockwise: 0, 90, 180 or 270.
        degrees: u32,
    },
    /// Enables the track with this track_ID.
    Enable(u32),
    /// Disables the track with this track_ID.
    Disable(u32),
    /// Removes the tags of the movie.
    NoTags,
    /// Sets the title.
    Title(&'a str),
    /// Sets a tag of iTunes to a text.
    Tag {
        /// The code of the tag, such as `©alb`.
        code: FourCC,
        /// The text.
        text: &'a str,
    },
    /// Sets the cover to a picture, a JPEG or PNG.
    Cover(&'a [u8]),
    /// Drops the track with this track_ID, with its samples in fragments.
    DropTrack(u32),
}

/// Appends `bytes` to `data`. Returns the part that they are.
fn put(data: &mut Vec<u8>, bytes: &[u8]) -> Result<raw::TextPart, Error> {
    data.try_reserve(bytes.len())?;
    let part = raw::TextPart { position: data.len(), length: bytes.len() };
    data.extend_from_slice(bytes);
    Ok(part)
}

impl Change<'_> {
    /// Returns the change as a row, and appends its parts to `data`.
    fn row(&self, data: &mut Vec<u8>) -> Result<raw::Change, Error> {
        let mut row = raw::Change::default();
        match *self {
            Change::Remove(path) => (row.kind, row.path) = (raw::CHANGE_REMOVE, put(data, path.as_bytes())?),
            Change::Insert { path, before, boxes } => {
                (row.kind, row.path) = (raw::CHANGE_INSERT, put(data, path.as_bytes())?);
                (row.number, row.bytes) = (before.unwrap_or(raw::LAST), put(data, boxes)?);
            }
            Change::Replace { path, bytes } => {
                (row.kind, row.path) = (raw::CHANGE_REPLACE, put(data, path.as_bytes())?);
                row.bytes = put(data, bytes)?;
            }
            Change::Brands(brands) => {
                (row.kind, row.bytes.position) = (raw::CHANGE_BRANDS, data.len());
                for brand in brands {
                    row.bytes.length += put(data, &brand.value)?.length;
                }
            }
            Change::Language { track_id, language } => {
                (row.kind, row.track_id) = (raw::CHANGE_LANGUAGE, track_id);
                row.bytes = put(data, language.as_bytes())?;
            }
            Change::Rotate { track_id, degrees } => {
                (row.kind, row.track_id, row.value) = (raw::CHANGE_ROTATE, track_id, degrees);
            }
            Change::Enable(track_id) => (row.kind, row.track_id, row.value) = (raw::CHANGE_ENABLE, track_id, 1),
            Change::Disable(track_id) => (row.kind, row.track_id) = (raw::CHANGE_ENABLE, track_id),
            Change::NoTags => row.kind = raw::CHANGE_NO_TAGS,
            Change::Title(text) => return Change::Tag { code: FourCC::new(b"\xA9nam"), text }.row(data),
            Change::Tag { code, text } => {
                (row.kind, row.value) = (raw::CHANGE_TAG, code.into());
                row.bytes = put(data, text.as_bytes())?;
            }
            Change::Cover(picture) => (row.kind, row.bytes) = (raw::CHANGE_COVER, put(data, picture)?),
            Change::DropTrack(track_id) => (row.kind, row.track_id) = (raw::CHANGE_DROP_TRACK, track_id),
        }
        Ok(row)
    }
}

/// Returns the file with some changes: what `mp4remux edit` writes. Every sample of every track is kept, except those
/// of tracks that are dropped, and offsets lead to the same bytes. Paths and numbers are those of the file before all
/// changes. If a change is none, the reason begins with its number in `changes`, such as `change 0: `.
pub fn edit<'a>(file: &'a [u8], changes: &[Change<'_>]) -> Result<NewFile<'a>, Error> {
    let (mut rows, mut data) = (roomy(changes.len())?, Vec::new());
    for change in changes {
        rows.push(change.row(&mut data)?);
    }
    // SAFETY: as in `filled`, for three arrays that are written.
    planned(file, |(pieces, places, bytes, byte_places, text, text_places), found| unsafe {
        raw::mp4_edit(
            file.as_ptr(),
            file.len(),
            rows.as_ptr(),
            rows.len(),
            data.as_ptr(),
            data.len(),
            pieces,
            places,
            bytes,
            byte_places,
            text,
            text_places,
            found,
        )
    })
}

/// The options of `fragment`.
#[derive(Clone, Copy, Debug, Default, PartialEq, Eq, Hash)]
pub struct FragmentOptions {
    /// The time that each fragment but the last lasts at least. None: a video is cut at each sync sample, and other
    /// media every two seconds. A time of 0 is the same as None.
    pub least: Option<Duration>,
    /// Asks for a `sidx` before the fragments.
    pub has_sidx: bool,
    /// Asks for an `mfra` after the fragments.
    pub has_mfra: bool,
    /// Asks for a `styp` before each fragment, so that it can be a separate file.
    pub has_styp: bool,
}

/// Returns a time in nanoseconds. The largest number stands for all larger ones, which are 584 years and more.
fn nanoseconds(time: Duration) -> u64 {
    u64::try_from(time.as_nanos()).unwrap_or(u64::MAX)
}

/// Returns the file with all samples in fragments: what `mp4remux fragment` writes.
pub fn fragment<'a>(file: &'a [u8], options: &FragmentOptions) -> Result<NewFile<'a>, Error> {
    let options = raw::FragmentOptions {
        least: options.least.map_or(0, nanoseconds),
        has_sidx: u8::from(options.has_sidx),
        has_mfra: u8::from(options.has_mfra),
        has_styp: u8::from(options.has_styp),
    };
    // SAFETY: as in `filled`, for three arrays.
    planned(file, |(pieces, places, bytes, byte_places, text, text_places), found| unsafe {
        let (old, length) = (file.as_ptr(), file.len());
        raw::mp4_fragment(old, length, &options, pieces, places, bytes, byte_places, text, text_places, found)
    })
}

/// Returns the file with all samples in tables: what `mp4remux defragment` writes.
pub fn defragment(file: &[u8]) -> Result<NewFile<'_>, Error> {
    // SAFETY: as in `filled`, for three arrays.
    planned(file, |(pieces, places, bytes, byte_places, text, text_places), found| unsafe {
        raw::mp4_defragment(file.as_ptr(), file.len(), pieces, places, bytes, byte_places, text, text_places, found)
    })
}

/// Returns the part of the file between two times of the presentation: what `mp4remux cut` writes. It begins with a
/// sync sample of the video, and an edit list hides what is before `from`.
pub fn cut(file: &[u8], from: Duration, to: Duration) -> Result<NewFile<'_>, Error> {
    let (from, to) = (nanoseconds(from), nanoseconds(to));
    // SAFETY: as in `filled`, for three arrays.
    planned(file, |(pieces, places, bytes, byte_places, text, text_places), found| unsafe {
        let (old, length) = (file.as_ptr(), file.len());
        raw::mp4_cut(old, length, from, to, pieces, places, bytes, byte_places, text, text_places, found)
    })
}

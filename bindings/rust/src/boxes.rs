//! Boxes of fixed fields and tables, each with a struct that is read and written.

use std::io::Write;

use crate::calls::{converted, filled, read_by, roomy, written};
use crate::json::made;
use crate::{fields, raw, CttsEntry, ElstEntry, Error, FixedPointI8, FixedPointU16, FixedPointU8, FourCC, Matrix};
use crate::{RgbColor, StscEntry, SttsEntry, TrunEntry};

/// A box that is read into a struct.
///
/// ```
/// use mp4_box_codec::{Error, Fault, MehdBox, ReadBox};
///
/// let mehd = MehdBox::read_box(b"\0\0\0\x10mehd\0\0\0\0\0\0\x03\xE8")?;
/// assert_eq!(mehd.fragment_duration, 1000);
/// assert_eq!(MehdBox::read_box(b"\0\0\0\x10mehd"), Err(Fault::EndOfInput.into()));
/// assert_eq!(MehdBox::CODE, "mehd");
/// # Ok::<(), Error>(())
/// ```
pub trait ReadBox: Sized {
    /// The code of the box.
    const CODE: FourCC;

    /// Reads the box at the front of `bytes`, which begin with its header. `Fault::InvalidData` for a box of another
    /// type.
    fn read_box(bytes: &[u8]) -> Result<Self, Error>;

    /// Returns the box whose fields are those of a JSON object, by the rules of `box_from_json`. `Error::Json` has the
    /// member that is wrong.
    ///
    /// ```
    /// use mp4_box_codec::{extra::PaspBox, Error, ReadBox};
    ///
    /// let pasp = PaspBox::from_json(r#"{"vSpacing": 3, "hSpacing": 4}"#)?;
    /// assert_eq!(pasp, PaspBox { h_spacing: 4, v_spacing: 3 });
    /// let error = PaspBox::from_json(r#"{"vSpacing": 3}"#).unwrap_err();
    /// assert_eq!(error.to_string(), "the box 'pasp' can't be written: hSpacing is missing");
    /// # Ok::<(), Error>(())
    /// ```
    fn from_json(json: &str) -> Result<Self, Error> {
        Self::read_box(&made(Self::CODE, json)?)
    }
}

/// A box that is written from a struct.
pub trait WriteBox: ReadBox {
    /// Returns the bytes of the box, including its header. `Error::Unwritable` if a number doesn't fit its field, or
    /// if fields disagree. For a struct of `extra` it is `Error::Json`, which has the name of the field.
    fn to_bytes(&self) -> Result<Vec<u8>, Error>;

    /// Returns the fields of the box as the text of a JSON object, like `fields`.
    fn to_json(&self) -> Result<String, Error> {
        fields(&self.to_bytes()?)
    }

    /// Writes the box to `writer`, including its header, and returns the number of its bytes.
    fn write_box<W: Write>(&self, writer: &mut W) -> Result<u64, Error> {
        let bytes = self.to_bytes()?;
        writer.write_all(&bytes)?;
        Ok(bytes.len() as u64)
    }
}

/// A value of a field, which the library has as a `Raw`.
pub(crate) trait Field: Sized {
    type Raw;
    fn of(raw: Self::Raw) -> Result<Self, Error>;
    fn raw(&self) -> Option<Self::Raw>;
}

/// Implements `Field` for types whose values are all those of their raw type.
macro_rules! fields {
    ($($type:ty, $raw:ty: |$from:ident| $of:expr, |$value:ident| $to:expr;)*) => {
        $(impl Field for $type {
            type Raw = $raw;

            fn of($from: $raw) -> Result<$type, Error> {
                Ok($of)
            }

            fn raw(&self) -> Option<$raw> {
                let $value = *self;
                Some($to)
            }
        })*
    };
}

fields! {
    u8, u8: |it| it, |it| it;
    u16, u16: |it| it, |it| it;
    u32, u32: |it| it, |it| it;
    u64, u64: |it| it, |it| it;
    i8, i8: |it| it, |it| it;
    i16, i16: |it| it, |it| it;
    bool, u8: |it| it != 0, |it| u8::from(it);
    FourCC, u32: |it| FourCC::from(it), |it| u32::from(it);
    FixedPointU16, u32: |it| FixedPointU16::new_raw(it), |it| it.raw_value();
    FixedPointU8, u16: |it| FixedPointU8::new_raw(it), |it| it.raw_value();
    FixedPointI8, i16: |it| FixedPointI8::new_raw(it), |it| it.raw_value();
    Matrix, Matrix: |it| it, |it| it;
    RgbColor, RgbColor: |it| it, |it| it;
}

/// The letters of a language: `eng` is three letters and a zero of the library.
impl Field for String {
    type Raw = [u8; 4];

    fn of(raw: [u8; 4]) -> Result<String, Error> {
        let mut text = String::new();
        text.try_reserve_exact(raw.len())?;
        text.extend(raw[..3].iter().map(|it| char::from(it & 0x7F)));
        Ok(text)
    }

    fn raw(&self) -> Option<[u8; 4]> {
        match self.as_bytes() {
            &[a, b, c] if self.bytes().all(|it| (0x60..0x80).contains(&it)) => Some([a, b, c, 0]),
            _ => None,
        }
    }
}

/// Returns a default of a field: the given value, or the default of its type.
macro_rules! default_of {
    () => {
        Default::default()
    };
    ($value:expr) => {
        $value
    };
}

/// Defines a struct, and how it is read and written.
macro_rules! headers {
    ($($(#[$words:meta])* $name:ident $code:literal, $raw:ident, $read:ident, $write:ident {
        $($(#[$field_words:meta])* $field:ident: $type:ty $(= $default:expr)?,)*
    })*) => {
        $($(#[$words])*
        #[derive(Clone, Debug, PartialEq, Eq, Hash)]
        pub struct $name {
            $($(#[$field_words])* pub $field: $type,)*
        }

        impl Default for $name {
            fn default() -> $name {
                $name { $($field: default_of!($($default)?),)* }
            }
        }

        impl ReadBox for $name {
            const CODE: FourCC = FourCC::new($code);

            fn read_box(bytes: &[u8]) -> Result<$name, Error> {
                // SAFETY: as in `filled`.
                let found = read_by(|found: &mut raw::$raw| unsafe {
                    raw::$read(bytes.as_ptr(), bytes.len(), found)
                })?;
                Ok($name { $($field: Field::of(found.$field)?,)* })
            }
        }

        impl WriteBox for $name {
            fn to_bytes(&self) -> Result<Vec<u8>, Error> {
                let refused = || Error::Unwritable($name::CODE);
                let fields = raw::$raw { $($field: self.$field.raw().ok_or_else(refused)?,)* };
                // SAFETY: as in `filled`.
                written($name::CODE, |out, length| unsafe {
                    raw::$write(&fields, out.as_mut_ptr(), out.len(), length)
                })
            }
        })*
    };
}

headers! {
    /// The movie header (8.2.2): properties of the whole movie.
    MvhdBox b"mvhd", Mvhd, mp4_mvhd, mp4_write_mvhd {
        /// The version of the box: 0 or 1. In version 0 times and the duration have 32 bits.
        version: u8,
        /// The 24 bits of the flags.
        flags: u32,
        /// In seconds since the beginning of 1904, UTC.
        creation_time: u64,
        /// In seconds since the beginning of 1904, UTC.
        modification_time: u64,
        /// Units per second.
        timescale: u32 = 1000,
        /// The duration of the longest track, in the timescale.
        duration: u64,
        /// The rate of playback.
        rate: FixedPointU16 = FixedPointU16::new(1),
        /// The volume: 1 is full.
        volume: FixedPointU8 = FixedPointU8::new(1),
        /// The matrix of the whole movie.
        matrix: Matrix,
        /// A number that no track has.
        next_track_id: u32 = 1,
    }
    /// A track header (8.3.2): properties of a track.
    TkhdBox b"tkhd", Tkhd, mp4_tkhd, mp4_write_tkhd {
        /// The version of the box: 0 or 1. In version 0 times and the duration have 32 bits.
        version: u8,
        /// 0x1: enabled, 0x2: in the movie, 0x4: in the preview, 0x8: the size is an aspect ratio.
        flags: u32 = 3,
        /// In seconds since the beginning of 1904, UTC.
        creation_time: u64,
        /// In seconds since the beginning of 1904, UTC.
        modification_time: u64,
        /// The number of the track, which isn't 0.
        track_id: u32,
        /// In the timescale of the movie.
        duration: u64,
        /// Tracks with a lower layer cover those with a higher one.
        layer: i16,
        /// The number of a group, of which a player plays one track; 0: no group.
        alternate_group: i16,
        /// The volume: 1 is full.
        volume: FixedPointU8,
        /// The matrix by which the picture is placed.
        matrix: Matrix,
        /// The width of the video on screen, in pixels.
        width: FixedPointU16,
        /// The height of the video on screen, in pixels.
        height: FixedPointU16,
    }
    /// A media header (8.4.2): properties of the media of a track.
    MdhdBox b"mdhd", Mdhd, mp4_mdhd, mp4_write_mdhd {
        /// The version of the box: 0 or 1. In version 0 times and the duration have 32 bits.
        version: u8,
        /// The 24 bits of the flags.
        flags: u32,
        /// In seconds since the beginning of 1904, UTC.
        creation_time: u64,
        /// In seconds since the beginning of 1904, UTC.
        modification_time: u64,
        /// Units per second.
        timescale: u32 = 1000,
        /// In the timescale.
        duration: u64,
        /// Three small letters of ISO 639-2/T, such as `eng`.
        language: String = "und".into(),
    }
    /// The duration of a movie with fragments (8.8.2).
    MehdBox b"mehd", Mehd, mp4_mehd, mp4_write_mehd {
        /// The version of the box: 0 or 1.
        version: u8,
        /// The 24 bits of the flags.
        flags: u32,
        /// The duration in the timescale of the movie; 32 bits in version 0.
        fragment_duration: u64,
    }
    /// The number of a fragment (8.8.5).
    MfhdBox b"mfhd", Mfhd, mp4_mfhd, mp4_write_mfhd {
        /// The version of the box.
        version: u8,
        /// The 24 bits of the flags.
        flags: u32,
        /// The number, which grows from fragment to fragment.
        sequence_number: u32,
    }
    /// The header of sound (12.2.2).
    SmhdBox b"smhd", Smhd, mp4_smhd, mp4_write_smhd {
        /// The version of the box.
        version: u8,
        /// The 24 bits of the flags.
        flags: u32,
        /// The balance between left and right: -1 is full left, 0 the centre.
        balance: FixedPointI8,
    }
    /// The header of video (12.1.2): how it is composed with what is below it.
    VmhdBox b"vmhd", Vmhd, mp4_vmhd, mp4_write_vmhd {
        /// The version of the box.
        version: u8,
        /// The 24 bits of the flags: 1 in the standard.
        flags: u32 = 1,
        /// 0: the video covers what is below it.
        graphics_mode: u16,
        /// The colour that other modes use.
        op_color: RgbColor,
    }
    /// The defaults for the samples of a track's fragments (8.8.3).
    TrexBox b"trex", Trex, mp4_trex, mp4_write_trex {
        /// The version of the box.
        version: u8,
        /// The 24 bits of the flags.
        flags: u32,
        /// The number of the track.
        track_id: u32,
        /// The index of a sample entry, counted from 1.
        default_sample_description_index: u32 = 1,
        /// In the timescale of the media.
        default_sample_duration: u32,
        /// In bytes.
        default_sample_size: u32,
        /// The flags of a sample.
        default_sample_flags: u32,
    }
    /// The time at which the first sample of a track fragment is decoded (8.8.12).
    TfdtBox b"tfdt", Tfdt, mp4_tfdt, mp4_write_tfdt {
        /// The version of the box: 0 or 1.
        version: u8,
        /// The 24 bits of the flags.
        flags: u32,
        /// The time in the timescale of the media; 32 bits in version 0.
        base_media_decode_time: u64,
    }
}

/// The track of a fragment, and defaults for its samples (8.8.7).
///
/// The flags of the fields that may be absent follow from the fields: `flags` has no effect on them.
#[derive(Clone, Debug, Default, PartialEq, Eq, Hash)]
pub struct TfhdBox {
    /// The version of the box.
    pub version: u8,
    /// The 24 bits of the flags.
    pub flags: u32,
    /// The number of the track.
    pub track_id: u32,
    /// The position from which data offsets count.
    pub base_data_offset: Option<u64>,
    /// The index of a sample entry, counted from 1.
    pub sample_description_index: Option<u32>,
    /// The duration of a sample, in the timescale of the media.
    pub default_sample_duration: Option<u32>,
    /// The size of a sample, in bytes.
    pub default_sample_size: Option<u32>,
    /// The flags of a sample.
    pub default_sample_flags: Option<u32>,
}

/// Returns the value of a field, if the flags say that the box has it.
fn present<T>(flags: u32, flag: u32, value: T) -> Option<T> {
    (flags & flag != 0).then_some(value)
}

/// Returns the flags with those of some fields as the fields are.
fn with_flags(flags: u32, fields: &[(u32, bool)]) -> u32 {
    fields.iter().fold(flags, |flags, &(flag, is_present)| if is_present { flags | flag } else { flags & !flag })
}

impl TfhdBox {
    /// The flag of `base_data_offset`.
    pub const FLAG_BASE_DATA_OFFSET: u32 = 0x01;
    /// The flag of `sample_description_index`.
    pub const FLAG_SAMPLE_DESCRIPTION_INDEX: u32 = 0x02;
    /// The flag of `default_sample_duration`.
    pub const FLAG_DEFAULT_SAMPLE_DURATION: u32 = 0x08;
    /// The flag of `default_sample_size`.
    pub const FLAG_DEFAULT_SAMPLE_SIZE: u32 = 0x10;
    /// The flag of `default_sample_flags`.
    pub const FLAG_DEFAULT_SAMPLE_FLAGS: u32 = 0x20;
}

impl ReadBox for TfhdBox {
    const CODE: FourCC = FourCC::new(b"tfhd");

    fn read_box(bytes: &[u8]) -> Result<TfhdBox, Error> {
        // SAFETY: as in `filled`.
        let it = read_by(|found: &mut raw::Tfhd| unsafe { raw::mp4_tfhd(bytes.as_ptr(), bytes.len(), found) })?;
        Ok(TfhdBox {
            version: it.version,
            flags: it.flags,
            track_id: it.track_id,
            base_data_offset: present(it.flags, TfhdBox::FLAG_BASE_DATA_OFFSET, it.base_data_offset),
            sample_description_index: present(
                it.flags,
                TfhdBox::FLAG_SAMPLE_DESCRIPTION_INDEX,
                it.sample_description_index,
            ),
            default_sample_duration: present(
                it.flags,
                TfhdBox::FLAG_DEFAULT_SAMPLE_DURATION,
                it.default_sample_duration,
            ),
            default_sample_size: present(it.flags, TfhdBox::FLAG_DEFAULT_SAMPLE_SIZE, it.default_sample_size),
            default_sample_flags: present(it.flags, TfhdBox::FLAG_DEFAULT_SAMPLE_FLAGS, it.default_sample_flags),
        })
    }
}

impl WriteBox for TfhdBox {
    fn to_bytes(&self) -> Result<Vec<u8>, Error> {
        let flags = with_flags(
            self.flags,
            &[
                (TfhdBox::FLAG_BASE_DATA_OFFSET, self.base_data_offset.is_some()),
                (TfhdBox::FLAG_SAMPLE_DESCRIPTION_INDEX, self.sample_description_index.is_some()),
                (TfhdBox::FLAG_DEFAULT_SAMPLE_DURATION, self.default_sample_duration.is_some()),
                (TfhdBox::FLAG_DEFAULT_SAMPLE_SIZE, self.default_sample_size.is_some()),
                (TfhdBox::FLAG_DEFAULT_SAMPLE_FLAGS, self.default_sample_flags.is_some()),
            ],
        );
        let fields = raw::Tfhd {
            base_data_offset: self.base_data_offset.unwrap_or(0),
            flags,
            track_id: self.track_id,
            sample_description_index: self.sample_description_index.unwrap_or(0),
            default_sample_duration: self.default_sample_duration.unwrap_or(0),
            default_sample_size: self.default_sample_size.unwrap_or(0),
            default_sample_flags: self.default_sample_flags.unwrap_or(0),
            version: self.version,
        };
        // SAFETY: as in `filled`.
        written(TfhdBox::CODE, |out, length| unsafe {
            raw::mp4_write_tfhd(&fields, out.as_mut_ptr(), out.len(), length)
        })
    }
}

/// Defines a table of entries, and how it is read and written.
macro_rules! tables {
    ($($(#[$words:meta])* $name:ident $code:literal, $read:ident, $write:ident: $entry:ty, $raw:ty,
        |$read_version:ident, $from:ident| $of:expr, |$version:ident, $value:ident| $to:expr;)*) => {
        $($(#[$words])*
        #[derive(Clone, Debug, Default, PartialEq, Eq, Hash)]
        pub struct $name {
            /// The version of the box.
            pub version: u8,
            /// The 24 bits of the flags.
            pub flags: u32,
            /// The entries.
            pub entries: Vec<$entry>,
        }

        impl ReadBox for $name {
            const CODE: FourCC = FourCC::new($code);

            fn read_box(bytes: &[u8]) -> Result<$name, Error> {
                let (rows, found) = filled(raw::$read, bytes)?;
                let $read_version = found.version;
                let of = |rows: Vec<$raw>| -> Result<Vec<$entry>, Error> {
                    let $from = rows;
                    $of
                };
                Ok($name { version: $read_version, flags: found.flags, entries: of(rows)? })
            }
        }

        impl WriteBox for $name {
            fn to_bytes(&self) -> Result<Vec<u8>, Error> {
                let ($version, $value) = (self.version, &self.entries);
                let rows = $to;
                let fields = raw::Table { count: rows.len(), flags: self.flags, version: $version };
                // SAFETY: as in `filled`.
                written($name::CODE, |out, length| unsafe {
                    raw::$write(&fields, rows.as_ptr(), rows.len(), out.as_mut_ptr(), out.len(), length)
                })
            }
        })*
    };
}

tables! {
    /// The offsets of the chunks (8.7.5), from the front of the file.
    StcoBox b"stco", mp4_stco, mp4_write_stco: u32, u32, |_version, rows| Ok(rows), |version, entries| entries;
    /// The offsets of the chunks in 64 bits (8.7.5), from the front of the file.
    Co64Box b"co64", mp4_co64, mp4_write_co64: u64, u64, |_version, rows| Ok(rows), |version, entries| entries;
    /// The numbers of the sync samples (8.6.2), counted from 1.
    StssBox b"stss", mp4_stss, mp4_write_stss: u32, u32, |_version, rows| Ok(rows), |version, entries| entries;
    /// The durations of the samples (8.6.1.2).
    SttsBox b"stts", mp4_stts, mp4_write_stts: SttsEntry, SttsEntry,
        |_version, rows| Ok(rows), |version, entries| entries;
    /// The composition offsets of the samples (8.6.1.3).
    CttsBox b"ctts", mp4_ctts, mp4_write_ctts: CttsEntry, CttsEntry,
        |_version, rows| Ok(rows), |version, entries| entries;
    /// The chunks of the samples (8.7.4).
    StscBox b"stsc", mp4_stsc, mp4_write_stsc: StscEntry, StscEntry,
        |_version, rows| Ok(rows), |version, entries| entries;
    /// The edits of a track (8.6.6). In version 1 durations and times have 64 bits, else 32.
    ElstBox b"elst", mp4_elst, mp4_write_elst: ElstEntry, raw::ElstRow,
        |version, rows| converted(&rows, |it| Ok(edit_of(version, it))),
        |version, entries| converted(entries, |it| edit_row(version, it))?;
}

/// Returns an edit. Its media time has the sign of the 64 or 32 bits of its field.
fn edit_of(version: u8, row: &raw::ElstRow) -> ElstEntry {
    let media_time = if version == 1 { row.media_time as i64 } else { i64::from(row.media_time as u32 as i32) };
    ElstEntry {
        segment_duration: row.segment_duration,
        media_time,
        media_rate: row.media_rate as i16,
        media_rate_fraction: row.media_rate_fraction as i16,
    }
}

/// Returns the fields of an edit.
fn edit_row(version: u8, edit: &ElstEntry) -> Result<raw::ElstRow, Error> {
    let media_time = if version == 1 {
        edit.media_time as u64
    } else {
        let time = i32::try_from(edit.media_time).map_err(|_| Error::Unwritable(ElstBox::CODE))?;
        u64::from(time as u32)
    };
    Ok(raw::ElstRow {
        segment_duration: edit.segment_duration,
        media_time,
        media_rate: edit.media_rate as u16,
        media_rate_fraction: edit.media_rate_fraction as u16,
    })
}

/// The sizes of the samples of a track (8.7.3.2).
#[derive(Clone, Debug, Default, PartialEq, Eq, Hash)]
pub struct StszBox {
    /// The version of the box.
    pub version: u8,
    /// The 24 bits of the flags.
    pub flags: u32,
    /// The size of every sample in bytes; 0 if `sample_sizes` has the sizes.
    pub sample_size: u32,
    /// The number of samples. With `sample_sizes` it has to be their number.
    pub sample_count: u32,
    /// The sizes in bytes; empty if all samples have the same size.
    pub sample_sizes: Vec<u32>,
}

impl ReadBox for StszBox {
    const CODE: FourCC = FourCC::new(b"stsz");

    fn read_box(bytes: &[u8]) -> Result<StszBox, Error> {
        let (sample_sizes, it) = filled(raw::mp4_stsz, bytes)?;
        let (sample_size, sample_count) = (it.sample_size, it.sample_count);
        Ok(StszBox { version: it.version, flags: it.flags, sample_size, sample_count, sample_sizes })
    }
}

impl WriteBox for StszBox {
    fn to_bytes(&self) -> Result<Vec<u8>, Error> {
        let StszBox { version, flags, sample_size, sample_count, ref sample_sizes } = *self;
        let fields = raw::StszTable { count: sample_sizes.len(), flags, sample_size, sample_count, version };
        // SAFETY: as in `filled`.
        written(StszBox::CODE, |out, length| unsafe {
            let (sizes, count) = (sample_sizes.as_ptr(), sample_sizes.len());
            raw::mp4_write_stsz(&fields, sizes, count, out.as_mut_ptr(), out.len(), length)
        })
    }
}

/// A run of samples of a track fragment (8.8.8).
///
/// The flags of the fields that may be absent follow from the fields, and from those of the first entry: `flags` has no
/// effect on them. If no field is present for each sample there are no entries, whatever `sample_count` is.
#[derive(Clone, Debug, Default, PartialEq, Eq, Hash)]
pub struct TrunBox {
    /// The version of the box. In version 0 composition offsets aren't negative.
    pub version: u8,
    /// The 24 bits of the flags.
    pub flags: u32,
    /// The number of samples. With entries it has to be their number.
    pub sample_count: u32,
    /// The data offset, in bytes from the base data offset of the fragment.
    pub data_offset: Option<i32>,
    /// The flags of the first sample.
    pub first_sample_flags: Option<u32>,
    /// The fields of each sample.
    pub entries: Vec<TrunEntry>,
}

impl TrunBox {
    /// The flag of `data_offset`.
    pub const FLAG_DATA_OFFSET: u32 = 0x01;
    /// The flag of `first_sample_flags`.
    pub const FLAG_FIRST_SAMPLE_FLAGS: u32 = 0x04;
    /// The flag of the durations of entries.
    pub const FLAG_SAMPLE_DURATION: u32 = 0x100;
    /// The flag of the sizes of entries.
    pub const FLAG_SAMPLE_SIZE: u32 = 0x200;
    /// The flag of the flags of entries.
    pub const FLAG_SAMPLE_FLAGS: u32 = 0x400;
    /// The flag of the composition offsets of entries.
    pub const FLAG_SAMPLE_CTS: u32 = 0x800;

    /// Returns the fields of an entry of this box.
    fn row(&self, flags: u32, it: &TrunEntry) -> Result<raw::TrunRow, Error> {
        let refused = || Error::Unwritable(TrunBox::CODE);
        let offset = it.composition_offset.unwrap_or(0);
        let composition_offset = match self.version {
            0 => u32::try_from(offset).map_err(|_| refused())?,
            _ => i32::try_from(offset).map_err(|_| refused())? as u32,
        };
        let has_the_fields = flags == with_flags(flags, &present_in(it));
        if !has_the_fields {
            return Err(refused());
        }
        let (duration, size, flags) = (it.duration.unwrap_or(0), it.size.unwrap_or(0), it.flags.unwrap_or(0));
        Ok(raw::TrunRow { duration, size, flags, composition_offset })
    }
}

/// Returns which fields an entry has.
fn present_in(it: &TrunEntry) -> [(u32, bool); 4] {
    [
        (TrunBox::FLAG_SAMPLE_DURATION, it.duration.is_some()),
        (TrunBox::FLAG_SAMPLE_SIZE, it.size.is_some()),
        (TrunBox::FLAG_SAMPLE_FLAGS, it.flags.is_some()),
        (TrunBox::FLAG_SAMPLE_CTS, it.composition_offset.is_some()),
    ]
}

impl ReadBox for TrunBox {
    const CODE: FourCC = FourCC::new(b"trun");

    fn read_box(bytes: &[u8]) -> Result<TrunBox, Error> {
        let (rows, found) = filled(raw::mp4_trun, bytes)?;
        let (version, flags) = (found.version, found.flags);
        let entries = converted(&rows, |it: &raw::TrunRow| {
            let offset = it.composition_offset;
            let offset = if version == 0 { i64::from(offset) } else { i64::from(offset as i32) };
            Ok(TrunEntry {
                duration: present(flags, TrunBox::FLAG_SAMPLE_DURATION, it.duration),
                size: present(flags, TrunBox::FLAG_SAMPLE_SIZE, it.size),
                flags: present(flags, TrunBox::FLAG_SAMPLE_FLAGS, it.flags),
                composition_offset: present(flags, TrunBox::FLAG_SAMPLE_CTS, offset),
            })
        })?;
        Ok(TrunBox {
            version,
            flags,
            sample_count: found.sample_count,
            data_offset: present(flags, TrunBox::FLAG_DATA_OFFSET, found.data_offset),
            first_sample_flags: present(flags, TrunBox::FLAG_FIRST_SAMPLE_FLAGS, found.first_sample_flags),
            entries,
        })
    }
}

impl WriteBox for TrunBox {
    fn to_bytes(&self) -> Result<Vec<u8>, Error> {
        let mut flags = with_flags(
            self.flags,
            &[
                (TrunBox::FLAG_DATA_OFFSET, self.data_offset.is_some()),
                (TrunBox::FLAG_FIRST_SAMPLE_FLAGS, self.first_sample_flags.is_some()),
            ],
        );
        if let Some(first) = self.entries.first() {
            flags = with_flags(flags, &present_in(first));
        }
        let rows = converted(&self.entries, |it| self.row(flags, it))?;
        let fields = raw::TrunTable {
            count: rows.len(),
            flags,
            sample_count: self.sample_count,
            data_offset: self.data_offset.unwrap_or(0),
            first_sample_flags: self.first_sample_flags.unwrap_or(0),
            version: self.version,
        };
        // SAFETY: as in `filled`.
        written(TrunBox::CODE, |out, length| unsafe {
            raw::mp4_write_trun(&fields, rows.as_ptr(), rows.len(), out.as_mut_ptr(), out.len(), length)
        })
    }
}

/// Returns the bytes of a box with this code, whose content is the bytes of `parts`, one after the other. The header
/// has 16 bytes if the box would have 2^32 bytes or more.
///
/// ```
/// use mp4_box_codec::{container, Error, MfhdBox, WriteBox};
///
/// let mfhd = MfhdBox { sequence_number: 1, ..MfhdBox::default() }.to_bytes()?;
/// let moof = container(b"moof", &[&mfhd, b"\0\0\0\x08free"])?;
/// assert_eq!(moof[..8], *b"\0\0\0\x20moof");
/// # Ok::<(), Error>(())
/// ```
pub fn container(code: impl Into<FourCC>, parts: &[&[u8]]) -> Result<Vec<u8>, Error> {
    let code = code.into();
    let content: usize = parts.iter().map(|it| it.len()).sum();
    let mut bytes = roomy(content.checked_add(16).ok_or(Error::OutOfMemory)?)?;
    match u32::try_from(content as u64 + 8) {
        Ok(size) => {
            bytes.extend_from_slice(&size.to_be_bytes());
            bytes.extend_from_slice(&code.value);
        }
        Err(_) => {
            bytes.extend_from_slice(&1_u32.to_be_bytes());
            bytes.extend_from_slice(&code.value);
            bytes.extend_from_slice(&(content as u64 + 16).to_be_bytes());
        }
    }
    for part in parts {
        bytes.extend_from_slice(part);
    }
    Ok(bytes)
}

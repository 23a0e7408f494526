//! Values of fields: fixed-point numbers, matrices, colours, and kinds of tracks and of metadata.

use std::fmt;

use crate::{Error, Fault, FourCC};

/// Defines a fixed-point number with the same number of bits before and after the point.
macro_rules! fixed {
    ($($(#[$words:meta])* $name:ident: $raw:ty, $whole:ty, $one:literal;)*) => {
        $($(#[$words])*
        #[derive(Clone, Copy, Default, PartialEq, Eq, PartialOrd, Ord, Hash)]
        #[repr(transparent)]
        pub struct $name($raw);

        impl $name {
            /// Returns the number with the whole part `value`.
            pub const fn new(value: $whole) -> Self {
                Self(value as $raw * $one)
            }

            /// Returns the number whose field holds `raw`.
            pub const fn new_raw(raw: $raw) -> Self {
                Self(raw)
            }

            /// Returns the whole part, without the fraction.
            pub const fn value(self) -> $whole {
                (self.0 / $one) as $whole
            }

            /// Returns the number that the field holds.
            pub const fn raw_value(self) -> $raw {
                self.0
            }

            /// Returns the number with its fraction.
            pub fn to_f64(self) -> f64 {
                f64::from(self.0) / f64::from($one)
            }
        }

        /// Takes the whole part.
        impl From<$whole> for $name {
            fn from(value: $whole) -> $name {
                $name::new(value)
            }
        }

        impl fmt::Debug for $name {
            fn fmt(&self, f: &mut fmt::Formatter<'_>) -> fmt::Result {
                fmt::Display::fmt(self, f)
            }
        }

        impl fmt::Display for $name {
            fn fmt(&self, f: &mut fmt::Formatter<'_>) -> fmt::Result {
                self.to_f64().fmt(f)
            }
        })*
    };
}

fixed! {
    /// An unsigned number with 16 bits before the point and 16 after it, such as a width.
    ///
    /// ```
    /// let width = mp4_box_codec::FixedPointU16::new(320);
    /// assert_eq!((width.value(), width.raw_value()), (320, 0x140_0000));
    /// assert_eq!(mp4_box_codec::FixedPointU16::new_raw(0x1_8000).to_f64(), 1.5);
    /// ```
    FixedPointU16: u32, u16, 0x1_0000;
    /// An unsigned number with 8 bits before the point and 8 after it, such as a volume.
    FixedPointU8: u16, u8, 0x100;
    /// A signed number with 8 bits before the point and 8 after it, such as a balance.
    FixedPointI8: i16, i8, 0x100;
}

/// The matrix by which a picture is placed, in the order of the file.
#[derive(Clone, Copy, Debug, PartialEq, Eq, Hash)]
#[repr(C)]
pub struct Matrix {
    /// Times 65536, as are `b`, `c`, `d`, `x` and `y`.
    pub a: i32,
    /// The second number of the first row.
    pub b: i32,
    /// Times 2^30, as are `v` and `w`.
    pub u: i32,
    /// The first number of the second row.
    pub c: i32,
    /// The second number of the second row.
    pub d: i32,
    /// The third number of the second row.
    pub v: i32,
    /// The distance to the right.
    pub x: i32,
    /// The distance down.
    pub y: i32,
    /// The third number of the third row.
    pub w: i32,
}

/// Returns the matrix that changes nothing.
impl Default for Matrix {
    fn default() -> Matrix {
        Matrix { a: 1 << 16, b: 0, u: 0, c: 0, d: 1 << 16, v: 0, x: 0, y: 0, w: 1 << 30 }
    }
}

/// A colour of 16 bits for each part.
#[derive(Clone, Copy, Debug, Default, PartialEq, Eq, Hash)]
#[repr(C)]
pub struct RgbColor {
    /// The red part.
    pub red: u16,
    /// The green part.
    pub green: u16,
    /// The blue part.
    pub blue: u16,
}

/// A colour of 8 bits for each part, and its opacity.
#[derive(Clone, Copy, Debug, Default, PartialEq, Eq, Hash)]
#[repr(C)]
pub struct RgbaColor {
    /// The red part.
    pub red: u8,
    /// The green part.
    pub green: u8,
    /// The blue part.
    pub blue: u8,
    /// The opacity.
    pub alpha: u8,
}

/// The kind of a track.
#[derive(Clone, Copy, Debug, PartialEq, Eq, Hash)]
#[non_exhaustive]
pub enum TrackType {
    /// The handler `vide`.
    Video,
    /// The handler `soun`.
    Audio,
    /// A handler of subtitles or texts: `sbtl`, `subt` or `text`.
    Subtitle,
}

impl fmt::Display for TrackType {
    fn fmt(&self, f: &mut fmt::Formatter<'_>) -> fmt::Result {
        f.write_str(match self {
            TrackType::Video => "Video",
            TrackType::Audio => "Audio",
            TrackType::Subtitle => "Subtitle",
        })
    }
}

/// Takes the handler of a track. Another handler is `Fault::InvalidData`.
impl TryFrom<FourCC> for TrackType {
    type Error = Error;

    fn try_from(handler: FourCC) -> Result<TrackType, Error> {
        match &handler.value {
            b"vide" => Ok(TrackType::Video),
            b"soun" => Ok(TrackType::Audio),
            b"sbtl" | b"subt" | b"text" => Ok(TrackType::Subtitle),
            _ => Err(Fault::InvalidData.into()),
        }
    }
}

/// The type of the value of a metadata item.
#[derive(Clone, Copy, Debug, Default, PartialEq, Eq, Hash)]
#[repr(u32)]
pub enum DataType {
    /// Bytes.
    #[default]
    Binary = 0,
    /// UTF-8.
    Text = 1,
    /// JPEG.
    Image = 13,
    /// A whole number.
    TempoCpil = 21,
}

/// Takes the number of the type. Another number is `Fault::InvalidData`.
impl TryFrom<u32> for DataType {
    type Error = Error;

    fn try_from(number: u32) -> Result<DataType, Error> {
        match number {
            0 => Ok(DataType::Binary),
            1 => Ok(DataType::Text),
            13 => Ok(DataType::Image),
            21 => Ok(DataType::TempoCpil),
            _ => Err(Fault::InvalidData.into()),
        }
    }
}

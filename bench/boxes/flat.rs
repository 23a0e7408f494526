//! Boxes of fixed fields.

use super::{head_fits, Measured};

/// A matrix, with the numbers a, b, u, c, d, v, x, y and w.
#[derive(Debug, PartialEq)]
pub struct Matrix {
    pub a: i32,
    pub b: i32,
    pub u: i32,
    pub c: i32,
    pub d: i32,
    pub v: i32,
    pub x: i32,
    pub y: i32,
    pub w: i32,
}

impl Matrix {
    pub fn from_numbers([a, b, u, c, d, v, x, y, w]: [i32; 9]) -> Matrix {
        Matrix {
            a,
            b,
            u,
            c,
            d,
            v,
            x,
            y,
            w,
        }
    }

    pub fn numbers(&self) -> [i32; 9] {
        [
            self.a, self.b, self.u, self.c, self.d, self.v, self.x, self.y, self.w,
        ]
    }
}

#[derive(Debug, PartialEq)]
pub struct MvhdBox {
    pub version: u8,
    pub flags: u32,
    pub creation_time: u64,
    pub modification_time: u64,
    pub timescale: u32,
    pub duration: u64,
    pub rate: u32,
    pub volume: u16,
    pub matrix: Matrix,
    pub next_track_id: u32,
}

#[derive(Debug, PartialEq)]
pub struct TkhdBox {
    pub version: u8,
    pub flags: u32,
    pub creation_time: u64,
    pub modification_time: u64,
    pub track_id: u32,
    pub duration: u64,
    pub layer: u16,
    pub alternate_group: u16,
    pub volume: u16,
    pub matrix: Matrix,
    pub width: u32,
    pub height: u32,
}

#[derive(Debug, PartialEq)]
pub struct MdhdBox {
    pub version: u8,
    pub flags: u32,
    pub creation_time: u64,
    pub modification_time: u64,
    pub timescale: u32,
    pub duration: u64,
    pub language: String,
}

#[derive(Debug, PartialEq)]
pub struct MehdBox {
    pub version: u8,
    pub flags: u32,
    pub fragment_duration: u64,
}

#[derive(Debug, PartialEq)]
pub struct MfhdBox {
    pub version: u8,
    pub flags: u32,
    pub sequence_number: u32,
}

#[derive(Debug, PartialEq)]
pub struct SmhdBox {
    pub version: u8,
    pub flags: u32,
    pub balance: i16,
}

#[derive(Debug, PartialEq)]
pub struct RgbColor {
    pub red: u16,
    pub green: u16,
    pub blue: u16,
}

#[derive(Debug, PartialEq)]
pub struct VmhdBox {
    pub version: u8,
    pub flags: u32,
    pub graphics_mode: u16,
    pub op_color: RgbColor,
}

#[derive(Debug, PartialEq)]
pub struct TrexBox {
    pub version: u8,
    pub flags: u32,
    pub track_id: u32,
    pub default_sample_description_index: u32,
    pub default_sample_duration: u32,
    pub default_sample_size: u32,
    pub default_sample_flags: u32,
}

#[derive(Debug, PartialEq)]
pub struct TfdtBox {
    pub version: u8,
    pub flags: u32,
    pub base_media_decode_time: u64,
}

/// Returns whether `version` is 0 or 1, `flags` fit 24 bits, and `times` fit that version.
fn times_fit(version: u8, flags: u32, times: &[u64]) -> bool {
    flags < 1 << 24 && version < 2 && (version == 1 || times.iter().all(|time| *time < 1 << 32))
}

/// Returns the size of a box of this `version`, out of the sizes for version 0 and 1.
fn size_of_version(version: u8, sizes: [u64; 2]) -> u64 {
    sizes[usize::from(version == 1)]
}

/// Implements `Measured` for boxes that have a creation time, a modification time, a duration and these sizes.
macro_rules! measure_timed {
    ($($timed:ident $sizes:expr,)*) => {
        $(impl Measured for $timed {
            fn size(&self) -> u64 {
                size_of_version(self.version, $sizes)
            }

            fn is_writable(&self) -> bool {
                let times = [self.creation_time, self.modification_time, self.duration];
                times_fit(self.version, self.flags, &times)
            }
        })*
    };
}

measure_timed! {
    MvhdBox [108, 120],
    TkhdBox [92, 104],
    MdhdBox [32, 44],
}

impl Measured for MehdBox {
    fn size(&self) -> u64 {
        size_of_version(self.version, [16, 20])
    }

    fn is_writable(&self) -> bool {
        times_fit(self.version, self.flags, &[self.fragment_duration])
    }
}

impl Measured for MfhdBox {
    fn size(&self) -> u64 {
        16
    }

    fn is_writable(&self) -> bool {
        head_fits(self.flags, 16)
    }
}

impl Measured for SmhdBox {
    fn size(&self) -> u64 {
        16
    }

    fn is_writable(&self) -> bool {
        head_fits(self.flags, 16)
    }
}

impl Measured for VmhdBox {
    fn size(&self) -> u64 {
        20
    }

    fn is_writable(&self) -> bool {
        head_fits(self.flags, 20)
    }
}

impl Measured for TrexBox {
    fn size(&self) -> u64 {
        32
    }

    fn is_writable(&self) -> bool {
        head_fits(self.flags, 32)
    }
}

impl Measured for TfdtBox {
    fn size(&self) -> u64 {
        size_of_version(self.version, [16, 20])
    }

    fn is_writable(&self) -> bool {
        times_fit(self.version, self.flags, &[self.base_media_decode_time])
    }
}

/// Returns the language in the 15 low bits of `number`: three letters of five bits, the first one highest.
pub fn language_of(number: u16) -> String {
    [10, 5, 0]
        .map(|shift| char::from(0x60 + (number >> shift & 31) as u8))
        .iter()
        .collect()
}

/// Returns the number of `language`, which has the five low bits of its first three UTF-16 units.
pub fn language_number(language: &str) -> u16 {
    let mut units = language.encode_utf16();
    let mut number = 0;
    for _ in 0..3 {
        number = number << 5 | units.next().unwrap_or(0) & 31;
    }
    number
}

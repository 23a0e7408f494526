//! The samples of a track, and the tables with their positions and times.

use super::{AnyBox, CttsEntry, StcoBox, StscBox, StssBox, StszBox, SttsBox, Table};

#[derive(Clone, Copy, Debug, PartialEq)]
pub struct Sample {
    pub offset: u64,
    pub size: u32,
    pub start_time: u64,
    pub duration: u32,
    pub rendering_offset: i64,
    pub is_sync: bool,
    pub sample_description_index: u32,
    pub chunk: u32,
}

impl Sample {
    /// Returns the sum of all fields, modulo 2^64.
    pub fn sum(&self) -> u64 {
        self.offset
            .wrapping_add(u64::from(self.size))
            .wrapping_add(self.start_time)
            .wrapping_add(u64::from(self.duration))
            .wrapping_add(self.rendering_offset.unsigned_abs())
            .wrapping_add(u64::from(self.is_sync))
            .wrapping_add(u64::from(self.sample_description_index))
            .wrapping_add(u64::from(self.chunk))
    }
}

/// The tables of a track.
#[derive(Clone, Copy)]
pub struct Tables<'a> {
    pub stsz: &'a StszBox,
    pub stsc: &'a StscBox,
    pub stco: &'a StcoBox,
    pub stts: &'a SttsBox,
    pub ctts: &'a Table<CttsEntry>,
    pub stss: &'a StssBox,
}

impl<'a> Tables<'a> {
    /// Returns the tables among `boxes`, or `None` if one is missing.
    pub fn of(boxes: &'a [AnyBox]) -> Option<Tables<'a>> {
        macro_rules! first {
            ($name:ident) => {
                boxes.iter().find_map(|b| match b {
                    AnyBox::$name(table) => Some(table),
                    _ => None,
                })?
            };
        }
        Some(Tables {
            stsz: first!(Stsz),
            stsc: first!(Stsc),
            stco: first!(Stco),
            stts: first!(Stts),
            ctts: first!(Ctts),
            stss: first!(Stss),
        })
    }
}

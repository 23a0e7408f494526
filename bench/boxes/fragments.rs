//! The boxes of a fragment whose fields depend on flags.

use super::{head_fits, Measured};

#[derive(Debug, PartialEq)]
pub struct TfhdBox {
    pub version: u8,
    pub flags: u32,
    pub track_id: u32,
    pub base_data_offset: Option<u64>,
    pub sample_description_index: Option<u32>,
    pub default_sample_duration: Option<u32>,
    pub default_sample_size: Option<u32>,
    pub default_sample_flags: Option<u32>,
}

#[derive(Debug, PartialEq)]
pub struct TrunBox {
    pub version: u8,
    pub flags: u32,
    pub sample_count: u32,
    pub data_offset: Option<i32>,
    pub first_sample_flags: Option<u32>,
    pub sample_durations: Vec<u32>,
    pub sample_sizes: Vec<u32>,
    pub sample_flags: Vec<u32>,
    pub sample_cts: Vec<u32>,
}

impl Measured for TfhdBox {
    fn size(&self) -> u64 {
        let width = |there: bool, bytes: u64| if there { bytes } else { 0 };
        16 + width(self.base_data_offset.is_some(), 8)
            + width(self.sample_description_index.is_some(), 4)
            + width(self.default_sample_duration.is_some(), 4)
            + width(self.default_sample_size.is_some(), 4)
            + width(self.default_sample_flags.is_some(), 4)
    }

    /// Returns whether each option is present if and only if its flag is set, and the flags fit.
    fn is_writable(&self) -> bool {
        let has = |flag: u32| self.flags & flag != 0;
        self.flags < 1 << 24
            && self.base_data_offset.is_some() == has(0x01)
            && self.sample_description_index.is_some() == has(0x02)
            && self.default_sample_duration.is_some() == has(0x08)
            && self.default_sample_size.is_some() == has(0x10)
            && self.default_sample_flags.is_some() == has(0x20)
    }
}

impl TrunBox {
    /// Returns the number of bytes before the rows.
    pub fn head(&self) -> usize {
        let width = |there: bool| if there { 4 } else { 0 };
        16 + width(self.data_offset.is_some()) + width(self.first_sample_flags.is_some())
    }

    /// Returns the number of bytes of a row.
    pub fn row(&self) -> usize {
        4 * ((self.flags >> 8) & 15).count_ones() as usize
    }

    pub fn columns(&self) -> [(u32, &[u32]); 4] {
        [
            (0x100, &self.sample_durations),
            (0x200, &self.sample_sizes),
            (0x400, &self.sample_flags),
            (0x800, &self.sample_cts),
        ]
    }
}

impl Measured for TrunBox {
    fn size(&self) -> u64 {
        self.head() as u64 + u64::from(self.sample_count) * self.row() as u64
    }

    /// Returns whether each list has an entry for each sample if its flag is set, and none otherwise, and all numbers
    /// fit.
    fn is_writable(&self) -> bool {
        let has = |flag: u32| self.flags & flag != 0;
        let samples = self.sample_count as usize;
        let wanted = |flag: u32| if has(flag) { samples } else { 0 };
        head_fits(self.flags, self.size())
            && self.data_offset.is_some() == has(0x01)
            && self.first_sample_flags.is_some() == has(0x04)
            && self.sample_durations.len() == wanted(0x100)
            && self.sample_sizes.len() == wanted(0x200)
            && self.sample_flags.len() == wanted(0x400)
            && self.sample_cts.len() == wanted(0x800)
    }
}

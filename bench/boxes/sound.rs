//! Sample descriptions, and the sample entry of audio.

use super::{head_fits, Avc1Box, Hev1Box, Measured, Tx3gBox, Vp09Box};

#[derive(Debug, PartialEq)]
pub struct StsdBox {
    pub version: u8,
    pub flags: u32,
    pub avc1: Option<Avc1Box>,
    pub hev1: Option<Hev1Box>,
    pub vp09: Option<Vp09Box>,
    pub mp4a: Option<Mp4aBox>,
    pub tx3g: Option<Tx3gBox>,
}

#[derive(Debug, PartialEq)]
pub struct Mp4aBox {
    pub data_reference_index: u16,
    pub channelcount: u16,
    pub samplesize: u16,
    pub samplerate: u32,
    pub esds: Option<EsdsBox>,
}

#[derive(Debug, PartialEq)]
pub struct EsdsBox {
    pub version: u8,
    pub flags: u32,
    pub es_desc: EsDescriptor,
}

#[derive(Debug, Default, PartialEq)]
pub struct EsDescriptor {
    pub es_id: u16,
    pub dec_config: DecoderConfig,
    pub sl_config: SlConfig,
}

#[derive(Debug, Default, PartialEq)]
pub struct SlConfig {}

#[derive(Debug, Default, PartialEq)]
pub struct DecoderConfig {
    pub object_type_indication: u8,
    pub stream_type: u8,
    pub up_stream: u8,
    pub buffer_size_db: u32,
    pub max_bitrate: u32,
    pub avg_bitrate: u32,
    pub dec_specific: DecoderSpecific,
}

#[derive(Debug, Default, PartialEq)]
pub struct DecoderSpecific {
    pub profile: u8,
    pub freq_index: u8,
    pub sample_rate: Option<u32>,
    pub chan_conf: u8,
}

impl DecoderSpecific {
    /// Returns the number of bytes of the descriptor's content.
    pub fn len(&self) -> usize {
        let long_profile = usize::from(self.profile > 31);
        2 + long_profile + if self.freq_index == 15 { 3 } else { 0 }
    }

    /// Returns the fields in the highest bits of `bits`. They have 5 or 11, 4, 24 or 0, and 4 bits.
    pub fn bits(&self) -> u64 {
        let (mut bits, mut left) = (0, 64);
        let mut put = |number: u64, width: u32| {
            left -= width;
            bits |= number << left;
        };
        if self.profile > 31 {
            put(31, 5);
            put(u64::from(self.profile - 32), 6);
        } else {
            put(u64::from(self.profile), 5);
        }
        put(u64::from(self.freq_index), 4);
        if let Some(rate) = self.sample_rate {
            put(u64::from(rate), 24);
        }
        put(u64::from(self.chan_conf), 4);
        bits
    }

    /// Returns the number of bytes of a content that begins with these two bytes.
    pub fn len_of([first, second]: [u8; 2]) -> usize {
        let (profile, index) = if first >> 3 == 31 {
            (1, second >> 1 & 15)
        } else {
            (0, (first & 7) << 1 | second >> 7)
        };
        2 + profile + if index == 15 { 3 } else { 0 }
    }

    /// Returns the fields in the highest bits of eight bytes.
    pub fn from_bits(mut bits: u64) -> DecoderSpecific {
        let mut take = |width: u32| {
            let number = bits >> (64 - width);
            bits <<= width;
            number
        };
        let profile = match take(5) as u8 {
            31 => 32 + take(6) as u8,
            short => short,
        };
        let freq_index = take(4) as u8;
        let sample_rate = (freq_index == 15).then(|| take(24) as u32);
        DecoderSpecific {
            profile,
            freq_index,
            sample_rate,
            chan_conf: take(4) as u8,
        }
    }

    fn is_writable(&self) -> bool {
        self.profile < 96
            && self.profile != 31
            && self.freq_index < 16
            && self.chan_conf < 16
            && self.sample_rate.is_some() == (self.freq_index == 15)
            && self.sample_rate.is_none_or(|rate| rate < 1 << 24)
    }
}

impl Measured for EsdsBox {
    fn size(&self) -> u64 {
        37 + self.es_desc.dec_config.dec_specific.len() as u64
    }

    fn is_writable(&self) -> bool {
        let config = &self.es_desc.dec_config;
        self.flags < 1 << 24
            && config.stream_type < 64
            && config.buffer_size_db < 1 << 24
            && config.dec_specific.is_writable()
    }
}

impl Measured for Mp4aBox {
    fn size(&self) -> u64 {
        36 + self.esds.as_ref().map_or(0, EsdsBox::size)
    }

    fn is_writable(&self) -> bool {
        self.esds.as_ref().is_none_or(EsdsBox::is_writable)
    }
}

/// Evaluates an expression for the first entry that is present, which is the one that is written.
macro_rules! of_entry {
    ($stsd:expr, $entry:ident => $given:expr, $none:expr) => {
        if let Some($entry) = &$stsd.avc1 {
            $given
        } else if let Some($entry) = &$stsd.hev1 {
            $given
        } else if let Some($entry) = &$stsd.vp09 {
            $given
        } else if let Some($entry) = &$stsd.mp4a {
            $given
        } else if let Some($entry) = &$stsd.tx3g {
            $given
        } else {
            $none
        }
    };
}

impl Measured for StsdBox {
    fn size(&self) -> u64 {
        16 + of_entry!(self, entry => entry.size(), 0)
    }

    fn is_writable(&self) -> bool {
        head_fits(self.flags, self.size()) && of_entry!(self, entry => entry.is_writable(), true)
    }
}

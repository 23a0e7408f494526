//! Sample entries of video and subtitles. The measured streams have only `avc1`.

use super::Measured;

#[derive(Debug, PartialEq)]
pub struct NalUnit {
    pub bytes: Vec<u8>,
}

#[derive(Debug, PartialEq)]
pub struct AvcCBox {
    pub configuration_version: u8,
    pub avc_profile_indication: u8,
    pub profile_compatibility: u8,
    pub avc_level_indication: u8,
    pub length_size_minus_one: u8,
    pub sequence_parameter_sets: Vec<NalUnit>,
    pub picture_parameter_sets: Vec<NalUnit>,
}

#[derive(Debug, PartialEq)]
pub struct Avc1Box {
    pub data_reference_index: u16,
    pub width: u16,
    pub height: u16,
    pub horizresolution: u32,
    pub vertresolution: u32,
    pub frame_count: u16,
    pub depth: u16,
    pub avcc: AvcCBox,
}

#[allow(dead_code)]
#[derive(Debug, PartialEq)]
pub struct HvcCBox {
    pub configuration_version: u8,
}

#[allow(dead_code)]
#[derive(Debug, PartialEq)]
pub struct Hev1Box {
    pub data_reference_index: u16,
    pub width: u16,
    pub height: u16,
    pub horizresolution: u32,
    pub vertresolution: u32,
    pub frame_count: u16,
    pub depth: u16,
    pub hvcc: HvcCBox,
}

#[allow(dead_code)]
#[derive(Debug, PartialEq)]
pub struct VpccBox {
    pub version: u8,
    pub flags: u32,
    pub profile: u8,
    pub level: u8,
    pub bit_depth: u8,
    pub chroma_subsampling: u8,
    pub video_full_range_flag: bool,
    pub color_primaries: u8,
    pub transfer_characteristics: u8,
    pub matrix_coefficients: u8,
    pub codec_initialization_data_size: u16,
}

#[allow(dead_code)]
#[derive(Debug, PartialEq)]
pub struct Vp09Box {
    pub version: u8,
    pub flags: u32,
    pub start_code: u16,
    pub data_reference_index: u16,
    pub reserved0: [u8; 16],
    pub width: u16,
    pub height: u16,
    pub horizresolution: (u16, u16),
    pub vertresolution: (u16, u16),
    pub reserved1: [u8; 4],
    pub frame_count: u16,
    pub compressorname: [u8; 32],
    pub depth: u16,
    pub end_code: u16,
    pub vpcc: VpccBox,
}

#[allow(dead_code)]
#[derive(Debug, PartialEq)]
pub struct RgbaColor {
    pub red: u8,
    pub green: u8,
    pub blue: u8,
    pub alpha: u8,
}

#[allow(dead_code)]
#[derive(Debug, PartialEq)]
pub struct Tx3gBox {
    pub data_reference_index: u16,
    pub display_flags: u32,
    pub horizontal_justification: i8,
    pub vertical_justification: i8,
    pub bg_color_rgba: RgbaColor,
    pub box_record: [i16; 4],
    pub style_record: [u8; 12],
}

impl AvcCBox {
    fn sets(&self) -> impl Iterator<Item = &NalUnit> {
        self.sequence_parameter_sets
            .iter()
            .chain(&self.picture_parameter_sets)
    }
}

impl Measured for AvcCBox {
    fn size(&self) -> u64 {
        15 + self
            .sets()
            .map(|set| 2 + set.bytes.len() as u64)
            .sum::<u64>()
    }

    fn is_writable(&self) -> bool {
        self.sequence_parameter_sets.len() < 32
            && self.picture_parameter_sets.len() < 256
            && self.sets().all(|set| set.bytes.len() < 1 << 16)
    }
}

impl Measured for Avc1Box {
    fn size(&self) -> u64 {
        86 + self.avcc.size()
    }

    fn is_writable(&self) -> bool {
        self.avcc.is_writable()
    }
}

impl Measured for HvcCBox {}

impl Measured for Hev1Box {}

impl Measured for VpccBox {}

impl Measured for Vp09Box {}

impl Measured for Tx3gBox {}

//! Sample entries, and the boxes in them.

use crate::calls::{called, defaults, read_by, roomy, written};
use crate::{raw, Error, Fault, FixedPointU16, FourCC, ReadBox, RgbaColor, WriteBox};

/// A parameter set of a decoder.
#[derive(Clone, Debug, Default, PartialEq, Eq, Hash)]
pub struct NalUnit {
    /// The bytes of the unit.
    pub bytes: Vec<u8>,
}

impl From<Vec<u8>> for NalUnit {
    fn from(bytes: Vec<u8>) -> NalUnit {
        NalUnit { bytes }
    }
}

/// The configuration of an AVC decoder (ISO/IEC 14496-15, 5.3.3.1).
#[derive(Clone, Debug, Default, PartialEq, Eq, Hash)]
pub struct AvcCBox {
    /// The version of the configuration: 1.
    pub configuration_version: u8,
    /// The profile.
    pub avc_profile_indication: u8,
    /// The constraints of the profile.
    pub profile_compatibility: u8,
    /// The level.
    pub avc_level_indication: u8,
    /// The number of bytes of the length before each unit of a sample, minus 1: 0 to 3.
    pub length_size_minus_one: u8,
    /// The sequence parameter sets: at most 31 are written.
    pub sequence_parameter_sets: Vec<NalUnit>,
    /// The picture parameter sets: at most 255 are written.
    pub picture_parameter_sets: Vec<NalUnit>,
}

/// The lengths of parameter sets, and their bytes.
type Sets = (Vec<usize>, Vec<u8>);

impl AvcCBox {
    /// Returns the configuration for one set of each kind, with lengths of 4 bytes before units. Its profile and level
    /// are those of `sps`, which is `Fault::EndOfInput` if it has fewer than 4 bytes.
    pub fn new(sps: &[u8], pps: &[u8]) -> Result<AvcCBox, Error> {
        let [_, avc_profile_indication, profile_compatibility, avc_level_indication] = match sps {
            &[a, b, c, d, ..] => [a, b, c, d],
            _ => return Err(Fault::EndOfInput.into()),
        };
        let set = |set: &[u8]| -> Result<Vec<NalUnit>, Error> {
            let (mut sets, mut bytes) = (roomy(1)?, roomy(set.len())?);
            bytes.extend_from_slice(set);
            sets.push(NalUnit { bytes });
            Ok(sets)
        };
        Ok(AvcCBox {
            configuration_version: 1,
            avc_profile_indication,
            profile_compatibility,
            avc_level_indication,
            length_size_minus_one: 3,
            sequence_parameter_sets: set(sps)?,
            picture_parameter_sets: set(pps)?,
        })
    }

    /// Returns the units of the sample with these bytes, without the lengths before them. The last is
    /// `Fault::EndOfInput` if its length is above that of the bytes that follow.
    ///
    /// ```
    /// let avcc = mp4_box_codec::AvcCBox { length_size_minus_one: 1, ..Default::default() };
    /// let units: Result<Vec<_>, _> = avcc.units(b"\0\x02ab\0\x01c").collect();
    /// assert_eq!(units, Ok(vec![&b"ab"[..], b"c"]));
    /// assert!(avcc.units(b"\0\x02a").next().unwrap().is_err());
    /// ```
    pub fn units<'a>(&self, sample: &'a [u8]) -> Units<'a> {
        Units { rest: sample, length_size: usize::from(self.length_size_minus_one & 3) + 1 }
    }

    fn of((lengths, bytes): Sets, it: &raw::Avcc) -> Result<AvcCBox, Error> {
        let mut rest = bytes.as_slice();
        let (mut sequence_parameter_sets, mut picture_parameter_sets) =
            (roomy(it.sequence_count)?, roomy(it.picture_count)?);
        for (number, length) in lengths.into_iter().enumerate() {
            let (bytes, after) = rest.split_at(length);
            let mut set = roomy(length)?;
            set.extend_from_slice(bytes);
            rest = after;
            let sets =
                if number < it.sequence_count { &mut sequence_parameter_sets } else { &mut picture_parameter_sets };
            sets.push(NalUnit::from(set));
        }
        Ok(AvcCBox {
            configuration_version: it.configuration_version,
            avc_profile_indication: it.avc_profile_indication,
            profile_compatibility: it.profile_compatibility,
            avc_level_indication: it.avc_level_indication,
            length_size_minus_one: it.length_size_minus_one,
            sequence_parameter_sets,
            picture_parameter_sets,
        })
    }

    fn fields(&self) -> Result<(Sets, raw::Avcc), Error> {
        let sets = || self.sequence_parameter_sets.iter().chain(&self.picture_parameter_sets).map(|it| &it.bytes);
        let (mut lengths, mut bytes) = (roomy(sets().count())?, roomy(sets().map(Vec::len).sum())?);
        for set in sets() {
            lengths.push(set.len());
            bytes.extend_from_slice(set);
        }
        let fields = raw::Avcc {
            sequence_count: self.sequence_parameter_sets.len(),
            picture_count: self.picture_parameter_sets.len(),
            set_bytes: 0,
            configuration_version: self.configuration_version,
            avc_profile_indication: self.avc_profile_indication,
            profile_compatibility: self.profile_compatibility,
            avc_level_indication: self.avc_level_indication,
            length_size_minus_one: self.length_size_minus_one,
        };
        Ok(((lengths, bytes), fields))
    }
}

/// The units of a sample of AVC video, which `AvcCBox::units` returns.
#[derive(Clone, Debug)]
pub struct Units<'a> {
    rest: &'a [u8],
    length_size: usize,
}

impl<'a> Iterator for Units<'a> {
    type Item = Result<&'a [u8], Error>;

    fn next(&mut self) -> Option<Self::Item> {
        if self.rest.is_empty() {
            return None;
        }
        let rest = std::mem::take(&mut self.rest);
        let cut = || Some(Err(Fault::EndOfInput.into()));
        if rest.len() < self.length_size {
            return cut();
        }
        let (length, rest) = rest.split_at(self.length_size);
        let length = length.iter().fold(0, |length, byte| length << 8 | usize::from(*byte));
        if rest.len() < length {
            return cut();
        }
        let (unit, rest) = rest.split_at(length);
        self.rest = rest;
        Some(Ok(unit))
    }
}

/// Reads a box twice: first its fields, which have the number of its sets, and then the sets.
fn with_sets<S: Default>(
    reads: raw::ReadsSets<S>,
    bytes: &[u8],
    avcc: fn(&S) -> &raw::Avcc,
) -> Result<(Sets, S), Error> {
    // SAFETY: as in `filled`.
    let call = |(lengths, sets): &mut Sets, found: &mut S| unsafe {
        let (first, second) = (lengths.as_mut_ptr(), sets.as_mut_ptr());
        reads(bytes.as_ptr(), bytes.len(), first, lengths.len(), second, sets.len(), found)
    };
    let room = |found: &S| -> Result<Sets, Error> {
        let avcc = avcc(found);
        Ok((defaults(avcc.sequence_count + avcc.picture_count)?, defaults(avcc.set_bytes)?))
    };
    called(call, room)
}

impl ReadBox for AvcCBox {
    const CODE: FourCC = FourCC::new(b"avcC");

    fn read_box(bytes: &[u8]) -> Result<AvcCBox, Error> {
        let (sets, it) = with_sets(raw::mp4_avcc, bytes, |it| it)?;
        AvcCBox::of(sets, &it)
    }
}

/// Defines a visual sample entry with the box of its configuration.
macro_rules! visual {
    ($(#[$words:meta])* $name:ident, $field:ident: $config:ident) => {
        $(#[$words])*
        #[derive(Clone, Debug, PartialEq, Eq, Hash)]
        pub struct $name {
            /// The index of the data reference, counted from 1.
            pub data_reference_index: u16,
            /// The width in pixels.
            pub width: u16,
            /// The height in pixels.
            pub height: u16,
            /// The horizontal resolution in pixels per inch.
            pub horizresolution: FixedPointU16,
            /// The vertical resolution in pixels per inch.
            pub vertresolution: FixedPointU16,
            /// The number of frames of a sample, usually 1.
            pub frame_count: u16,
            /// The number of bits of a pixel, usually 24.
            pub depth: u16,
            /// The configuration of the decoder.
            pub $field: $config,
        }

        impl Default for $name {
            fn default() -> $name {
                let resolution = FixedPointU16::new(72);
                $name {
                    data_reference_index: 1,
                    width: 0,
                    height: 0,
                    horizresolution: resolution,
                    vertresolution: resolution,
                    frame_count: 1,
                    depth: 24,
                    $field: $config::default(),
                }
            }
        }

        impl $name {
            fn of(it: &raw::Visual, $field: $config) -> $name {
                $name {
                    data_reference_index: it.data_reference_index,
                    width: it.width,
                    height: it.height,
                    horizresolution: FixedPointU16::new_raw(it.horizresolution),
                    vertresolution: FixedPointU16::new_raw(it.vertresolution),
                    frame_count: it.frame_count,
                    depth: it.depth,
                    $field,
                }
            }

            fn visual(&self) -> raw::Visual {
                raw::Visual {
                    horizresolution: self.horizresolution.raw_value(),
                    vertresolution: self.vertresolution.raw_value(),
                    data_reference_index: self.data_reference_index,
                    width: self.width,
                    height: self.height,
                    frame_count: self.frame_count,
                    depth: self.depth,
                }
            }
        }
    };
}

visual! {
    /// The sample entry of AVC video (ISO/IEC 14496-15, 5.4.2).
    Avc1Box, avcc: AvcCBox
}

visual! {
    /// The sample entry of HEVC video (ISO/IEC 14496-15, 8.4.1).
    Hev1Box, hvcc: HvcCBox
}

impl ReadBox for Avc1Box {
    const CODE: FourCC = FourCC::new(b"avc1");

    fn read_box(bytes: &[u8]) -> Result<Avc1Box, Error> {
        let (sets, it) = with_sets(raw::mp4_avc1, bytes, |it: &raw::Avc1| &it.avcc)?;
        Ok(Avc1Box::of(&it.visual, AvcCBox::of(sets, &it.avcc)?))
    }
}

/// The configuration of an HEVC decoder (ISO/IEC 14496-15, 8.3.3.1). The codec reads and writes only this field;
/// `fields` has all of them.
#[derive(Clone, Copy, Debug, Default, PartialEq, Eq, Hash)]
pub struct HvcCBox {
    /// The version of the configuration: 1.
    pub configuration_version: u8,
}

/// Defines how boxes of fixed fields are read.
macro_rules! reads {
    ($($name:ident $code:literal, $raw:ident, $read:ident;)*) => {
        $(impl ReadBox for $name {
            const CODE: FourCC = FourCC::new($code);

            fn read_box(bytes: &[u8]) -> Result<$name, Error> {
                // SAFETY: as in `filled`.
                let found = read_by(|found: &mut raw::$raw| unsafe {
                    raw::$read(bytes.as_ptr(), bytes.len(), found)
                })?;
                Ok($name::from_raw(&found))
            }
        })*
    };
}

reads! {
    HvcCBox b"hvcC", Hvcc, mp4_hvcc;
    Hev1Box b"hev1", Hev1, mp4_hev1;
    VpccBox b"vpcC", Vpcc, mp4_vpcc;
    Vp09Box b"vp09", Vp09, mp4_vp09;
    Tx3gBox b"tx3g", Tx3g, mp4_tx3g;
    EsdsBox b"esds", Esds, mp4_esds;
    Mp4aBox b"mp4a", Mp4a, mp4_mp4a;
}

impl HvcCBox {
    fn from_raw(it: &raw::Hvcc) -> HvcCBox {
        HvcCBox { configuration_version: it.configuration_version }
    }
}

impl Hev1Box {
    fn from_raw(it: &raw::Hev1) -> Hev1Box {
        Hev1Box::of(&it.visual, HvcCBox::from_raw(&it.hvcc))
    }
}

/// Defines a struct whose fields are those of a struct of the library.
macro_rules! same_fields {
    ($($(#[$words:meta])* $name:ident: $raw:ident {
        $($(#[$field_words:meta])* $field:ident: $type:ty = $default:expr,)*
    } {
        $($(#[$other_words:meta])* $other:ident: $other_type:ty = $other_default:expr,
            |$it:ident| $from:expr, |$value:ident| $to:expr;)*
    })*) => {
        $($(#[$words])*
        #[derive(Clone, Copy, Debug, PartialEq, Eq, Hash)]
        pub struct $name {
            $($(#[$field_words])* pub $field: $type,)*
            $($(#[$other_words])* pub $other: $other_type,)*
        }

        impl Default for $name {
            fn default() -> $name {
                $name { $($field: $default,)* $($other: $other_default,)* }
            }
        }

        impl $name {
            fn from_raw(it: &raw::$raw) -> $name {
                $name {
                    $($field: it.$field,)*
                    $($other: { let $it = it; $from },)*
                }
            }

            fn to_raw(self) -> raw::$raw {
                raw::$raw {
                    $($field: self.$field,)*
                    $($other: { let $value = self; $to },)*
                }
            }
        })*
    };
}

same_fields! {
    /// The configuration of a VP9 decoder (VP Codec ISO Media File Format Binding).
    VpccBox: Vpcc {
        /// The version of the box: 1 in the standard.
        version: u8 = 1,
        /// The 24 bits of the flags.
        flags: u32 = 0,
        /// The profile.
        profile: u8 = 0,
        /// The level times 10.
        level: u8 = 0x1F,
        /// The number of bits of a component: below 16.
        bit_depth: u8 = 8,
        /// The subsampling of the colours: below 8.
        chroma_subsampling: u8 = 0,
        /// The number of the primaries.
        color_primaries: u8 = 0,
        /// The number of the transfer characteristics.
        transfer_characteristics: u8 = 0,
        /// The number of the matrix coefficients.
        matrix_coefficients: u8 = 0,
        /// 0 for VP9; the codec neither reads nor writes such bytes.
        codec_initialization_data_size: u16 = 0,
    } {
        /// True if the components use all values of their bits.
        video_full_range_flag: bool = false,
            |it| it.video_full_range_flag != 0, |it| u8::from(it.video_full_range_flag);
    }

    /// The sample entry of VP9 video (VP Codec ISO Media File Format Binding). The codec keeps reserved bytes.
    Vp09Box: Vp09 {
        /// The first of the six reserved bytes of a sample entry.
        version: u8 = 0,
        /// The second to the fourth of them.
        flags: u32 = 0,
        /// The last two of them.
        start_code: u16 = 0,
        /// The index of the data reference, counted from 1.
        data_reference_index: u16 = 1,
        /// Reserved bytes.
        reserved0: [u8; 16] = [0; 16],
        /// The width in pixels.
        width: u16 = 0,
        /// The height in pixels.
        height: u16 = 0,
        /// Pixels per inch: the whole part, and the fraction in units of 1/65536.
        horizresolution: [u16; 2] = [72, 0],
        /// Pixels per inch: the whole part, and the fraction in units of 1/65536.
        vertresolution: [u16; 2] = [72, 0],
        /// Reserved bytes.
        reserved1: [u8; 4] = [0; 4],
        /// The number of frames of a sample, usually 1.
        frame_count: u16 = 1,
        /// The number of bytes of the compressor's name, the name, and zeros.
        compressorname: [u8; 32] = [0; 32],
        /// The number of bits of a pixel, usually 24.
        depth: u16 = 24,
        /// 0xFFFF in the standard.
        end_code: u16 = 0xFFFF,
    } {
        /// The configuration of the decoder.
        vpcc: VpccBox = VpccBox::default(), |it| VpccBox::from_raw(&it.vpcc), |it| it.vpcc.to_raw();
    }

    /// The sample entry of timed text (3GPP TS 26.245, 5.16).
    Tx3gBox: Tx3g {
        /// The index of the data reference, counted from 1.
        data_reference_index: u16 = 1,
        /// The flags of how the text scrolls and is shown.
        display_flags: u32 = 0,
        /// 0: left, 1: centre, -1: right.
        horizontal_justification: i8 = 1,
        /// 0: top, 1: centre, -1: bottom.
        vertical_justification: i8 = -1,
        /// The colour of the background.
        bg_color_rgba: RgbaColor = RgbaColor { red: 0, green: 0, blue: 0, alpha: 255 },
        /// The top, left, bottom and right of the text, in pixels.
        box_record: [i16; 4] = [0; 4],
        /// The style of the text.
        style_record: [u8; 12] = [0, 0, 0, 0, 0, 1, 0, 16, 255, 255, 255, 255],
    } {}
}

/// The descriptors of MPEG-4 audio (ISO/IEC 14496-14, 5.6).
#[derive(Clone, Copy, Debug, Default, PartialEq, Eq, Hash)]
pub struct EsdsBox {
    /// The version of the box.
    pub version: u8,
    /// The 24 bits of the flags.
    pub flags: u32,
    /// The descriptor of the elementary stream.
    pub es_desc: ESDescriptor,
}

/// The descriptor of an elementary stream.
#[derive(Clone, Copy, Debug, Default, PartialEq, Eq, Hash)]
pub struct ESDescriptor {
    /// The number of the stream.
    pub es_id: u16,
    /// The configuration of the decoder.
    pub dec_config: DecoderConfigDescriptor,
}

/// The configuration of the decoder of an elementary stream.
#[derive(Clone, Copy, Debug, PartialEq, Eq, Hash)]
pub struct DecoderConfigDescriptor {
    /// 0x40: MPEG-4 audio.
    pub object_type_indication: u8,
    /// The type of the stream: below 64; 5 is audio.
    pub stream_type: u8,
    /// 0 or 2.
    pub up_stream: u8,
    /// The size of the decoder's buffer in bytes, below 2^24.
    pub buffer_size_db: u32,
    /// The highest bit rate, in bits per second.
    pub max_bitrate: u32,
    /// The average bit rate, in bits per second.
    pub avg_bitrate: u32,
    /// The fields that a decoder of this type needs.
    pub dec_specific: DecoderSpecificDescriptor,
}

impl Default for DecoderConfigDescriptor {
    fn default() -> DecoderConfigDescriptor {
        DecoderConfigDescriptor {
            object_type_indication: 0x40,
            stream_type: 5,
            up_stream: 0,
            buffer_size_db: 0,
            max_bitrate: 0,
            avg_bitrate: 0,
            dec_specific: DecoderSpecificDescriptor::default(),
        }
    }
}

/// The fields that a decoder of MPEG-4 audio needs.
#[derive(Clone, Copy, Debug, Default, PartialEq, Eq, Hash)]
pub struct DecoderSpecificDescriptor {
    /// The audio object type: 0 to 95, except 31; 2 is AAC LC.
    pub profile: u8,
    /// The index of the sampling rate: below 16.
    pub freq_index: u8,
    /// The configuration of the channels: below 16.
    pub chan_conf: u8,
    /// The sampling rate in hertz, below 2^24, if `freq_index` is 15; else 0, and not written.
    pub sample_rate: u32,
}

impl EsdsBox {
    fn from_raw(it: &raw::Esds) -> EsdsBox {
        let dec_specific = DecoderSpecificDescriptor {
            profile: it.profile,
            freq_index: it.freq_index,
            chan_conf: it.chan_conf,
            sample_rate: it.sample_rate,
        };
        let dec_config = DecoderConfigDescriptor {
            object_type_indication: it.object_type_indication,
            stream_type: it.stream_type,
            up_stream: it.up_stream,
            buffer_size_db: it.buffer_size_db,
            max_bitrate: it.max_bitrate,
            avg_bitrate: it.avg_bitrate,
            dec_specific,
        };
        EsdsBox { version: it.version, flags: it.flags, es_desc: ESDescriptor { es_id: it.es_id, dec_config } }
    }

    fn to_raw(self) -> raw::Esds {
        let config = self.es_desc.dec_config;
        raw::Esds {
            flags: self.flags,
            buffer_size_db: config.buffer_size_db,
            max_bitrate: config.max_bitrate,
            avg_bitrate: config.avg_bitrate,
            sample_rate: config.dec_specific.sample_rate,
            es_id: self.es_desc.es_id,
            version: self.version,
            object_type_indication: config.object_type_indication,
            stream_type: config.stream_type,
            up_stream: config.up_stream,
            profile: config.dec_specific.profile,
            freq_index: config.dec_specific.freq_index,
            chan_conf: config.dec_specific.chan_conf,
        }
    }
}

/// The sample entry of MPEG-4 audio (ISO/IEC 14496-14, 5.6).
#[derive(Clone, Copy, Debug, PartialEq, Eq, Hash)]
pub struct Mp4aBox {
    /// The index of the data reference, counted from 1.
    pub data_reference_index: u16,
    /// The number of channels.
    pub channelcount: u16,
    /// The number of bits of a sample.
    pub samplesize: u16,
    /// The sampling rate in hertz.
    pub samplerate: FixedPointU16,
    /// The descriptors, if the entry has them.
    pub esds: Option<EsdsBox>,
}

impl Default for Mp4aBox {
    fn default() -> Mp4aBox {
        let (samplerate, esds) = (FixedPointU16::new(48000), Some(EsdsBox::default()));
        Mp4aBox { data_reference_index: 1, channelcount: 2, samplesize: 16, samplerate, esds }
    }
}

impl Mp4aBox {
    fn from_raw(it: &raw::Mp4a) -> Mp4aBox {
        Mp4aBox {
            data_reference_index: it.data_reference_index,
            channelcount: it.channelcount,
            samplesize: it.samplesize,
            samplerate: FixedPointU16::new_raw(it.samplerate),
            esds: (it.has_esds == 1).then(|| EsdsBox::from_raw(&it.esds)),
        }
    }

    fn to_raw(self) -> raw::Mp4a {
        raw::Mp4a {
            esds: self.esds.unwrap_or_default().to_raw(),
            samplerate: self.samplerate.raw_value(),
            data_reference_index: self.data_reference_index,
            channelcount: self.channelcount,
            samplesize: self.samplesize,
            has_esds: u8::from(self.esds.is_some()),
        }
    }
}

/// A sample entry of one of the types that the codec reads.
#[derive(Clone, Debug, PartialEq, Eq, Hash)]
#[non_exhaustive]
pub enum SampleEntry {
    /// AVC video.
    Avc1(Avc1Box),
    /// HEVC video.
    Hev1(Hev1Box),
    /// VP9 video.
    Vp09(Vp09Box),
    /// MPEG-4 audio.
    Mp4a(Mp4aBox),
    /// Timed text.
    Tx3g(Tx3gBox),
}

impl SampleEntry {
    /// Returns the code of the entry.
    pub fn code(&self) -> FourCC {
        match self {
            SampleEntry::Avc1(_) => Avc1Box::CODE,
            SampleEntry::Hev1(_) => Hev1Box::CODE,
            SampleEntry::Vp09(_) => Vp09Box::CODE,
            SampleEntry::Mp4a(_) => Mp4aBox::CODE,
            SampleEntry::Tx3g(_) => Tx3gBox::CODE,
        }
    }
}

/// The first sample entry of a track (8.5.2), if it is of a type that the codec reads.
///
/// `Track::box_types` has the codes of all entries.
#[derive(Clone, Debug, Default, PartialEq, Eq, Hash)]
pub struct StsdBox {
    /// The version of the box.
    pub version: u8,
    /// The 24 bits of the flags.
    pub flags: u32,
    /// The entry.
    pub entry: Option<SampleEntry>,
}

impl ReadBox for StsdBox {
    const CODE: FourCC = FourCC::new(b"stsd");

    fn read_box(bytes: &[u8]) -> Result<StsdBox, Error> {
        let (sets, it) = with_sets(raw::mp4_stsd, bytes, |it: &raw::Stsd| &it.avc1.avcc)?;
        let entry = match FourCC::known(it.entry) {
            None => None,
            Some(Avc1Box::CODE) => {
                Some(SampleEntry::Avc1(Avc1Box::of(&it.avc1.visual, AvcCBox::of(sets, &it.avc1.avcc)?)))
            }
            Some(Hev1Box::CODE) => Some(SampleEntry::Hev1(Hev1Box::from_raw(&it.hev1))),
            Some(Vp09Box::CODE) => Some(SampleEntry::Vp09(Vp09Box::from_raw(&it.vp09))),
            Some(Mp4aBox::CODE) => Some(SampleEntry::Mp4a(Mp4aBox::from_raw(&it.mp4a))),
            Some(Tx3gBox::CODE) => Some(SampleEntry::Tx3g(Tx3gBox::from_raw(&it.tx3g))),
            Some(_) => return Err(Fault::InvalidData.into()),
        };
        Ok(StsdBox { version: it.version, flags: it.flags, entry })
    }
}

impl WriteBox for StsdBox {
    fn to_bytes(&self) -> Result<Vec<u8>, Error> {
        let mut fields = raw::Stsd { version: self.version, flags: self.flags, ..raw::Stsd::default() };
        fields.entry = self.entry.as_ref().map_or(0, |it| it.code().into());
        let mut sets = Sets::default();
        match &self.entry {
            Some(SampleEntry::Avc1(entry)) => {
                let (found, avcc) = entry.avcc.fields()?;
                (fields.avc1, sets) = (raw::Avc1 { avcc, visual: entry.visual() }, found);
            }
            Some(SampleEntry::Hev1(entry)) => {
                let hvcc = raw::Hvcc { configuration_version: entry.hvcc.configuration_version };
                fields.hev1 = raw::Hev1 { visual: entry.visual(), hvcc };
            }
            Some(SampleEntry::Vp09(entry)) => fields.vp09 = entry.to_raw(),
            Some(SampleEntry::Mp4a(entry)) => fields.mp4a = entry.to_raw(),
            Some(SampleEntry::Tx3g(entry)) => fields.tx3g = entry.to_raw(),
            None => {}
        }
        let (lengths, bytes) = sets;
        // SAFETY: as in `filled`.
        written(StsdBox::CODE, |out, length| unsafe {
            let (first, second) = (lengths.as_ptr(), bytes.as_ptr());
            let (to, places) = (out.as_mut_ptr(), out.len());
            raw::mp4_write_stsd(&fields, first, lengths.len(), second, bytes.len(), to, places, length)
        })
    }
}

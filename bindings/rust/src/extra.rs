//! Structs for the boxes of docs/FIELDS.md, with all fields of each. tools/rust_structs.py makes this module from
//! docs/boxes.json: do not edit it.
//!
//! `ReadBox` reads them and `WriteBox` writes them, also as JSON. A struct has no fields for what follows from others:
//! counts of entries, and meanings of numbers, for which there are methods. `None` is a field that the box lacks.
//! `None` for reserved bits is the value of the standard. Some of these boxes have a struct in the crate too, which has
//! only the fields of the crate `mp4`: `AvcCBox`, `DataBox`, `EsdsBox`, `HdlrBox`, `HvcCBox`, `Tx3gBox` and `VpccBox`.
//!
//! ```
//! use mp4_box_codec::extra::{ColrBox, PaspBox};
//! use mp4_box_codec::{Error, ReadBox, WriteBox};
//!
//! let pasp = PaspBox { h_spacing: 4, v_spacing: 3 };
//! assert_eq!(pasp.to_bytes()?, b"\0\0\0\x10pasp\0\0\0\x04\0\0\0\x03");
//! let colr = ColrBox::read_box(b"\0\0\0\x13colrnclx\0\x09\0\x10\0\x09\0")?;
//! assert_eq!((colr.colour_primaries, colr.colour_primaries_name()), (Some(9), Some("BT.2020")));
//! # Ok::<(), Error>(())
//! ```

use std::fmt;

use crate::members::{show_numbers, take_numbers, Member, Reader, Writer};
use crate::structs::*;
use crate::{Error, Fault, FixedPointI8, FourCC, ReadBox, RgbaColor, WriteBox};

pub use crate::members::Letters;

structs! {
    /// The configuration of an Apple Lossless decoder (`alac`, ALAC, "Magic cookie description").
    #[derive(Eq, Hash)]
    AlacBox b"alac" {
        /// A number of 8 bits.
        version: u8 = "version",
        /// Flags of 24 bits.
        flags: u32 = "flags",
        /// A number of 32 bits (`frameLength`).
        frame_length: u32 = "frameLength",
        /// A number of 8 bits (`compatibleVersion`).
        compatible_version: u8 = "compatibleVersion",
        /// A number of 8 bits (`bitDepth`).
        bit_depth: u8 = "bitDepth",
        /// A number of 8 bits.
        pb: u8 = "pb",
        /// A number of 8 bits.
        mb: u8 = "mb",
        /// A number of 8 bits.
        kb: u8 = "kb",
        /// A number of 8 bits (`numChannels`).
        num_channels: u8 = "numChannels",
        /// A number of 16 bits (`maxRun`).
        max_run: u16 = "maxRun",
        /// A number of 32 bits (`maxFrameBytes`).
        max_frame_bytes: u32 = "maxFrameBytes",
        /// A number of 32 bits (`avgBitRate`).
        avg_bit_rate: u32 = "avgBitRate",
        /// A number of 32 bits (`sampleRate`).
        sample_rate: u32 = "sampleRate",
        /// Bytes, if present (`ALACChannelLayoutInfo`).
        alac_channel_layout_info: Option<Vec<u8>> = "ALACChannelLayoutInfo",
    }
    /// A reference to media data by a Macintosh alias (`alis`, QuickTime File Format, "Data reference atoms").
    #[derive(Eq, Hash)]
    AlisBox b"alis" {
        /// A number of 8 bits.
        version: u8 = "version",
        /// Flags of 24 bits. 0x1: same_file.
        flags: u32 = "flags",
        /// Bytes, if present.
        data_bytes: Option<Vec<u8>> = "data_bytes",
    }
    /// The role of an auxiliary image (`auxC`, ISO/IEC 23008-12, 6.5.8).
    #[derive(Eq, Hash)]
    AuxcBox b"auxC" {
        /// A number of 8 bits.
        version: u8 = "version",
        /// Flags of 24 bits.
        flags: u32 = "flags",
        /// A text.
        aux_type: String = "aux_type",
        /// The bytes of `aux_type`, if they are not UTF-8.
        aux_type_hex: Option<Vec<u8>> = "aux_type_hex",
        /// Bytes, if present.
        aux_subtype: Option<Vec<u8>> = "aux_subtype",
    }
    /// The configuration of an AV1 decoder (`av1C`, AV1 Codec ISO Media File Format Binding, 2.3).
    #[derive(Eq, Hash)]
    Av1cBox b"av1C" {
        /// A flag.
        marker: bool = "marker",
        /// A number of 7 bits.
        version: u8 = "version",
        /// A number of 3 bits.
        seq_profile: u8 = "seq_profile",
        /// A number of 5 bits.
        seq_level_idx_0: u8 = "seq_level_idx_0",
        /// A flag.
        seq_tier_0: bool = "seq_tier_0",
        /// A flag.
        high_bitdepth: bool = "high_bitdepth",
        /// A flag.
        twelve_bit: bool = "twelve_bit",
        /// A flag.
        monochrome: bool = "monochrome",
        /// A flag.
        chroma_subsampling_x: bool = "chroma_subsampling_x",
        /// A flag.
        chroma_subsampling_y: bool = "chroma_subsampling_y",
        /// A number of 2 bits.
        chroma_sample_position: u8 = "chroma_sample_position",
        /// Reserved, 3 bits. `None` is 0.
        reserved: Option<u8> = "reserved",
        /// A flag.
        initial_presentation_delay_present: bool = "initial_presentation_delay_present",
        /// A number of 4 bits, if present.
        initial_presentation_delay_minus_one: Option<u8> = "initial_presentation_delay_minus_one",
        /// Reserved, 4 bits. `None` is 0.
        reserved_without_delay: Option<u8> = "reserved_without_delay",
        /// Bytes (`configOBUs`).
        config_obus: Vec<u8> = "configOBUs",
    }
    /// The configuration of an AVC decoder (`avcC`, ISO/IEC 14496-15, 5.3.3.1).
    #[derive(Eq, Hash)]
    AvccBox b"avcC" without "AVCProfileIndication_name" "numOfPictureParameterSets" "numOfSequenceParameterSetExt" {
        /// A number of 8 bits (`configurationVersion`).
        configuration_version: u8 = "configurationVersion",
        /// A number of 8 bits (`AVCProfileIndication`). `avc_profile_indication_name` returns its meaning.
        avc_profile_indication: u8 = "AVCProfileIndication" => avc_profile_indication_name {
            44 "CAVLC 4:4:4 Intra", 66 "Baseline", 77 "Main", 88 "Extended", 100 "High", 110 "High 10",
            122 "High 4:2:2", 244 "High 4:4:4 Predictive",
        },
        /// A number of 8 bits.
        profile_compatibility: u8 = "profile_compatibility",
        /// A number of 8 bits (`AVCLevelIndication`).
        avc_level_indication: u8 = "AVCLevelIndication",
        /// Reserved, 6 bits. `None` is 63.
        reserved_before_length: Option<u8> = "reserved_before_length",
        /// A number of 2 bits (`lengthSizeMinusOne`).
        length_size_minus_one: u8 = "lengthSizeMinusOne",
        /// Reserved, 3 bits. `None` is 7.
        reserved_before_sets: Option<u8> = "reserved_before_sets",
        /// A number of 5 bits (`numOfSequenceParameterSets`).
        num_of_sequence_parameter_sets: u8 = "numOfSequenceParameterSets",
        /// Bytes of each (`sequenceParameterSetNALUnit`).
        sequence_parameter_set_nal_unit: Vec<Vec<u8>> = "sequenceParameterSetNALUnit",
        /// Bytes of each (`pictureParameterSetNALUnit`).
        picture_parameter_set_nal_unit: Vec<Vec<u8>> = "pictureParameterSetNALUnit",
        /// Reserved, 6 bits. `None` is 63.
        reserved_before_chroma_format: Option<u8> = "reserved_before_chroma_format",
        /// A number of 2 bits, if present.
        chroma_format: Option<u8> = "chroma_format",
        /// Reserved, 5 bits. `None` is 31.
        reserved_before_luma: Option<u8> = "reserved_before_luma",
        /// A number of 3 bits, if present.
        bit_depth_luma_minus8: Option<u8> = "bit_depth_luma_minus8",
        /// Reserved, 5 bits. `None` is 31.
        reserved_before_chroma: Option<u8> = "reserved_before_chroma",
        /// A number of 3 bits, if present.
        bit_depth_chroma_minus8: Option<u8> = "bit_depth_chroma_minus8",
        /// Bytes of each, if present (`sequenceParameterSetExtNALUnit`).
        sequence_parameter_set_ext_nal_unit: Option<Vec<Vec<u8>>> = "sequenceParameterSetExtNALUnit",
        /// Bytes, if present.
        data_bytes: Option<Vec<u8>> = "data_bytes",
    }
    /// The bit rates of the media of a sample entry (`btrt`, ISO/IEC 14496-12, 8.5.2.2).
    #[derive(Eq, Hash)]
    BtrtBox b"btrt" {
        /// A number of 32 bits (`bufferSizeDB`).
        buffer_size_db: u32 = "bufferSizeDB",
        /// A number of 32 bits (`maxBitrate`).
        max_bitrate: u32 = "maxBitrate",
        /// A number of 32 bits (`avgBitrate`).
        avg_bitrate: u32 = "avgBitrate",
    }
    /// An entry of `m_channel_descriptions` in a [`ChanBox`].
    #[derive(Eq, Hash)]
    ChanMChannelDescription without "mChannelLabel_name" {
        /// A number of 32 bits (`mChannelLabel`). `m_channel_label_name` returns its meaning.
        m_channel_label: u32 = "mChannelLabel" => m_channel_label_name {
            0 "unused", 1 "left", 2 "right", 3 "centre", 4 "LFE", 5 "left surround", 6 "right surround",
            7 "left centre", 8 "right centre", 9 "centre surround", 10 "left surround direct",
            11 "right surround direct", 12 "top centre surround", 13 "vertical height left",
            14 "vertical height centre", 15 "vertical height right", 16 "top back left", 17 "top back centre",
            18 "top back right", 33 "rear surround left", 34 "rear surround right", 42 "mono", 100 "by coordinates",
            4294967295 "unknown",
        },
        /// Flags of 32 bits (`mChannelFlags`). 0x1: rectangular, 0x2: spherical, 0x4: metres.
        m_channel_flags: u32 = "mChannelFlags",
        /// 4 bytes (`mCoordinates_0`).
        m_coordinates_0: [u8; 4] = "mCoordinates_0",
        /// 4 bytes (`mCoordinates_1`).
        m_coordinates_1: [u8; 4] = "mCoordinates_1",
        /// 4 bytes (`mCoordinates_2`).
        m_coordinates_2: [u8; 4] = "mCoordinates_2",
    }
    /// The channels of a sound (`chan`, QuickTime File Format, "Audio channel layout atom").
    #[derive(Eq, Hash)]
    ChanBox b"chan" without "mChannelLayoutTag_name" "mNumberChannelDescriptions" {
        /// A number of 8 bits.
        version: u8 = "version",
        /// Flags of 24 bits.
        flags: u32 = "flags",
        /// A number of 32 bits (`mChannelLayoutTag`). `m_channel_layout_tag_name` returns its meaning.
        m_channel_layout_tag: u32 = "mChannelLayoutTag" => m_channel_layout_tag_name {
            0 "channel descriptions", 65536 "channel bitmap", 6553601 "mono", 6619138 "stereo",
            6684674 "stereo headphones", 6750210 "matrix stereo", 6815746 "mid-side", 6881282 "XY", 6946818 "binaural",
            7012356 "Ambisonic B-format", 7077892 "quadraphonic", 7405571 "L R C", 7471107 "C L R", 7536644 "L R C Cs",
            7602180 "C L R Cs", 7667717 "L R C Ls Rs", 7733253 "L R Ls Rs C", 7798789 "L C R Ls Rs",
            7864325 "C L R Ls Rs", 7929862 "L R C LFE Ls Rs", 7995398 "L R Ls Rs C LFE", 8060934 "L C R Ls Rs LFE",
            8126470 "C L R Ls Rs LFE", 8192007 "L R C LFE Ls Rs Cs", 8257544 "L R C LFE Ls Rs Lc Rc",
            8323080 "C Lc Rc L R Ls Rs LFE", 8388616 "L R C LFE Ls Rs Rls Rrs",
        },
        /// Flags of 32 bits (`mChannelBitmap`). 0x1: left, 0x2: right, 0x4: centre, 0x8: LFE, 0x10: left surround,
        /// 0x20: right surround, 0x40: left centre, 0x80: right centre, 0x100: centre surround, 0x200: left surround
        /// direct, 0x400: right surround direct, 0x800: top centre surround, 0x1000: vertical height left, 0x2000:
        /// vertical height centre, 0x4000: vertical height right, 0x8000: top back left, 0x10000: top back centre,
        /// 0x20000: top back right.
        m_channel_bitmap: u32 = "mChannelBitmap",
        /// The entries (`mChannelDescriptions`).
        m_channel_descriptions: Vec<ChanMChannelDescription> = "mChannelDescriptions",
    }
    /// The channels of a sound (`chnl`, ISO/IEC 14496-12, 12.2.4).
    #[derive(Eq, Hash)]
    ChnlBox b"chnl" without "stream_structure_name" {
        /// A number of 8 bits.
        version: u8 = "version",
        /// Flags of 24 bits.
        flags: u32 = "flags",
        /// A number of 8 bits. `stream_structure_name` returns its meaning.
        stream_structure: u8 = "stream_structure" => stream_structure_name {
            1 "channels", 2 "objects", 3 "channels and objects",
        },
        /// A number of 4 bits, if version >= 1.
        format_ordering: Option<u8> = "format_ordering",
        /// A number of 8 bits, if version >= 1 (`baseChannelCount`).
        base_channel_count: Option<u8> = "baseChannelCount",
        /// Bytes, if present.
        data_bytes: Option<Vec<u8>> = "data_bytes",
    }
    /// The part of a video's pictures to show (`clap`, ISO/IEC 14496-12, 12.1.4).
    #[derive(Eq, Hash)]
    ClapBox b"clap" {
        /// A number of 32 bits (`cleanApertureWidthN`).
        clean_aperture_width_n: u32 = "cleanApertureWidthN",
        /// A number of 32 bits (`cleanApertureWidthD`).
        clean_aperture_width_d: u32 = "cleanApertureWidthD",
        /// A number of 32 bits (`cleanApertureHeightN`).
        clean_aperture_height_n: u32 = "cleanApertureHeightN",
        /// A number of 32 bits (`cleanApertureHeightD`).
        clean_aperture_height_d: u32 = "cleanApertureHeightD",
        /// A signed number of 32 bits (`horizOffN`).
        horiz_off_n: i32 = "horizOffN",
        /// A number of 32 bits (`horizOffD`).
        horiz_off_d: u32 = "horizOffD",
        /// A signed number of 32 bits (`vertOffN`).
        vert_off_n: i32 = "vertOffN",
        /// A number of 32 bits (`vertOffD`).
        vert_off_d: u32 = "vertOffD",
    }
    /// The brightness of a video's pictures (`clli`, ISO/IEC 14496-12, 12.1.6).
    #[derive(Eq, Hash)]
    ClliBox b"clli" {
        /// A number of 16 bits.
        max_content_light_level: u16 = "max_content_light_level",
        /// A number of 16 bits.
        max_pic_average_light_level: u16 = "max_pic_average_light_level",
    }
    /// The colours of a video (`colr`, ISO/IEC 14496-12, 12.1.5).
    #[derive(Eq, Hash)]
    ColrBox b"colr" without "colour_primaries_name" "transfer_characteristics_name" "matrix_coefficients_name" {
        /// A code.
        colour_type: FourCC = "colour_type",
        /// A number of 16 bits, if colour_type is nclx or nclc. `colour_primaries_name` returns its meaning.
        colour_primaries: Option<u16> = "colour_primaries" => colour_primaries_name {
            1 "BT.709", 2 "unspecified", 4 "BT.470 System M", 5 "BT.470 System B, G", 6 "BT.601", 7 "SMPTE ST 240",
            8 "generic film", 9 "BT.2020", 10 "SMPTE ST 428-1", 11 "SMPTE RP 431-2", 12 "SMPTE EG 432-1",
            22 "EBU Tech. 3213-E",
        },
        /// A number of 16 bits, if colour_type is nclx or nclc. `transfer_characteristics_name` returns its meaning.
        transfer_characteristics: Option<u16> = "transfer_characteristics" => transfer_characteristics_name {
            1 "BT.709", 2 "unspecified", 4 "BT.470 System M", 5 "BT.470 System B, G", 6 "BT.601", 7 "SMPTE ST 240",
            8 "linear", 9 "logarithmic, 100:1", 10 "logarithmic, 316.22777:1", 11 "IEC 61966-2-4", 12 "BT.1361",
            13 "IEC 61966-2-1", 14 "BT.2020, 10 bits", 15 "BT.2020, 12 bits", 16 "SMPTE ST 2084", 17 "SMPTE ST 428-1",
            18 "ARIB STD-B67",
        },
        /// A number of 16 bits, if colour_type is nclx or nclc. `matrix_coefficients_name` returns its meaning.
        matrix_coefficients: Option<u16> = "matrix_coefficients" => matrix_coefficients_name {
            0 "identity", 1 "BT.709", 2 "unspecified", 4 "FCC Title 47", 5 "BT.470 System B, G", 6 "BT.601",
            7 "SMPTE ST 240", 8 "YCgCo", 9 "BT.2020 non-constant luminance", 10 "BT.2020 constant luminance",
            11 "SMPTE ST 2085", 12 "chromaticity-derived non-constant luminance",
            13 "chromaticity-derived constant luminance", 14 "ICtCp",
        },
        /// A flag, if colour_type is nclx.
        full_range_flag: Option<bool> = "full_range_flag",
        /// Reserved, 7 bits, if colour_type is nclx. `None` is 0.
        reserved: Option<u8> = "reserved",
        /// Bytes, if colour_type is rICC or prof (`ICC_profile`).
        icc_profile: Option<Vec<u8>> = "ICC_profile",
        /// Bytes, if colour_type is another.
        data_bytes: Option<Vec<u8>> = "data_bytes",
    }
    /// The relation of a track's composition times to its decoding times (`cslg`, ISO/IEC 14496-12, 8.6.1.4).
    #[derive(Eq, Hash)]
    CslgBox b"cslg" {
        /// A number of 8 bits.
        version: u8 = "version",
        /// Flags of 24 bits.
        flags: u32 = "flags",
        /// A signed number of 32 or 64 bits (`compositionToDTSShift`).
        composition_to_dts_shift: i64 = "compositionToDTSShift",
        /// A signed number of 32 or 64 bits (`leastDecodeToDisplayDelta`).
        least_decode_to_display_delta: i64 = "leastDecodeToDisplayDelta",
        /// A signed number of 32 or 64 bits (`greatestDecodeToDisplayDelta`).
        greatest_decode_to_display_delta: i64 = "greatestDecodeToDisplayDelta",
        /// A signed number of 32 or 64 bits (`compositionStartTime`).
        composition_start_time: i64 = "compositionStartTime",
        /// A signed number of 32 or 64 bits (`compositionEndTime`).
        composition_end_time: i64 = "compositionEndTime",
    }
    /// The configuration of an AC-3 decoder (`dac3`, ETSI TS 102 366, F.4).
    #[derive(Eq, Hash)]
    Dac3Box b"dac3" {
        /// A number of 2 bits.
        fscod: u8 = "fscod",
        /// A number of 5 bits.
        bsid: u8 = "bsid",
        /// A number of 3 bits.
        bsmod: u8 = "bsmod",
        /// A number of 3 bits.
        acmod: u8 = "acmod",
        /// A flag.
        lfeon: bool = "lfeon",
        /// A number of 5 bits.
        bit_rate_code: u8 = "bit_rate_code",
        /// Reserved, 5 bits. `None` is 0.
        reserved: Option<u8> = "reserved",
    }
    /// The value of a metadata item, of any type (`data`, QuickTime File Format, "Value atom").
    #[derive(Eq, Hash)]
    DataBox b"data" without "data_type_name" {
        /// A number of 8 bits. `None` is 0.
        type_set: Option<u8> = "type_set",
        /// A number of 24 bits. `data_type_name` returns its meaning.
        data_type: u32 = "data_type" => data_type_name unless type_set {
            0 "binary", 1 "text", 2 "UTF-16 text", 13 "JPEG", 14 "PNG", 21 "signed integer", 22 "unsigned integer",
            23 "32-bit float", 24 "64-bit float", 27 "BMP",
        },
        /// Letters, or a number that has none, if present.
        country: Option<Letters> = "country",
        /// Letters, or a number that has none, if present.
        language: Option<Letters> = "language",
        /// A text, if present.
        text: Option<String> = "text",
        /// The bytes of `text`, if they are not UTF-8.
        text_hex: Option<Vec<u8>> = "text_hex",
        /// A number from -2^63 to 2^64 - 1, if present.
        number: Option<i128> = "number",
        /// Bytes, if present.
        number_hex: Option<Vec<u8>> = "number_hex",
        /// Bytes, if present.
        data_bytes: Option<Vec<u8>> = "data_bytes",
    }
    /// An entry of `substreams` in a [`Dec3Box`].
    #[derive(Eq, Hash)]
    Dec3Substream {
        /// A number of 2 bits.
        fscod: u8 = "fscod",
        /// A number of 5 bits.
        bsid: u8 = "bsid",
        /// Reserved, 1 bit. `None` is 0.
        reserved_before_asvc: Option<bool> = "reserved_before_asvc",
        /// A flag.
        asvc: bool = "asvc",
        /// A number of 3 bits.
        bsmod: u8 = "bsmod",
        /// A number of 3 bits.
        acmod: u8 = "acmod",
        /// A flag.
        lfeon: bool = "lfeon",
        /// Reserved, 3 bits. `None` is 0.
        reserved_before_num_dep_sub: Option<u8> = "reserved_before_num_dep_sub",
        /// A number of 4 bits.
        num_dep_sub: u8 = "num_dep_sub",
        /// Reserved, 1 bit. `None` is 0.
        reserved_after_num_dep_sub: Option<bool> = "reserved_after_num_dep_sub",
        /// A number of 9 bits, if present.
        chan_loc: Option<u16> = "chan_loc",
    }
    /// The configuration of an Enhanced AC-3 decoder (`dec3`, ETSI TS 102 366, F.6).
    #[derive(Eq, Hash)]
    Dec3Box b"dec3" {
        /// A number of 13 bits.
        data_rate: u16 = "data_rate",
        /// A number of 3 bits.
        num_ind_sub: u8 = "num_ind_sub",
        /// The entries, if present.
        substreams: Option<Vec<Dec3Substream>> = "substreams",
        /// Bytes, if present.
        data_bytes: Option<Vec<u8>> = "data_bytes",
    }
    /// An entry of `metadata_blocks` in a [`DflaBox`].
    #[derive(Eq, Hash)]
    DflaMetadataBlock without "BlockType_name" {
        /// A flag (`LastMetadataBlockFlag`).
        last_metadata_block_flag: bool = "LastMetadataBlockFlag",
        /// A number of 7 bits (`BlockType`). `block_type_name` returns its meaning.
        block_type: u8 = "BlockType" => block_type_name {
            0 "STREAMINFO", 1 "PADDING", 2 "APPLICATION", 3 "SEEKTABLE", 4 "VORBIS_COMMENT", 5 "CUESHEET", 6 "PICTURE",
            127 "forbidden",
        },
        /// A number of 24 bits (`Length`).
        length: u32 = "Length",
        /// A number of 16 bits, if BlockType is 0 and Length is 34.
        minimum_block_size: Option<u16> = "minimum_block_size",
        /// A number of 16 bits, if BlockType is 0 and Length is 34.
        maximum_block_size: Option<u16> = "maximum_block_size",
        /// A number of 24 bits, if BlockType is 0 and Length is 34.
        minimum_frame_size: Option<u32> = "minimum_frame_size",
        /// A number of 24 bits, if BlockType is 0 and Length is 34.
        maximum_frame_size: Option<u32> = "maximum_frame_size",
        /// A number of 20 bits, if BlockType is 0 and Length is 34.
        sample_rate: Option<u32> = "sample_rate",
        /// A number of 3 bits, plus 1, if BlockType is 0 and Length is 34.
        channels: Option<u8> = "channels",
        /// A number of 5 bits, plus 1, if BlockType is 0 and Length is 34.
        bits_per_sample: Option<u8> = "bits_per_sample",
        /// A number of 36 bits, if BlockType is 0 and Length is 34.
        total_samples: Option<u64> = "total_samples",
        /// Bytes, if BlockType is 0 and Length is 34 (`MD5`).
        md5: Option<Vec<u8>> = "MD5",
        /// Bytes, if another BlockType or Length (`BlockData`).
        block_data: Option<Vec<u8>> = "BlockData",
    }
    /// The configuration of a FLAC decoder (`dfLa`, Encapsulation of FLAC in ISO Base Media File Format, 3.3.2).
    #[derive(Eq, Hash)]
    DflaBox b"dfLa" {
        /// A number of 8 bits.
        version: u8 = "version",
        /// Flags of 24 bits.
        flags: u32 = "flags",
        /// The entries.
        metadata_blocks: Vec<DflaMetadataBlock> = "metadata_blocks",
    }
    /// The configuration of an Opus decoder (`dOps`, Encapsulation of Opus in ISO Base Media File Format, 4.3.2).
    #[derive(Eq, Hash)]
    DopsBox b"dOps" {
        /// A number of 8 bits (`Version`).
        version: u8 = "Version",
        /// A number of 8 bits (`OutputChannelCount`).
        output_channel_count: u8 = "OutputChannelCount",
        /// A number of 16 bits (`PreSkip`).
        pre_skip: u16 = "PreSkip",
        /// A number of 32 bits (`InputSampleRate`).
        input_sample_rate: u32 = "InputSampleRate",
        /// A fixed-point number of 16 bits, 8 of them after the point (`OutputGain`).
        output_gain: FixedPointI8 = "OutputGain",
        /// A number of 8 bits (`ChannelMappingFamily`).
        channel_mapping_family: u8 = "ChannelMappingFamily",
        /// A number of 8 bits, if present (`StreamCount`).
        stream_count: Option<u8> = "StreamCount",
        /// A number of 8 bits, if present (`CoupledCount`).
        coupled_count: Option<u8> = "CoupledCount",
        /// Bytes, if present (`ChannelMapping`).
        channel_mapping: Option<Vec<u8>> = "ChannelMapping",
        /// Bytes, if present.
        data_bytes: Option<Vec<u8>> = "data_bytes",
    }
    /// The configuration of Dolby Vision in profiles up to 7 (`dvcC`, Dolby Vision Streams Within the ISO Base Media
    /// File Format, "Configuration boxes").
    #[derive(Eq, Hash)]
    DvccBox b"dvcC" without "dv_bl_signal_compatibility_id_name" {
        /// A number of 8 bits.
        dv_version_major: u8 = "dv_version_major",
        /// A number of 8 bits.
        dv_version_minor: u8 = "dv_version_minor",
        /// A number of 7 bits.
        dv_profile: u8 = "dv_profile",
        /// A number of 6 bits.
        dv_level: u8 = "dv_level",
        /// A flag.
        rpu_present_flag: bool = "rpu_present_flag",
        /// A flag.
        el_present_flag: bool = "el_present_flag",
        /// A flag.
        bl_present_flag: bool = "bl_present_flag",
        /// A number of 4 bits. `dv_bl_signal_compatibility_id_name` returns its meaning.
        dv_bl_signal_compatibility_id: u8 = "dv_bl_signal_compatibility_id" => dv_bl_signal_compatibility_id_name {
            0 "none", 1 "HDR10", 2 "SDR", 4 "HLG", 6 "Ultra HD Blu-ray HDR10",
        },
        /// Reserved, 28 bits. `None` is 0.
        reserved: Option<u32> = "reserved",
    }
    /// The configuration of Dolby Vision in profiles 8 to 10 (`dvvC`, Dolby Vision Streams Within the ISO Base Media
    /// File Format, "Configuration boxes").
    #[derive(Eq, Hash)]
    DvvcBox b"dvvC" without "dv_bl_signal_compatibility_id_name" {
        /// A number of 8 bits.
        dv_version_major: u8 = "dv_version_major",
        /// A number of 8 bits.
        dv_version_minor: u8 = "dv_version_minor",
        /// A number of 7 bits.
        dv_profile: u8 = "dv_profile",
        /// A number of 6 bits.
        dv_level: u8 = "dv_level",
        /// A flag.
        rpu_present_flag: bool = "rpu_present_flag",
        /// A flag.
        el_present_flag: bool = "el_present_flag",
        /// A flag.
        bl_present_flag: bool = "bl_present_flag",
        /// A number of 4 bits. `dv_bl_signal_compatibility_id_name` returns its meaning.
        dv_bl_signal_compatibility_id: u8 = "dv_bl_signal_compatibility_id" => dv_bl_signal_compatibility_id_name {
            0 "none", 1 "HDR10", 2 "SDR", 4 "HLG", 6 "Ultra HD Blu-ray HDR10",
        },
        /// Reserved, 28 bits. `None` is 0.
        reserved: Option<u32> = "reserved",
    }
    /// The language of a track's media (`elng`, ISO/IEC 14496-12, 8.4.6).
    #[derive(Eq, Hash)]
    ElngBox b"elng" {
        /// A number of 8 bits.
        version: u8 = "version",
        /// Flags of 24 bits.
        flags: u32 = "flags",
        /// A text.
        extended_language: String = "extended_language",
        /// The bytes of `extended_language`, if they are not UTF-8.
        extended_language_hex: Option<Vec<u8>> = "extended_language_hex",
    }
    /// The order of the bytes of a sound's samples (`enda`, QuickTime File Format, "Endian atom").
    #[derive(Eq, Hash)]
    EndaBox b"enda" without "littleEndian_name" {
        /// A number of 16 bits (`littleEndian`). `little_endian_name` returns its meaning.
        little_endian: u16 = "littleEndian" => little_endian_name {
            0 "big-endian", 1 "little-endian",
        },
    }
    /// The fields of `audio_specific_config` in a [`EsdsBox`].
    #[derive(Eq, Hash)]
    EsdsAudioSpecificConfig without "audioObjectType_name" "channelConfiguration_name" {
        /// A number of 7 bits (`audioObjectType`). `audio_object_type_name` returns its meaning.
        audio_object_type: u8 = "audioObjectType" => audio_object_type_name {
            1 "AAC Main", 2 "AAC LC", 3 "AAC SSR", 4 "AAC LTP", 5 "SBR", 6 "AAC Scalable", 7 "TwinVQ", 8 "CELP",
            9 "HVXC", 17 "ER AAC LC", 19 "ER AAC LTP", 20 "ER AAC Scalable", 22 "ER BSAC", 23 "ER AAC LD", 29 "PS",
            30 "MPEG Surround", 32 "Layer-1", 33 "Layer-2", 34 "Layer-3", 36 "ALS", 37 "SLS", 39 "ER AAC ELD",
            42 "USAC",
        },
        /// A number of 4 bits (`samplingFrequencyIndex`).
        sampling_frequency_index: u8 = "samplingFrequencyIndex",
        /// A number of 24 bits (`samplingFrequency`). `None` is 0.
        sampling_frequency: Option<u32> = "samplingFrequency",
        /// A number of 4 bits (`channelConfiguration`). `channel_configuration_name` returns its meaning.
        channel_configuration: u8 = "channelConfiguration" => channel_configuration_name {
            0 "defined in the stream", 1 "mono", 2 "stereo", 3 "3.0", 4 "4.0", 5 "5.0", 6 "5.1", 7 "7.1",
        },
        /// A number of 3 bits, if present (`extensionAudioObjectType`).
        extension_audio_object_type: Option<u8> = "extensionAudioObjectType",
        /// A flag, if present (`sbrPresentFlag`).
        sbr_present_flag: Option<bool> = "sbrPresentFlag",
        /// A flag, if present (`psPresentFlag`).
        ps_present_flag: Option<bool> = "psPresentFlag",
        /// A number of 4 bits, if present (`extensionSamplingFrequencyIndex`).
        extension_sampling_frequency_index: Option<u8> = "extensionSamplingFrequencyIndex",
        /// A number of 24 bits, if present (`extensionSamplingFrequency`).
        extension_sampling_frequency: Option<u32> = "extensionSamplingFrequency",
    }
    /// The fields of `dec_config_descr` in a [`EsdsBox`].
    #[derive(Eq, Hash)]
    EsdsDecConfigDescr without "objectTypeIndication_name" "streamType_name" {
        /// A number of 8 bits. `None` is 1.
        size_bytes: Option<u8> = "size_bytes",
        /// A number of 8 bits (`objectTypeIndication`). `object_type_indication_name` returns its meaning.
        object_type_indication: u8 = "objectTypeIndication" => object_type_indication_name {
            1 "Systems", 2 "Systems 2", 32 "MPEG-4 Visual", 33 "H.264", 34 "H.264 parameter sets", 35 "HEVC",
            64 "MPEG-4 Audio", 96 "MPEG-2 Visual Simple", 97 "MPEG-2 Visual Main", 98 "MPEG-2 Visual SNR",
            99 "MPEG-2 Visual Spatial", 100 "MPEG-2 Visual High", 101 "MPEG-2 Visual 4:2:2", 102 "MPEG-2 AAC Main",
            103 "MPEG-2 AAC LC", 104 "MPEG-2 AAC SSR", 105 "MPEG-2 Audio", 106 "MPEG-1 Visual", 107 "MPEG-1 Audio",
            108 "JPEG", 109 "PNG", 110 "JPEG 2000", 160 "EVRC", 161 "SMV", 163 "VC-1", 164 "Dirac", 165 "AC-3",
            166 "Enhanced AC-3", 169 "DTS", 173 "Opus", 221 "Vorbis", 225 "QCELP",
        },
        /// A number of 6 bits (`streamType`). `stream_type_name` returns its meaning.
        stream_type: u8 = "streamType" => stream_type_name {
            1 "object descriptors", 2 "clock references", 3 "scene description", 4 "visual", 5 "audio", 6 "MPEG-7",
            7 "IPMP", 8 "object content information", 9 "MPEG-J", 10 "interaction", 11 "IPMP tool",
        },
        /// A flag (`upStream`).
        up_stream: bool = "upStream",
        /// Reserved, 1 bit. `None` is 1.
        reserved: Option<bool> = "reserved",
        /// A number of 24 bits (`bufferSizeDB`).
        buffer_size_db: u32 = "bufferSizeDB",
        /// A number of 32 bits (`maxBitrate`).
        max_bitrate: u32 = "maxBitrate",
        /// A number of 32 bits (`avgBitrate`).
        avg_bitrate: u32 = "avgBitrate",
        /// A group, if present (`AudioSpecificConfig`).
        audio_specific_config: Option<EsdsAudioSpecificConfig> = "AudioSpecificConfig",
    }
    /// An entry of `decoder_descriptors` in a [`EsdsBox`].
    #[derive(Eq, Hash)]
    EsdsDecoderDescriptor without "tag_name" "predefined_name" {
        /// A number of 8 bits. `tag_name` returns its meaning.
        tag: u8 = "tag" => tag_name {
            1 "ObjectDescriptor", 2 "InitialObjectDescriptor", 3 "ES_Descriptor", 4 "DecoderConfigDescriptor",
            5 "DecoderSpecificInfo", 6 "SLConfigDescriptor", 7 "ContentIdentificationDescriptor",
            8 "SupplementaryContentIdentificationDescriptor", 9 "IPI_DescrPointer", 10 "IPMP_DescriptorPointer",
            11 "IPMP_Descriptor", 12 "QoS_Descriptor", 13 "RegistrationDescriptor", 14 "ES_ID_Inc", 15 "ES_ID_Ref",
            20 "ProfileLevelIndicationIndexDescriptor", 67 "LanguageDescriptor",
        },
        /// A number of 8 bits. `None` is 1.
        size_bytes: Option<u8> = "size_bytes",
        /// A number of 8 bits, if tag is 6. `predefined_name` returns its meaning.
        predefined: Option<u8> = "predefined" => predefined_name {
            0 "custom", 1 "null SL packet header", 2 "MP4 file",
        },
        /// A flag, if tag is 6 and predefined is 0 (`useAccessUnitStartFlag`).
        use_access_unit_start_flag: Option<bool> = "useAccessUnitStartFlag",
        /// A flag, if tag is 6 and predefined is 0 (`useAccessUnitEndFlag`).
        use_access_unit_end_flag: Option<bool> = "useAccessUnitEndFlag",
        /// A flag, if tag is 6 and predefined is 0 (`useRandomAccessPointFlag`).
        use_random_access_point_flag: Option<bool> = "useRandomAccessPointFlag",
        /// A flag, if tag is 6 and predefined is 0 (`hasRandomAccessUnitsOnlyFlag`).
        has_random_access_units_only_flag: Option<bool> = "hasRandomAccessUnitsOnlyFlag",
        /// A flag, if tag is 6 and predefined is 0 (`usePaddingFlag`).
        use_padding_flag: Option<bool> = "usePaddingFlag",
        /// A flag, if tag is 6 and predefined is 0 (`useTimeStampsFlag`).
        use_time_stamps_flag: Option<bool> = "useTimeStampsFlag",
        /// A flag, if tag is 6 and predefined is 0 (`useIdleFlag`).
        use_idle_flag: Option<bool> = "useIdleFlag",
        /// A flag, if tag is 6 and predefined is 0 (`durationFlag`).
        duration_flag: Option<bool> = "durationFlag",
        /// A number of 32 bits, if tag is 6 and predefined is 0 (`timeStampResolution`).
        time_stamp_resolution: Option<u32> = "timeStampResolution",
        /// A number of 32 bits, if tag is 6 and predefined is 0 (`OCRResolution`).
        ocr_resolution: Option<u32> = "OCRResolution",
        /// A number of 8 bits, if tag is 6 and predefined is 0 (`timeStampLength`).
        time_stamp_length: Option<u8> = "timeStampLength",
        /// A number of 8 bits, if tag is 6 and predefined is 0 (`OCRLength`).
        ocr_length: Option<u8> = "OCRLength",
        /// A number of 8 bits, if tag is 6 and predefined is 0 (`AU_Length`).
        au_length: Option<u8> = "AU_Length",
        /// A number of 8 bits, if tag is 6 and predefined is 0 (`instantBitrateLength`).
        instant_bitrate_length: Option<u8> = "instantBitrateLength",
        /// A number of 4 bits, if tag is 6 and predefined is 0 (`degradationPriorityLength`).
        degradation_priority_length: Option<u8> = "degradationPriorityLength",
        /// A number of 5 bits, if tag is 6 and predefined is 0 (`AU_seqNumLength`).
        au_seq_num_length: Option<u8> = "AU_seqNumLength",
        /// A number of 5 bits, if tag is 6 and predefined is 0 (`packetSeqNumLength`).
        packet_seq_num_length: Option<u8> = "packetSeqNumLength",
        /// Reserved, 2 bits, if tag is 6 and predefined is 0. `None` is 3.
        reserved: Option<u8> = "reserved",
        /// Bytes, if present.
        data_bytes: Option<Vec<u8>> = "data_bytes",
    }
    /// The elementary stream descriptor (`esds`, ISO/IEC 14496-14, 5.6).
    #[derive(Eq, Hash)]
    EsdsBox b"esds" {
        /// A number of 8 bits.
        version: u8 = "version",
        /// Flags of 24 bits.
        flags: u32 = "flags",
        /// A number of 8 bits (`ES_Descriptor_size_bytes`). `None` is 1.
        es_descriptor_size_bytes: Option<u8> = "ES_Descriptor_size_bytes",
        /// A number of 16 bits (`ES_ID`).
        es_id: u16 = "ES_ID",
        /// A flag (`streamDependenceFlag`).
        stream_dependence_flag: bool = "streamDependenceFlag",
        /// A flag (`URL_Flag`).
        url_flag: bool = "URL_Flag",
        /// A flag (`OCRstreamFlag`).
        ocr_stream_flag: bool = "OCRstreamFlag",
        /// A number of 5 bits (`streamPriority`).
        stream_priority: u8 = "streamPriority",
        /// A number of 16 bits, if streamDependenceFlag is 1 (`dependsOn_ES_ID`).
        depends_on_es_id: Option<u16> = "dependsOn_ES_ID",
        /// A text, if URL_Flag is 1 (`URLstring`).
        url_string: Option<String> = "URLstring",
        /// The bytes of `url_string`, if they are not UTF-8, if URL_Flag is 1 (`URLstring_hex`).
        url_string_hex: Option<Vec<u8>> = "URLstring_hex",
        /// A number of 16 bits, if OCRstreamFlag is 1 (`OCR_ES_Id`).
        ocr_es_id: Option<u16> = "OCR_ES_Id",
        /// A group (`decConfigDescr`).
        dec_config_descr: EsdsDecConfigDescr = "decConfigDescr",
        /// The entries.
        decoder_descriptors: Vec<EsdsDecoderDescriptor> = "decoder_descriptors",
        /// The entries.
        descriptors: Vec<EsdsDecoderDescriptor> = "descriptors",
        /// Bytes, if present.
        data_bytes: Option<Vec<u8>> = "data_bytes",
    }
    /// The fields of a video (`fiel`, QuickTime File Format, "Video sample description extensions").
    #[derive(Eq, Hash)]
    FielBox b"fiel" without "fields_name" "detail_name" {
        /// A number of 8 bits. `fields_name` returns its meaning.
        fields: u8 = "fields" => fields_name {
            1 "progressive", 2 "interlaced",
        },
        /// A number of 8 bits. `detail_name` returns its meaning.
        detail: u8 = "detail" => detail_name {
            1 "top field first", 6 "bottom field first", 9 "bottom field shown first, top field stored first",
            14 "top field shown first, bottom field stored first",
        },
    }
    /// The format of media before a transformation such as encryption (`frma`, ISO/IEC 14496-12, 8.12.2).
    #[derive(Eq, Hash)]
    FrmaBox b"frma" {
        /// A code.
        data_format: FourCC = "data_format",
    }
    /// An entry of `font_entry` in a [`FtabBox`].
    #[derive(Eq, Hash)]
    FtabFontEntry {
        /// A number of 16 bits (`font-ID`).
        font_id: u16 = "font-ID",
        /// A text.
        font: String = "font",
        /// The bytes of `font`, if they are not UTF-8.
        font_hex: Option<Vec<u8>> = "font_hex",
    }
    /// The fonts of a timed text (`ftab`, 3GPP TS 26.245, 5.16).
    #[derive(Eq, Hash)]
    FtabBox b"ftab" without "entry-count" {
        /// The entries (`font-entry`).
        font_entry: Vec<FtabFontEntry> = "font-entry",
    }
    /// The media information of tracks other than video and sound (`gmin`, QuickTime File Format, "Base media info
    /// atom").
    #[derive(Eq, Hash)]
    GminBox b"gmin" {
        /// A number of 8 bits.
        version: u8 = "version",
        /// Flags of 24 bits.
        flags: u32 = "flags",
        /// A number of 16 bits.
        graphicsmode: u16 = "graphicsmode",
        /// A number of 16 bits.
        opcolor_red: u16 = "opcolor_red",
        /// A number of 16 bits.
        opcolor_green: u16 = "opcolor_green",
        /// A number of 16 bits.
        opcolor_blue: u16 = "opcolor_blue",
        /// A fixed-point number of 16 bits, 8 of them after the point.
        balance: FixedPointI8 = "balance",
    }
    /// The handler of media or of metadata (`hdlr`, QuickTime File Format, and ISO/IEC 14496-12, 8.4.3).
    #[derive(Eq, Hash)]
    HdlrBox b"hdlr" {
        /// A number of 8 bits.
        version: u8 = "version",
        /// Flags of 24 bits.
        flags: u32 = "flags",
        /// A code, if present.
        component_type: Option<FourCC> = "component_type",
        /// A code.
        handler_type: FourCC = "handler_type",
        /// A code, if present.
        component_manufacturer: Option<FourCC> = "component_manufacturer",
        /// A number of 32 bits. `None` is 0.
        component_flags: Option<u32> = "component_flags",
        /// A number of 32 bits. `None` is 0.
        component_flags_mask: Option<u32> = "component_flags_mask",
        /// A text.
        name: String = "name",
        /// The bytes of `name`, if they are not UTF-8.
        name_hex: Option<Vec<u8>> = "name_hex",
    }
    /// The media header of hints (`hmhd`, ISO/IEC 14496-12, 12.4.2).
    #[derive(Eq, Hash)]
    HmhdBox b"hmhd" {
        /// A number of 8 bits.
        version: u8 = "version",
        /// Flags of 24 bits.
        flags: u32 = "flags",
        /// A number of 16 bits (`maxPDUsize`).
        max_pdu_size: u16 = "maxPDUsize",
        /// A number of 16 bits (`avgPDUsize`).
        avg_pdu_size: u16 = "avgPDUsize",
        /// A number of 32 bits.
        maxbitrate: u32 = "maxbitrate",
        /// A number of 32 bits.
        avgbitrate: u32 = "avgbitrate",
    }
    /// An entry of `arrays` in a [`HvccBox`].
    #[derive(Eq, Hash)]
    HvccArray without "NAL_unit_type_name" {
        /// A flag.
        array_completeness: bool = "array_completeness",
        /// Reserved, 1 bit. `None` is 0.
        reserved: Option<bool> = "reserved",
        /// A number of 6 bits (`NAL_unit_type`). `nal_unit_type_name` returns its meaning.
        nal_unit_type: u8 = "NAL_unit_type" => nal_unit_type_name {
            32 "VPS", 33 "SPS", 34 "PPS", 39 "prefix SEI", 40 "suffix SEI",
        },
        /// Bytes of each (`nalUnit`).
        nal_unit: Vec<Vec<u8>> = "nalUnit",
    }
    /// The configuration of an HEVC decoder (`hvcC`, ISO/IEC 14496-15, 8.3.3.1).
    #[derive(Eq, Hash)]
    HvccBox b"hvcC" {
        /// A number of 8 bits (`configurationVersion`).
        configuration_version: u8 = "configurationVersion",
        /// A number of 2 bits.
        general_profile_space: u8 = "general_profile_space",
        /// A flag.
        general_tier_flag: bool = "general_tier_flag",
        /// A number of 5 bits.
        general_profile_idc: u8 = "general_profile_idc",
        /// Flags of 32 bits.
        general_profile_compatibility_flags: u32 = "general_profile_compatibility_flags",
        /// 6 bytes.
        general_constraint_indicator_flags: [u8; 6] = "general_constraint_indicator_flags",
        /// A number of 8 bits.
        general_level_idc: u8 = "general_level_idc",
        /// Reserved, 4 bits. `None` is 15.
        reserved_before_segmentation: Option<u8> = "reserved_before_segmentation",
        /// A number of 12 bits.
        min_spatial_segmentation_idc: u16 = "min_spatial_segmentation_idc",
        /// Reserved, 6 bits. `None` is 63.
        reserved_before_parallelism: Option<u8> = "reserved_before_parallelism",
        /// A number of 2 bits (`parallelismType`).
        parallelism_type: u8 = "parallelismType",
        /// Reserved, 6 bits. `None` is 63.
        reserved_before_chroma_format: Option<u8> = "reserved_before_chroma_format",
        /// A number of 2 bits.
        chroma_format_idc: u8 = "chroma_format_idc",
        /// Reserved, 5 bits. `None` is 31.
        reserved_before_luma: Option<u8> = "reserved_before_luma",
        /// A number of 3 bits.
        bit_depth_luma_minus8: u8 = "bit_depth_luma_minus8",
        /// Reserved, 5 bits. `None` is 31.
        reserved_before_chroma: Option<u8> = "reserved_before_chroma",
        /// A number of 3 bits.
        bit_depth_chroma_minus8: u8 = "bit_depth_chroma_minus8",
        /// A number of 16 bits (`avgFrameRate`).
        avg_frame_rate: u16 = "avgFrameRate",
        /// A number of 2 bits (`constantFrameRate`).
        constant_frame_rate: u8 = "constantFrameRate",
        /// A number of 3 bits (`numTemporalLayers`).
        num_temporal_layers: u8 = "numTemporalLayers",
        /// A flag (`temporalIdNested`).
        temporal_id_nested: bool = "temporalIdNested",
        /// A number of 2 bits (`lengthSizeMinusOne`).
        length_size_minus_one: u8 = "lengthSizeMinusOne",
        /// The entries.
        arrays: Vec<HvccArray> = "arrays",
    }
    /// The places of items (`iloc`, ISO/IEC 14496-12, 8.11.3).
    #[derive(Eq, Hash)]
    IlocBox b"iloc" {
        /// A number of 8 bits.
        version: u8 = "version",
        /// Flags of 24 bits.
        flags: u32 = "flags",
        /// A number of 4 bits.
        offset_size: u8 = "offset_size",
        /// A number of 4 bits.
        length_size: u8 = "length_size",
        /// A number of 4 bits.
        base_offset_size: u8 = "base_offset_size",
        /// A number of 4 bits.
        index_size: u8 = "index_size",
        /// A number of 16 or 32 bits.
        item_count: u32 = "item_count",
        /// Bytes, if present.
        data_bytes: Option<Vec<u8>> = "data_bytes",
    }
    /// The mirroring of an image (`imir`, ISO/IEC 23008-12, 6.5.12).
    #[derive(Eq, Hash)]
    ImirBox b"imir" {
        /// Reserved, 7 bits. `None` is 0.
        reserved: Option<u8> = "reserved",
        /// A flag.
        axis: bool = "axis",
    }
    /// An item (`infe`, ISO/IEC 14496-12, 8.11.6).
    #[derive(Eq, Hash)]
    InfeBox b"infe" {
        /// A number of 8 bits.
        version: u8 = "version",
        /// Flags of 24 bits. 0x1: hidden.
        flags: u32 = "flags",
        /// A number of 16 or 32 bits (`item_ID`).
        item_id: u32 = "item_ID",
        /// A number of 16 bits.
        item_protection_index: u16 = "item_protection_index",
        /// A code, if version >= 2.
        item_type: Option<FourCC> = "item_type",
        /// A text.
        item_name: String = "item_name",
        /// The bytes of `item_name`, if they are not UTF-8.
        item_name_hex: Option<Vec<u8>> = "item_name_hex",
        /// A text, if present.
        content_type: Option<String> = "content_type",
        /// The bytes of `content_type`, if they are not UTF-8.
        content_type_hex: Option<Vec<u8>> = "content_type_hex",
        /// A text, if present.
        item_uri_type: Option<String> = "item_uri_type",
        /// The bytes of `item_uri_type`, if they are not UTF-8.
        item_uri_type_hex: Option<Vec<u8>> = "item_uri_type_hex",
        /// Bytes, if present.
        data_bytes: Option<Vec<u8>> = "data_bytes",
    }
    /// The description of an MPEG-4 presentation (`iods`, ISO/IEC 14496-14, 5.1).
    #[derive(Eq, Hash)]
    IodsBox b"iods" {
        /// A number of 8 bits.
        version: u8 = "version",
        /// Flags of 24 bits.
        flags: u32 = "flags",
        /// Bytes (`OD`).
        od: Vec<u8> = "OD",
    }
    /// An entry of `associations` in a [`IpmaBox`].
    #[derive(Eq, Hash)]
    IpmaAssociation {
        /// A flag.
        essential: bool = "essential",
        /// A number of 15 bits.
        property_index: u16 = "property_index",
    }
    /// An entry of `entries` in a [`IpmaBox`].
    #[derive(Eq, Hash)]
    IpmaEntry {
        /// A number of 16 or 32 bits (`item_ID`).
        item_id: u32 = "item_ID",
        /// The entries.
        associations: Vec<IpmaAssociation> = "associations",
    }
    /// The properties of items (`ipma`, ISO/IEC 23008-12, 9.3.1).
    #[derive(Eq, Hash)]
    IpmaBox b"ipma" without "entry_count" {
        /// A number of 8 bits.
        version: u8 = "version",
        /// Flags of 24 bits. 0x1: property_index of 15 bits.
        flags: u32 = "flags",
        /// The entries.
        entries: Vec<IpmaEntry> = "entries",
    }
    /// The rotation of an image (`irot`, ISO/IEC 23008-12, 6.5.10).
    #[derive(Eq, Hash)]
    IrotBox b"irot" without "angle_name" {
        /// Reserved, 6 bits. `None` is 0.
        reserved: Option<u8> = "reserved",
        /// A number of 2 bits. `angle_name` returns its meaning.
        angle: u8 = "angle" => angle_name {
            0 "none", 1 "90 degrees anticlockwise", 2 "180 degrees", 3 "270 degrees anticlockwise",
        },
    }
    /// The size of an image (`ispe`, ISO/IEC 23008-12, 6.5.3).
    #[derive(Eq, Hash)]
    IspeBox b"ispe" {
        /// A number of 8 bits.
        version: u8 = "version",
        /// Flags of 24 bits.
        flags: u32 = "flags",
        /// A number of 32 bits.
        image_width: u32 = "image_width",
        /// A number of 32 bits.
        image_height: u32 = "image_height",
    }
    /// An entry of `entries` in a [`KeysBox`].
    #[derive(Eq, Hash)]
    KeysEntry {
        /// A code (`Key_namespace`).
        key_namespace: FourCC = "Key_namespace",
        /// A text (`Key_value`).
        key_value: String = "Key_value",
        /// The bytes of `key_value`, if they are not UTF-8 (`Key_value_hex`).
        key_value_hex: Option<Vec<u8>> = "Key_value_hex",
    }
    /// The keys of the metadata items in an `ilst` (`keys`, QuickTime File Format, "Metadata item keys atom").
    #[derive(Eq, Hash)]
    KeysBox b"keys" without "entry_count" {
        /// A number of 8 bits.
        version: u8 = "version",
        /// Flags of 24 bits.
        flags: u32 = "flags",
        /// The entries.
        entries: Vec<KeysEntry> = "entries",
    }
    /// The role of a track (`kind`, ISO/IEC 14496-12, 8.10.4).
    #[derive(Eq, Hash)]
    KindBox b"kind" {
        /// A number of 8 bits.
        version: u8 = "version",
        /// Flags of 24 bits.
        flags: u32 = "flags",
        /// A text (`schemeURI`).
        scheme_uri: String = "schemeURI",
        /// The bytes of `scheme_uri`, if they are not UTF-8 (`schemeURI_hex`).
        scheme_uri_hex: Option<Vec<u8>> = "schemeURI_hex",
        /// A text.
        value: String = "value",
        /// The bytes of `value`, if they are not UTF-8.
        value_hex: Option<Vec<u8>> = "value_hex",
    }
    /// The levels into which fragments are divided (`leva`, ISO/IEC 14496-12, 8.8.13).
    #[derive(Eq, Hash)]
    LevaBox b"leva" {
        /// A number of 8 bits.
        version: u8 = "version",
        /// Flags of 24 bits.
        flags: u32 = "flags",
        /// A number of 8 bits.
        level_count: u8 = "level_count",
        /// Bytes, if present.
        data_bytes: Option<Vec<u8>> = "data_bytes",
    }
    /// The display on which a video was mastered (`mdcv`, ISO/IEC 14496-12, 12.1.7).
    #[derive(Eq, Hash)]
    MdcvBox b"mdcv" {
        /// A number of 16 bits.
        display_primaries_x_0: u16 = "display_primaries_x_0",
        /// A number of 16 bits.
        display_primaries_y_0: u16 = "display_primaries_y_0",
        /// A number of 16 bits.
        display_primaries_x_1: u16 = "display_primaries_x_1",
        /// A number of 16 bits.
        display_primaries_y_1: u16 = "display_primaries_y_1",
        /// A number of 16 bits.
        display_primaries_x_2: u16 = "display_primaries_x_2",
        /// A number of 16 bits.
        display_primaries_y_2: u16 = "display_primaries_y_2",
        /// A number of 16 bits.
        white_point_x: u16 = "white_point_x",
        /// A number of 16 bits.
        white_point_y: u16 = "white_point_y",
        /// A number of 32 bits.
        max_display_mastering_luminance: u32 = "max_display_mastering_luminance",
        /// A number of 32 bits.
        min_display_mastering_luminance: u32 = "min_display_mastering_luminance",
    }
    /// The domain of the name of a metadata item (`mean`, iTunes, metadata).
    #[derive(Eq, Hash)]
    MeanBox b"mean" {
        /// A number of 8 bits.
        version: u8 = "version",
        /// Flags of 24 bits.
        flags: u32 = "flags",
        /// A text.
        value: String = "value",
        /// The bytes of `value`, if they are not UTF-8.
        value_hex: Option<Vec<u8>> = "value_hex",
    }
    /// The size of the enclosing `mfra` (`mfro`, ISO/IEC 14496-12, 8.8.11).
    #[derive(Eq, Hash)]
    MfroBox b"mfro" {
        /// A number of 8 bits.
        version: u8 = "version",
        /// Flags of 24 bits.
        flags: u32 = "flags",
        /// A number of 32 bits.
        parent_size: u32 = "parent_size",
    }
    /// The name of a metadata item (`name`, iTunes, metadata).
    #[derive(Eq, Hash)]
    NameBox b"name" {
        /// A number of 8 bits.
        version: u8 = "version",
        /// Flags of 24 bits.
        flags: u32 = "flags",
        /// A text.
        value: String = "value",
        /// The bytes of `value`, if they are not UTF-8.
        value_hex: Option<Vec<u8>> = "value_hex",
    }
    /// The media header of tracks whose type of media defines no other (`nmhd`, ISO/IEC 14496-12, 8.4.5.2).
    #[derive(Eq, Hash)]
    NmhdBox b"nmhd" {
        /// A number of 8 bits.
        version: u8 = "version",
        /// Flags of 24 bits.
        flags: u32 = "flags",
    }
    /// The aspect ratio of a video's pixels (`pasp`, ISO/IEC 14496-12, 12.1.4).
    #[derive(Eq, Hash)]
    PaspBox b"pasp" {
        /// A number of 32 bits (`hSpacing`).
        h_spacing: u32 = "hSpacing",
        /// A number of 32 bits (`vSpacing`).
        v_spacing: u32 = "vSpacing",
    }
    /// The item to show first, such as the main image of a file (`pitm`, ISO/IEC 14496-12, 8.11.4).
    #[derive(Eq, Hash)]
    PitmBox b"pitm" {
        /// A number of 8 bits.
        version: u8 = "version",
        /// Flags of 24 bits.
        flags: u32 = "flags",
        /// A number of 16 or 32 bits (`item_ID`).
        item_id: u32 = "item_ID",
    }
    /// The number and the size of an image's channels (`pixi`, ISO/IEC 23008-12, 6.5.6).
    #[derive(Eq, Hash)]
    PixiBox b"pixi" {
        /// A number of 8 bits.
        version: u8 = "version",
        /// Flags of 24 bits.
        flags: u32 = "flags",
        /// Numbers of 8 bits, if present.
        bits_per_channel: Option<Vec<u8>> = "bits_per_channel" as numbers,
    }
    /// The time at which a producer made a part of the media (`prft`, ISO/IEC 14496-12, 8.16.5).
    #[derive(Eq, Hash)]
    PrftBox b"prft" {
        /// A number of 8 bits.
        version: u8 = "version",
        /// Flags of 24 bits.
        flags: u32 = "flags",
        /// A number of 32 bits (`reference_track_ID`).
        reference_track_id: u32 = "reference_track_ID",
        /// A number of 64 bits.
        ntp_timestamp: u64 = "ntp_timestamp",
        /// A number of 32 or 64 bits.
        media_time: u64 = "media_time",
    }
    /// The data that a content protection system needs (`pssh`, ISO/IEC 23001-7, 8.1).
    #[derive(Eq, Hash)]
    PsshBox b"pssh" without "SystemID_name" {
        /// A number of 8 bits.
        version: u8 = "version",
        /// Flags of 24 bits.
        flags: u32 = "flags",
        /// 16 bytes (`SystemID`).
        system_id: [u8; 16] = "SystemID",
        /// 16 bytes of each, if version >= 1 (`KID`).
        kid: Option<Vec<[u8; 16]>> = "KID",
        /// Bytes (`Data`).
        data: Vec<u8> = "Data",
    }
    /// The offsets of the samples' auxiliary information (`saio`, ISO/IEC 14496-12, 8.7.9).
    #[derive(Eq, Hash)]
    SaioBox b"saio" {
        /// A number of 8 bits.
        version: u8 = "version",
        /// Flags of 24 bits. 0x1: aux_info_type.
        flags: u32 = "flags",
        /// A code, if flags & 0x1.
        aux_info_type: Option<FourCC> = "aux_info_type",
        /// A number of 32 bits, if flags & 0x1.
        aux_info_type_parameter: Option<u32> = "aux_info_type_parameter",
        /// Numbers of 32 or 64 bits.
        offset: Vec<u64> = "offset",
    }
    /// The sizes of the samples' auxiliary information (`saiz`, ISO/IEC 14496-12, 8.7.8).
    #[derive(Eq, Hash)]
    SaizBox b"saiz" {
        /// A number of 8 bits.
        version: u8 = "version",
        /// Flags of 24 bits. 0x1: aux_info_type.
        flags: u32 = "flags",
        /// A code, if flags & 0x1.
        aux_info_type: Option<FourCC> = "aux_info_type",
        /// A number of 32 bits, if flags & 0x1.
        aux_info_type_parameter: Option<u32> = "aux_info_type_parameter",
        /// A number of 8 bits.
        default_sample_info_size: u8 = "default_sample_info_size",
        /// A number of 32 bits.
        sample_count: u32 = "sample_count",
        /// Numbers of 8 bits, if present.
        sample_info_size: Option<Vec<u8>> = "sample_info_size" as numbers,
    }
    /// An entry of `entries` in a [`SbgpBox`].
    #[derive(Eq, Hash)]
    SbgpEntry {
        /// A number of 32 bits.
        sample_count: u32 = "sample_count",
        /// A number of 32 bits.
        group_description_index: u32 = "group_description_index",
    }
    /// The assignment of samples to groups, for one kind of grouping (`sbgp`, ISO/IEC 14496-12, 8.9.2).
    #[derive(Eq, Hash)]
    SbgpBox b"sbgp" {
        /// A number of 8 bits.
        version: u8 = "version",
        /// Flags of 24 bits.
        flags: u32 = "flags",
        /// A code.
        grouping_type: FourCC = "grouping_type",
        /// A number of 32 bits, if version >= 1.
        grouping_type_parameter: Option<u32> = "grouping_type_parameter",
        /// The entries.
        entries: Vec<SbgpEntry> = "entries",
    }
    /// The scheme that protects the media (`schm`, ISO/IEC 14496-12, 8.12.5).
    #[derive(Eq, Hash)]
    SchmBox b"schm" {
        /// A number of 8 bits.
        version: u8 = "version",
        /// Flags of 24 bits. 0x1: scheme_uri.
        flags: u32 = "flags",
        /// A code.
        scheme_type: FourCC = "scheme_type",
        /// A number of 32 bits.
        scheme_version: u32 = "scheme_version",
        /// A text, if flags & 0x1.
        scheme_uri: Option<String> = "scheme_uri",
        /// The bytes of `scheme_uri`, if they are not UTF-8, if flags & 0x1.
        scheme_uri_hex: Option<Vec<u8>> = "scheme_uri_hex",
    }
    /// An entry of `entries` in a [`SdtpBox`].
    #[derive(Eq, Hash)]
    SdtpEntry {
        /// A number of 2 bits.
        is_leading: u8 = "is_leading",
        /// A number of 2 bits.
        sample_depends_on: u8 = "sample_depends_on",
        /// A number of 2 bits.
        sample_is_depended_on: u8 = "sample_is_depended_on",
        /// A number of 2 bits.
        sample_has_redundancy: u8 = "sample_has_redundancy",
    }
    /// The dependencies between the samples of a track (`sdtp`, ISO/IEC 14496-12, 8.6.4.3).
    #[derive(Eq, Hash)]
    SdtpBox b"sdtp" {
        /// A number of 8 bits.
        version: u8 = "version",
        /// Flags of 24 bits.
        flags: u32 = "flags",
        /// The entries.
        entries: Vec<SdtpEntry> = "entries",
    }
    /// The encryption parameters of each sample (`senc`, ISO/IEC 23001-7, 7.2.1).
    #[derive(Eq, Hash)]
    SencBox b"senc" {
        /// A number of 8 bits.
        version: u8 = "version",
        /// Flags of 24 bits. 0x2: UseSubSampleEncryption.
        flags: u32 = "flags",
        /// A number of 32 bits.
        sample_count: u32 = "sample_count",
        /// Bytes.
        data_bytes: Vec<u8> = "data_bytes",
    }
    /// An entry of `entries` in a [`SgpdBox`].
    #[derive(Eq, Hash)]
    SgpdEntry {
        /// A number of 32 bits, if present.
        description_length: Option<u32> = "description_length",
        /// A signed number of 16 bits, if grouping_type is roll or prol.
        roll_distance: Option<i16> = "roll_distance",
        /// A flag, if grouping_type is rap.
        num_leading_samples_known: Option<bool> = "num_leading_samples_known",
        /// A number of 7 bits, if grouping_type is rap.
        num_leading_samples: Option<u8> = "num_leading_samples",
        /// A flag, if grouping_type is tele.
        level_independently_decodable: Option<bool> = "level_independently_decodable",
        /// Reserved, 8 bits, if grouping_type is tele or seig. `None` is 0.
        reserved: Option<u8> = "reserved",
        /// A number of 4 bits, if grouping_type is seig.
        crypt_byte_block: Option<u8> = "crypt_byte_block",
        /// A number of 4 bits, if grouping_type is seig.
        skip_byte_block: Option<u8> = "skip_byte_block",
        /// A number of 8 bits, if grouping_type is seig (`isProtected`).
        is_protected: Option<u8> = "isProtected",
        /// A number of 8 bits, if grouping_type is seig (`Per_Sample_IV_Size`).
        per_sample_iv_size: Option<u8> = "Per_Sample_IV_Size",
        /// 16 bytes, if grouping_type is seig (`KID`).
        kid: Option<[u8; 16]> = "KID",
        /// The number of bytes of `constant_iv`, if it is another than theirs, if grouping_type is seig
        /// (`constant_IV_size`).
        constant_iv_size: Option<u8> = "constant_IV_size" of constant_iv,
        /// Bytes, if grouping_type is seig (`constant_IV`).
        constant_iv: Option<Vec<u8>> = "constant_IV",
        /// Bytes, if grouping_type is another.
        data_bytes: Option<Vec<u8>> = "data_bytes",
    }
    /// The descriptions of sample groups of one kind (`sgpd`, ISO/IEC 14496-12, 8.9.3).
    #[derive(Eq, Hash)]
    SgpdBox b"sgpd" {
        /// A number of 8 bits.
        version: u8 = "version",
        /// Flags of 24 bits.
        flags: u32 = "flags",
        /// A code.
        grouping_type: FourCC = "grouping_type",
        /// A number of 32 bits, if version >= 1.
        default_length: Option<u32> = "default_length",
        /// A number of 32 bits, if version >= 2.
        default_group_description_index: Option<u32> = "default_group_description_index",
        /// A number of 32 bits.
        entry_count: u32 = "entry_count",
        /// The entries, if present.
        entries: Option<Vec<SgpdEntry>> = "entries",
        /// Bytes, if present.
        data_bytes: Option<Vec<u8>> = "data_bytes",
    }
    /// An entry of `references` in a [`SidxBox`].
    #[derive(Eq, Hash)]
    SidxReference {
        /// A flag.
        reference_type: bool = "reference_type",
        /// A number of 31 bits.
        referenced_size: u32 = "referenced_size",
        /// A number of 32 bits.
        subsegment_duration: u32 = "subsegment_duration",
        /// A flag (`starts_with_SAP`).
        starts_with_sap: bool = "starts_with_SAP",
        /// A number of 3 bits (`SAP_type`).
        sap_type: u8 = "SAP_type",
        /// A number of 28 bits (`SAP_delta_time`).
        sap_delta_time: u32 = "SAP_delta_time",
    }
    /// The sizes and durations of the parts of a segment (`sidx`, ISO/IEC 14496-12, 8.16.3).
    #[derive(Eq, Hash)]
    SidxBox b"sidx" {
        /// A number of 8 bits.
        version: u8 = "version",
        /// Flags of 24 bits.
        flags: u32 = "flags",
        /// A number of 32 bits (`reference_ID`).
        reference_id: u32 = "reference_ID",
        /// A number of 32 bits.
        timescale: u32 = "timescale",
        /// A number of 32 or 64 bits.
        earliest_presentation_time: u64 = "earliest_presentation_time",
        /// A number of 32 or 64 bits.
        first_offset: u64 = "first_offset",
        /// The entries.
        references: Vec<SidxReference> = "references",
    }
    /// The sample rate of a sound, if the 16 bits of its sample entry can't hold it (`srat`, ISO/IEC 14496-12, 12.2.3).
    #[derive(Eq, Hash)]
    SratBox b"srat" {
        /// A number of 8 bits.
        version: u8 = "version",
        /// Flags of 24 bits.
        flags: u32 = "flags",
        /// A number of 32 bits.
        sampling_rate: u32 = "sampling_rate",
    }
    /// An entry of `ranges` in a [`SsixBox`].
    #[derive(Eq, Hash)]
    SsixRange {
        /// A number of 8 bits.
        level: u8 = "level",
        /// A number of 24 bits.
        range_size: u32 = "range_size",
    }
    /// An entry of `subsegments` in a [`SsixBox`].
    #[derive(Eq, Hash)]
    SsixSubsegment without "range_count" {
        /// The entries.
        ranges: Vec<SsixRange> = "ranges",
    }
    /// The levels of the bytes of subsegments (`ssix`, ISO/IEC 14496-12, 8.16.4).
    #[derive(Eq, Hash)]
    SsixBox b"ssix" without "subsegment_count" {
        /// A number of 8 bits.
        version: u8 = "version",
        /// Flags of 24 bits.
        flags: u32 = "flags",
        /// The entries.
        subsegments: Vec<SsixSubsegment> = "subsegments",
    }
    /// The media header of subtitles (`sthd`, ISO/IEC 14496-12, 12.6.2).
    #[derive(Eq, Hash)]
    SthdBox b"sthd" {
        /// A number of 8 bits.
        version: u8 = "version",
        /// Flags of 24 bits.
        flags: u32 = "flags",
    }
    /// The sample entry of subtitles in XML (`stpp`, ISO/IEC 14496-12, 12.6.3).
    #[derive(Eq, Hash)]
    StppBox b"stpp" {
        /// A number of 16 bits.
        data_reference_index: u16 = "data_reference_index",
        /// A text.
        namespace: String = "namespace",
        /// The bytes of `namespace`, if they are not UTF-8.
        namespace_hex: Option<Vec<u8>> = "namespace_hex",
        /// A text.
        schema_location: String = "schema_location",
        /// The bytes of `schema_location`, if they are not UTF-8.
        schema_location_hex: Option<Vec<u8>> = "schema_location_hex",
        /// A text.
        auxiliary_mime_types: String = "auxiliary_mime_types",
        /// The bytes of `auxiliary_mime_types`, if they are not UTF-8.
        auxiliary_mime_types_hex: Option<Vec<u8>> = "auxiliary_mime_types_hex",
        /// Bytes, if present.
        data_bytes: Option<Vec<u8>> = "data_bytes",
    }
    /// The specifications that a segment conforms to (`styp`, ISO/IEC 14496-12, 8.16.2).
    #[derive(Eq, Hash)]
    StypBox b"styp" {
        /// A code.
        major_brand: FourCC = "major_brand",
        /// A number of 32 bits.
        minor_version: u32 = "minor_version",
        /// Codes.
        compatible_brands: Vec<FourCC> = "compatible_brands",
    }
    /// The sizes of samples in 4, 8 or 16 bits each (`stz2`, ISO/IEC 14496-12, 8.7.3.3).
    #[derive(Eq, Hash)]
    Stz2Box b"stz2" {
        /// A number of 8 bits.
        version: u8 = "version",
        /// Flags of 24 bits.
        flags: u32 = "flags",
        /// A number of 8 bits.
        field_size: u8 = "field_size",
        /// A number of 32 bits.
        sample_count: u32 = "sample_count",
        /// Numbers of 16 bits, if present.
        entry_size: Option<Vec<u16>> = "entry_size",
        /// A number of 4 bits. `None` is 0.
        padding: Option<u8> = "padding",
        /// Bytes, if present.
        data_bytes: Option<Vec<u8>> = "data_bytes",
    }
    /// An entry of `subsamples` in a [`SubsBox`].
    #[derive(Eq, Hash)]
    SubsSubsample {
        /// A number of 16 or 32 bits.
        subsample_size: u32 = "subsample_size",
        /// A number of 8 bits.
        subsample_priority: u8 = "subsample_priority",
        /// A number of 8 bits.
        discardable: u8 = "discardable",
        /// A number of 32 bits.
        codec_specific_parameters: u32 = "codec_specific_parameters",
    }
    /// An entry of `entries` in a [`SubsBox`].
    #[derive(Eq, Hash)]
    SubsEntry {
        /// A number of 32 bits.
        sample_delta: u32 = "sample_delta",
        /// The entries.
        subsamples: Vec<SubsSubsample> = "subsamples",
    }
    /// The parts of samples (`subs`, ISO/IEC 14496-12, 8.7.7).
    #[derive(Eq, Hash)]
    SubsBox b"subs" without "entry_count" {
        /// A number of 8 bits.
        version: u8 = "version",
        /// Flags of 24 bits.
        flags: u32 = "flags",
        /// The entries.
        entries: Vec<SubsEntry> = "entries",
    }
    /// The look of a time code (`tcmi`, QuickTime File Format, "Timecode media information atom").
    #[derive(Eq, Hash)]
    TcmiBox b"tcmi" {
        /// A number of 8 bits.
        version: u8 = "version",
        /// Flags of 24 bits.
        flags: u32 = "flags",
        /// A number of 16 bits.
        text_font: u16 = "text_font",
        /// A number of 16 bits.
        text_face: u16 = "text_face",
        /// A number of 16 bits.
        text_size: u16 = "text_size",
        /// Bytes, if present.
        data_bytes: Option<Vec<u8>> = "data_bytes",
    }
    /// The encryption parameters of a track's samples (`tenc`, ISO/IEC 23001-7, 8.2).
    #[derive(Eq, Hash)]
    TencBox b"tenc" {
        /// A number of 8 bits.
        version: u8 = "version",
        /// Flags of 24 bits.
        flags: u32 = "flags",
        /// A number of 4 bits, if version >= 1.
        default_crypt_byte_block: Option<u8> = "default_crypt_byte_block",
        /// A number of 4 bits, if version >= 1.
        default_skip_byte_block: Option<u8> = "default_skip_byte_block",
        /// A number of 8 bits (`default_isProtected`).
        default_is_protected: u8 = "default_isProtected",
        /// A number of 8 bits (`default_Per_Sample_IV_Size`).
        default_per_sample_iv_size: u8 = "default_Per_Sample_IV_Size",
        /// 16 bytes (`default_KID`).
        default_kid: [u8; 16] = "default_KID",
        /// The number of bytes of `default_constant_iv`, if it is another than theirs (`default_constant_IV_size`).
        default_constant_iv_size: Option<u8> = "default_constant_IV_size" of default_constant_iv,
        /// Bytes, if present (`default_constant_IV`).
        default_constant_iv: Option<Vec<u8>> = "default_constant_IV",
    }
    /// The place of text (`text`, QuickTime File Format, "Text media information atom").
    TextBox b"text" {
        /// A fixed-point number of 32 bits, 16 of them after the point.
        a: f64 = "a",
        /// A fixed-point number of 32 bits, 16 of them after the point.
        b: f64 = "b",
        /// A fixed-point number of 32 bits, 30 of them after the point.
        u: f64 = "u",
        /// A fixed-point number of 32 bits, 16 of them after the point.
        c: f64 = "c",
        /// A fixed-point number of 32 bits, 16 of them after the point.
        d: f64 = "d",
        /// A fixed-point number of 32 bits, 30 of them after the point.
        v: f64 = "v",
        /// A fixed-point number of 32 bits, 16 of them after the point.
        x: f64 = "x",
        /// A fixed-point number of 32 bits, 16 of them after the point.
        y: f64 = "y",
        /// A fixed-point number of 32 bits, 30 of them after the point.
        w: f64 = "w",
    }
    /// An entry of `entries` in a [`TfraBox`].
    #[derive(Eq, Hash)]
    TfraEntry {
        /// A number of 64 bits.
        time: u64 = "time",
        /// A number of 64 bits.
        moof_offset: u64 = "moof_offset",
        /// A number of 32 bits.
        traf_number: u32 = "traf_number",
        /// A number of 32 bits.
        trun_number: u32 = "trun_number",
        /// A number of 32 bits.
        sample_number: u32 = "sample_number",
    }
    /// The positions of a track's random access samples in fragments (`tfra`, ISO/IEC 14496-12, 8.8.10).
    #[derive(Eq, Hash)]
    TfraBox b"tfra" {
        /// A number of 8 bits.
        version: u8 = "version",
        /// Flags of 24 bits.
        flags: u32 = "flags",
        /// A number of 32 bits (`track_ID`).
        track_id: u32 = "track_ID",
        /// Reserved, 26 bits. `None` is 0.
        reserved: Option<u32> = "reserved",
        /// A number of 2 bits.
        length_size_of_traf_num: u8 = "length_size_of_traf_num",
        /// A number of 2 bits.
        length_size_of_trun_num: u8 = "length_size_of_trun_num",
        /// A number of 2 bits.
        length_size_of_sample_num: u8 = "length_size_of_sample_num",
        /// A number of 32 bits.
        number_of_entry: u32 = "number_of_entry",
        /// The entries, if present.
        entries: Option<Vec<TfraEntry>> = "entries",
        /// Bytes, if present.
        data_bytes: Option<Vec<u8>> = "data_bytes",
    }
    /// An entry of `references` in a [`TrefBox`].
    #[derive(Eq, Hash)]
    TrefReference {
        /// A code.
        reference_type: FourCC = "reference_type",
        /// Numbers of 32 bits (`track_IDs`).
        track_ids: Vec<u32> = "track_IDs",
    }
    /// The references of a track to other tracks (`tref`, ISO/IEC 14496-12, 8.3.3).
    #[derive(Eq, Hash)]
    TrefBox b"tref" {
        /// The entries.
        references: Vec<TrefReference> = "references",
    }
    /// The fields of `default_text_box` in a [`Tx3gBox`].
    #[derive(Eq, Hash)]
    Tx3gDefaultTextBox {
        /// A signed number of 16 bits.
        top: i16 = "top",
        /// A signed number of 16 bits.
        left: i16 = "left",
        /// A signed number of 16 bits.
        bottom: i16 = "bottom",
        /// A signed number of 16 bits.
        right: i16 = "right",
    }
    /// The fields of `default_style` in a [`Tx3gBox`].
    #[derive(Eq, Hash)]
    Tx3gDefaultStyle {
        /// A number of 16 bits (`startChar`).
        start_char: u16 = "startChar",
        /// A number of 16 bits (`endChar`).
        end_char: u16 = "endChar",
        /// A number of 16 bits (`font-ID`).
        font_id: u16 = "font-ID",
        /// Flags of 8 bits (`face-style-flags`). 0x1: bold, 0x2: italic, 0x4: underline.
        face_style_flags: u8 = "face-style-flags",
        /// A number of 8 bits (`font-size`).
        font_size: u8 = "font-size",
        /// A group (`text-color-rgba`).
        text_color_rgba: RgbaColor = "text-color-rgba",
    }
    /// The sample entry of timed text (`tx3g`, 3GPP TS 26.245, 5.16).
    #[derive(Eq, Hash)]
    Tx3gBox b"tx3g" {
        /// A number of 16 bits.
        data_reference_index: u16 = "data_reference_index",
        /// Flags of 32 bits (`displayFlags`). 0x20: scroll_in, 0x40: scroll_out, 0x800: continuous_karaoke, 0x20000:
        /// write_text_vertically, 0x40000: fill_text_region.
        display_flags: u32 = "displayFlags",
        /// A signed number of 8 bits (`horizontal-justification`).
        horizontal_justification: i8 = "horizontal-justification",
        /// A signed number of 8 bits (`vertical-justification`).
        vertical_justification: i8 = "vertical-justification",
        /// A group (`background-color-rgba`).
        background_color_rgba: RgbaColor = "background-color-rgba",
        /// A group (`default-text-box`).
        default_text_box: Tx3gDefaultTextBox = "default-text-box",
        /// A group (`default-style`).
        default_style: Tx3gDefaultStyle = "default-style",
    }
    /// A reference to media data by a name (`urn`, ISO/IEC 14496-12, 8.7.2).
    #[derive(Eq, Hash)]
    UrnBox b"urn " {
        /// A number of 8 bits.
        version: u8 = "version",
        /// Flags of 24 bits. 0x1: same_file.
        flags: u32 = "flags",
        /// A text.
        name: String = "name",
        /// The bytes of `name`, if they are not UTF-8.
        name_hex: Option<Vec<u8>> = "name_hex",
        /// A text, if present.
        location: Option<String> = "location",
        /// The bytes of `location`, if they are not UTF-8.
        location_hex: Option<Vec<u8>> = "location_hex",
    }
    /// The configuration of a VP decoder (`vpcC`, VP Codec ISO Media File Format Binding, VP Codec Configuration Box).
    #[derive(Eq, Hash)]
    VpccBox b"vpcC" without "chromaSubsampling_name" "colourPrimaries_name" "transferCharacteristics_name"
    "matrixCoefficients_name" {
        /// A number of 8 bits.
        version: u8 = "version",
        /// Flags of 24 bits.
        flags: u32 = "flags",
        /// A number of 8 bits.
        profile: u8 = "profile",
        /// A number of 8 bits.
        level: u8 = "level",
        /// A number of 4 bits (`bitDepth`).
        bit_depth: u8 = "bitDepth",
        /// A number of 4 bits, if version is 0 (`colorSpace`).
        color_space: Option<u8> = "colorSpace",
        /// A number of 4 bits (`chromaSubsampling`). `chroma_subsampling_name` returns its meaning.
        chroma_subsampling: u8 = "chromaSubsampling" => chroma_subsampling_name {
            0 "4:2:0 vertical", 1 "4:2:0 colocated", 2 "4:2:2", 3 "4:4:4",
        },
        /// A number of 3 bits, if version is 0 (`transferFunction`).
        transfer_function: Option<u8> = "transferFunction",
        /// A flag (`videoFullRangeFlag`).
        video_full_range_flag: bool = "videoFullRangeFlag",
        /// A number of 8 bits, if version >= 1 (`colourPrimaries`). `colour_primaries_name` returns its meaning.
        colour_primaries: Option<u8> = "colourPrimaries" => colour_primaries_name {
            1 "BT.709", 2 "unspecified", 4 "BT.470 System M", 5 "BT.470 System B, G", 6 "BT.601", 7 "SMPTE ST 240",
            8 "generic film", 9 "BT.2020", 10 "SMPTE ST 428-1", 11 "SMPTE RP 431-2", 12 "SMPTE EG 432-1",
            22 "EBU Tech. 3213-E",
        },
        /// A number of 8 bits, if version >= 1 (`transferCharacteristics`). `transfer_characteristics_name` returns its
        /// meaning.
        transfer_characteristics: Option<u8> = "transferCharacteristics" => transfer_characteristics_name {
            1 "BT.709", 2 "unspecified", 4 "BT.470 System M", 5 "BT.470 System B, G", 6 "BT.601", 7 "SMPTE ST 240",
            8 "linear", 9 "logarithmic, 100:1", 10 "logarithmic, 316.22777:1", 11 "IEC 61966-2-4", 12 "BT.1361",
            13 "IEC 61966-2-1", 14 "BT.2020, 10 bits", 15 "BT.2020, 12 bits", 16 "SMPTE ST 2084", 17 "SMPTE ST 428-1",
            18 "ARIB STD-B67",
        },
        /// A number of 8 bits, if version >= 1 (`matrixCoefficients`). `matrix_coefficients_name` returns its meaning.
        matrix_coefficients: Option<u8> = "matrixCoefficients" => matrix_coefficients_name {
            0 "identity", 1 "BT.709", 2 "unspecified", 4 "FCC Title 47", 5 "BT.470 System B, G", 6 "BT.601",
            7 "SMPTE ST 240", 8 "YCgCo", 9 "BT.2020 non-constant luminance", 10 "BT.2020 constant luminance",
            11 "SMPTE ST 2085", 12 "chromaticity-derived non-constant luminance",
            13 "chromaticity-derived constant luminance", 14 "ICtCp",
        },
        /// Bytes, if present (`codecInitializationData`).
        codec_initialization_data: Option<Vec<u8>> = "codecInitializationData",
    }
    /// The configuration of a VVC decoder (`vvcC`, ISO/IEC 14496-15, 11.2.4.2).
    #[derive(Eq, Hash)]
    VvccBox b"vvcC" {
        /// A number of 8 bits.
        version: u8 = "version",
        /// Flags of 24 bits.
        flags: u32 = "flags",
        /// Reserved, 5 bits. `None` is 31.
        reserved: Option<u8> = "reserved",
        /// A number of 2 bits (`LengthSizeMinusOne`).
        length_size_minus_one: u8 = "LengthSizeMinusOne",
        /// A flag.
        ptl_present_flag: bool = "ptl_present_flag",
        /// Bytes, if present.
        data_bytes: Option<Vec<u8>> = "data_bytes",
    }
    /// The sample entry of WebVTT (`wvtt`, ISO/IEC 14496-30, 7.5).
    #[derive(Eq, Hash)]
    WvttBox b"wvtt" {
        /// A number of 16 bits.
        data_reference_index: u16 = "data_reference_index",
        /// Bytes, if present.
        data_bytes: Option<Vec<u8>> = "data_bytes",
    }
}

variants! {
    Alac(AlacBox), Alis(AlisBox), Auxc(AuxcBox), Av1c(Av1cBox), Avcc(AvccBox), Btrt(BtrtBox), Chan(ChanBox),
    Chnl(ChnlBox), Clap(ClapBox), Clli(ClliBox), Colr(ColrBox), Cslg(CslgBox), Dac3(Dac3Box), Data(DataBox),
    Dec3(Dec3Box), Dfla(DflaBox), Dops(DopsBox), Dvcc(DvccBox), Dvvc(DvvcBox), Elng(ElngBox), Enda(EndaBox),
    Esds(EsdsBox), Fiel(FielBox), Frma(FrmaBox), Ftab(FtabBox), Gmin(GminBox), Hdlr(HdlrBox), Hmhd(HmhdBox),
    Hvcc(HvccBox), Iloc(IlocBox), Imir(ImirBox), Infe(InfeBox), Iods(IodsBox), Ipma(IpmaBox), Irot(IrotBox),
    Ispe(IspeBox), Keys(KeysBox), Kind(KindBox), Leva(LevaBox), Mdcv(MdcvBox), Mean(MeanBox), Mfro(MfroBox),
    Name(NameBox), Nmhd(NmhdBox), Pasp(PaspBox), Pitm(PitmBox), Pixi(PixiBox), Prft(PrftBox), Pssh(PsshBox),
    Saio(SaioBox), Saiz(SaizBox), Sbgp(SbgpBox), Schm(SchmBox), Sdtp(SdtpBox), Senc(SencBox), Sgpd(SgpdBox),
    Sidx(SidxBox), Srat(SratBox), Ssix(SsixBox), Sthd(SthdBox), Stpp(StppBox), Styp(StypBox), Stz2(Stz2Box),
    Subs(SubsBox), Tcmi(TcmiBox), Tenc(TencBox), Text(TextBox), Tfra(TfraBox), Tref(TrefBox), Tx3g(Tx3gBox),
    Urn(UrnBox), Vpcc(VpccBox), Vvcc(VvccBox), Wvtt(WvttBox),
}

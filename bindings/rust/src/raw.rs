//! Declares the functions of `mp4_box_codec.h` and their structs. The header says what a caller ensures.
//!
//! Structs and fields have the names of the header, unless a public struct has the same layout.

use crate::{CttsEntry, Matrix, RgbColor, RgbaColor, Sample, StscEntry, SttsEntry};

pub const OK: u32 = 0;
pub const END_OF_INPUT: u32 = 1;
pub const INVALID_DATA: u32 = 2;
pub const BOX_NOT_FOUND: u32 = 3;
pub const OUT_OF_MEMORY: u32 = 12;
pub const NO_ROOM: u32 = 100;
pub const NO_TRACK: u32 = 101;
pub const UNKNOWN_BOX: u32 = 102;
pub const REFUSED: u32 = 103;

pub const WARNING: u32 = 2;
pub const MOOV_FIRST: u8 = 1;
pub const MOOV_LAST: u8 = 2;

pub const CHANGE_REMOVE: u32 = 1;
pub const CHANGE_INSERT: u32 = 2;
pub const CHANGE_REPLACE: u32 = 3;
pub const CHANGE_BRANDS: u32 = 4;
pub const CHANGE_LANGUAGE: u32 = 5;
pub const CHANGE_ROTATE: u32 = 6;
pub const CHANGE_ENABLE: u32 = 7;
pub const CHANGE_NO_TAGS: u32 = 8;
pub const CHANGE_TAG: u32 = 9;
pub const CHANGE_COVER: u32 = 10;
pub const CHANGE_DROP_TRACK: u32 = 11;
pub const LAST: u64 = u64::MAX;

/// A function that fills an array and a summary.
pub type Fills<R, S> = unsafe extern "C" fn(*const u8, usize, *mut R, usize, *mut S) -> u32;
/// A function that fills the lengths of parameter sets, their bytes and a struct.
pub type ReadsSets<S> = unsafe extern "C" fn(*const u8, usize, *mut usize, usize, *mut u8, usize, *mut S) -> u32;

/// Defines structs of the header.
macro_rules! structs {
    ($($name:ident { $($field:ident: $type:ty,)* })*) => {
        $(#[repr(C)]
        #[derive(Clone, Copy, Debug, Default)]
        pub struct $name {
            $(pub $field: $type,)*
        })*
    };
}

structs! {
    Span { position: u64, length: u64, header_length: u64, code: u32, }
    Place { position: u64, length: u64, header_length: u64, code: u32, is_whole: u8, }
    Table { count: usize, flags: u32, version: u8, }
    StszTable { count: usize, flags: u32, sample_size: u32, sample_count: u32, version: u8, }
    ElstRow { segment_duration: u64, media_time: u64, media_rate: u16, media_rate_fraction: u16, }
    TrunTable {
        count: usize, flags: u32, sample_count: u32, data_offset: i32, first_sample_flags: u32, version: u8,
    }
    TrunRow { duration: u32, size: u32, flags: u32, composition_offset: u32, }
    Mvhd {
        creation_time: u64, modification_time: u64, duration: u64, flags: u32, timescale: u32, rate: u32,
        matrix: Matrix, next_track_id: u32, volume: u16, version: u8,
    }
    Tkhd {
        creation_time: u64, modification_time: u64, duration: u64, flags: u32, track_id: u32, matrix: Matrix,
        width: u32, height: u32, layer: i16, alternate_group: i16, volume: u16, version: u8,
    }
    Mdhd {
        creation_time: u64, modification_time: u64, duration: u64, flags: u32, timescale: u32, language: [u8; 4],
        version: u8,
    }
    Mehd { fragment_duration: u64, flags: u32, version: u8, }
    Mfhd { flags: u32, sequence_number: u32, version: u8, }
    Smhd { flags: u32, balance: i16, version: u8, }
    Vmhd { flags: u32, graphics_mode: u16, op_color: RgbColor, version: u8, }
    Trex {
        flags: u32, track_id: u32, default_sample_description_index: u32, default_sample_duration: u32,
        default_sample_size: u32, default_sample_flags: u32, version: u8,
    }
    Tfdt { base_media_decode_time: u64, flags: u32, version: u8, }
    Tfhd {
        base_data_offset: u64, flags: u32, track_id: u32, sample_description_index: u32,
        default_sample_duration: u32, default_sample_size: u32, default_sample_flags: u32, version: u8,
    }
    Ftyp { count: usize, major_brand: u32, minor_version: u32, }
    Hdlr { count: usize, flags: u32, handler_type: u32, version: u8, }
    Data { count: usize, data_type: u32, }
    Url { count: usize, flags: u32, version: u8, }
    Dref { url: Url, flags: u32, version: u8, has_url: u8, }
    Emsg {
        scheme_id_uri_count: usize, value_count: usize, message_data_count: usize, presentation_time: u64,
        presentation_time_delta: u32, timescale: u32, event_duration: u32, id: u32, flags: u32, version: u8,
    }
    Avcc {
        sequence_count: usize, picture_count: usize, set_bytes: usize, configuration_version: u8,
        avc_profile_indication: u8, profile_compatibility: u8, avc_level_indication: u8, length_size_minus_one: u8,
    }
    Visual {
        horizresolution: u32, vertresolution: u32, data_reference_index: u16, width: u16, height: u16,
        frame_count: u16, depth: u16,
    }
    Avc1 { avcc: Avcc, visual: Visual, }
    Hvcc { configuration_version: u8, }
    Hev1 { visual: Visual, hvcc: Hvcc, }
    Vpcc {
        flags: u32, codec_initialization_data_size: u16, version: u8, profile: u8, level: u8, bit_depth: u8,
        chroma_subsampling: u8, video_full_range_flag: u8, color_primaries: u8, transfer_characteristics: u8,
        matrix_coefficients: u8,
    }
    Vp09 {
        vpcc: Vpcc, flags: u32, start_code: u16, data_reference_index: u16, width: u16, height: u16,
        horizresolution: [u16; 2], vertresolution: [u16; 2], frame_count: u16, depth: u16, end_code: u16, version: u8,
        reserved0: [u8; 16], reserved1: [u8; 4], compressorname: [u8; 32],
    }
    Tx3g {
        display_flags: u32, data_reference_index: u16, box_record: [i16; 4], horizontal_justification: i8,
        vertical_justification: i8, bg_color_rgba: RgbaColor, style_record: [u8; 12],
    }
    Esds {
        flags: u32, buffer_size_db: u32, max_bitrate: u32, avg_bitrate: u32, sample_rate: u32, es_id: u16, version: u8,
        object_type_indication: u8, stream_type: u8, up_stream: u8, profile: u8, freq_index: u8, chan_conf: u8,
    }
    Mp4a {
        esds: Esds, samplerate: u32, data_reference_index: u16, channelcount: u16, samplesize: u16, has_esds: u8,
    }
    Stsd {
        avc1: Avc1, hev1: Hev1, vp09: Vp09, mp4a: Mp4a, tx3g: Tx3g, flags: u32, entry: u32, version: u8,
    }
    Box {
        position: u64, length: u64, header_length: u64, children: u64, depth: u64, code: u32, parent: u32,
        handler: u32, what: u8, stsd_version: u8,
    }
    WalkLevel { end: u64, parent: u32, handler: u32, stsd_version: u8, }
    TextPart { position: usize, length: usize, }
    FaultRow { position: u64, path: TextPart, text: TextPart, code: u32, severity: u32, }
    FaultTable { count: usize, text_bytes: usize, }
    JsonFault { path: TextPart, text: TextPart, text_bytes: usize, reason: u32, }
    TrackSamples {
        sample_count: u64, key_frames: u64, bytes: u64, end: u64, bit_rate: u64, frames: u64, frame_units: u64,
        is_constant: u8,
    }
    TrackPicture {
        width: u16, height: u16, h_spacing: u32, v_spacing: u32, rotation: u16, has_rotation: u8,
    }
    TrackSound { sample_rate: u64, channels: u32, low_channels: u32, }
    TrackProtection { original: u32, scheme: u32, kid: [u8; 16], is_encrypted: u8, has_kid: u8, }
    TrackInfo {
        kind: TextPart, codec: TextPart, language: TextPart, samples: TrackSamples, duration: u64, duration_scale: u64,
        sound: TrackSound, picture: TrackPicture, track_id: u32, handler: u32, timescale: u32, entry: u32,
        protection: TrackProtection, has_samples: u8, has_picture: u8, has_sound: u8,
    }
    FileInfo {
        brand_count: usize, track_count: usize, text_bytes: usize, length: u64, milliseconds: u64, is_fragmented: u8,
        has_movie: u8, has_items: u8, order: u8,
    }
    Piece { position: u64, length: u64, is_new: u8, }
    NewFile {
        piece_count: usize, new_bytes: usize, text_bytes: usize, length: u64, fragments: u64, samples: u64,
        moved_from: u64, moved_to: u64,
    }
    Change { path: TextPart, bytes: TextPart, number: u64, kind: u32, track_id: u32, value: u32, }
    FragmentOptions { least: u64, has_sidx: u8, has_mfra: u8, has_styp: u8, }
}

/// The state of a walk.
#[repr(C)]
#[derive(Clone, Copy, Debug)]
pub struct Walk {
    pub position: u64,
    pub wanted: u64,
    pub length: u64,
    pub count: u64,
    pub levels: [WalkLevel; 33],
}

impl Default for Walk {
    fn default() -> Walk {
        Walk { position: 0, wanted: 0, length: 0, count: 0, levels: [WalkLevel::default(); 33] }
    }
}

/// Declares functions that take bytes.
macro_rules! from_bytes {
    ($($name:ident($($given:ident: $type:ty),*);)*) => {
        extern "C" {
            $(pub fn $name(bytes: *const u8, length: usize, $($given: $type),*) -> u32;)*
        }
    };
}

/// Declares functions that plan a new file.
macro_rules! plans {
    ($($name:ident($($given:ident: $type:ty),*);)*) => {
        from_bytes! { $($name(
            $($given: $type,)*
            pieces: *mut Piece,
            piece_places: usize,
            new_bytes: *mut u8,
            byte_places: usize,
            text: *mut u8,
            text_places: usize,
            file: *mut NewFile
        );)* }
    };
}

/// Declares functions that fill an array of rows and a summary.
macro_rules! fill {
    ($($name:ident: $row:ty, $summary:ty;)*) => {
        from_bytes! { $($name(rows: *mut $row, places: usize, found: *mut $summary);)* }
    };
}

/// Declares functions that fill a struct.
macro_rules! reads {
    ($($name:ident: $fields:ty;)*) => {
        from_bytes! { $($name(fields: *mut $fields);)* }
    };
}

/// Declares functions that write a box from a struct and arrays.
macro_rules! writes {
    ($($name:ident: $fields:ty $(, $array:ident, $count:ident: $row:ty)*;)*) => {
        extern "C" {
            $(pub fn $name(
                fields: *const $fields,
                $($array: *const $row, $count: usize,)*
                bytes: *mut u8,
                places: usize,
                length: *mut usize,
            ) -> u32;)*
        }
    };
}

extern "C" {
    pub fn mp4_version() -> u32;
    pub fn mp4_status_text(status: u32, text: *mut u8, places: usize, count: *mut usize) -> u32;
    pub fn mp4_walk_begin(length: u64, walk: *mut Walk) -> u32;
    pub fn mp4_box_from_json(
        code: u32,
        json: *const u8,
        json_length: usize,
        bytes: *mut u8,
        places: usize,
        length: *mut usize,
    ) -> u32;
    pub fn mp4_check_json(
        code: u32,
        json: *const u8,
        json_length: usize,
        text: *mut u8,
        places: usize,
        fault: *mut JsonFault,
    ) -> u32;
    #[cfg(test)]
    pub fn mp4_fault_name(code: u32, text: *mut u8, places: usize, count: *mut usize) -> u32;
}

from_bytes! {
    mp4_check();
    mp4_find(path: *const u8, path_length: usize, place: *mut Place);
    mp4_walk_next(walk: *mut Walk, found: *mut Box);
    mp4_check_file(
        faults: *mut FaultRow,
        places: usize,
        text: *mut u8,
        text_places: usize,
        table: *mut FaultTable
    );
    mp4_info(
        brands: *mut u32,
        brand_places: usize,
        tracks: *mut TrackInfo,
        track_places: usize,
        text: *mut u8,
        text_places: usize,
        file: *mut FileInfo
    );
    mp4_samples(track_id: u32, samples: *mut Sample, places: usize, count: *mut usize);
    mp4_fragment_samples(track_id: u32, samples: *mut Sample, places: usize, count: *mut usize);
    mp4_avcc(lengths: *mut usize, places: usize, set_bytes: *mut u8, byte_places: usize, fields: *mut Avcc);
    mp4_avc1(lengths: *mut usize, places: usize, set_bytes: *mut u8, byte_places: usize, fields: *mut Avc1);
    mp4_stsd(lengths: *mut usize, places: usize, set_bytes: *mut u8, byte_places: usize, fields: *mut Stsd);
    mp4_emsg(
        scheme_id_uri: *mut u8,
        scheme_id_uri_places: usize,
        value: *mut u8,
        value_places: usize,
        message_data: *mut u8,
        message_data_places: usize,
        fields: *mut Emsg
    );
}

plans! {
    mp4_faststart();
    mp4_edit(changes: *const Change, count: usize, data: *const u8, data_length: usize);
    mp4_fragment(options: *const FragmentOptions);
    mp4_defragment();
    mp4_cut(from: u64, to: u64);
}

fill! {
    mp4_list: Span, usize;
    mp4_normal: u8, usize;
    mp4_fields: u8, usize;
    mp4_stsz: u32, StszTable;
    mp4_stco: u32, Table;
    mp4_co64: u64, Table;
    mp4_stss: u32, Table;
    mp4_stts: SttsEntry, Table;
    mp4_ctts: CttsEntry, Table;
    mp4_stsc: StscEntry, Table;
    mp4_elst: ElstRow, Table;
    mp4_trun: TrunRow, TrunTable;
    mp4_ftyp: u32, Ftyp;
    mp4_hdlr: u8, Hdlr;
    mp4_data: u8, Data;
    mp4_url: u8, Url;
    mp4_dref: u8, Dref;
    mp4_dinf: u8, Dref;
}

reads! {
    mp4_mvhd: Mvhd;
    mp4_tkhd: Tkhd;
    mp4_mdhd: Mdhd;
    mp4_mehd: Mehd;
    mp4_mfhd: Mfhd;
    mp4_smhd: Smhd;
    mp4_vmhd: Vmhd;
    mp4_trex: Trex;
    mp4_tfdt: Tfdt;
    mp4_tfhd: Tfhd;
    mp4_hvcc: Hvcc;
    mp4_hev1: Hev1;
    mp4_vpcc: Vpcc;
    mp4_vp09: Vp09;
    mp4_tx3g: Tx3g;
    mp4_esds: Esds;
    mp4_mp4a: Mp4a;
}

writes! {
    mp4_write_mvhd: Mvhd;
    mp4_write_tkhd: Tkhd;
    mp4_write_mdhd: Mdhd;
    mp4_write_mehd: Mehd;
    mp4_write_mfhd: Mfhd;
    mp4_write_smhd: Smhd;
    mp4_write_vmhd: Vmhd;
    mp4_write_trex: Trex;
    mp4_write_tfdt: Tfdt;
    mp4_write_tfhd: Tfhd;
    mp4_write_stsz: StszTable, sizes, count: u32;
    mp4_write_stco: Table, offsets, count: u32;
    mp4_write_co64: Table, offsets, count: u64;
    mp4_write_stss: Table, samples, count: u32;
    mp4_write_stts: Table, rows, count: SttsEntry;
    mp4_write_ctts: Table, rows, count: CttsEntry;
    mp4_write_stsc: Table, rows, count: StscEntry;
    mp4_write_elst: Table, rows, count: ElstRow;
    mp4_write_trun: TrunTable, rows, count: TrunRow;
    mp4_write_ftyp: Ftyp, brands, count: u32;
    mp4_write_hdlr: Hdlr, name, count: u8;
    mp4_write_dref: Dref, location, count: u8;
    mp4_write_emsg: Emsg, scheme_id_uri, scheme_id_uri_count: u8, value, value_count: u8,
        message_data, message_data_count: u8;
    mp4_write_stsd: Stsd, lengths, count: usize, set_bytes, byte_count: u8;
}

/*
 * mp4-box-codec: reads and writes the boxes of MP4 files (ISO/IEC 14496-12), for C.
 *
 * Each function reads values of the caller, returns a status, and writes its results to memory of the caller: elements
 * to an array, whose number of places the caller gives, and the number of elements beside it. If the array has fewer
 * places than there are elements, the status is MP4_NO_ROOM, the function returns the number of elements, and the array
 * is as it was. So call a function first with an array of 0 places, and then with one that is long enough.
 *
 * What the caller ensures of every call:
 *
 *  - AN ARRAY OF 0 PLACES AND BYTES OF LENGTH 0 MAY BE NULL, AND NO OTHER POINTER MAY. (This header replaces such a
 *    NULL. A caller that uses the library without this header, such as one in another language, has to pass a pointer
 *    to memory.)
 *  - Each pointer is aligned for its type.
 *  - `length` bytes are readable at `bytes`, and an array has as many places as its number says. No length is more than
 *    2^63 - 1 bytes.
 *  - All memory that a call reads is initialized. Memory that a call only writes may be uninitialized, such as an array
 *    from malloc.
 *  - None of these overlap. No other thread writes to what the call reads, or uses what it writes, until the call
 *    returns.
 *  - malloc, realloc and free are those of one allocator. malloc and realloc align a block to each power of two up to
 *    16 that divides its size. No call is made in a signal handler, or in the forked child of a process with threads.
 *
 * What every call ensures, for all bytes:
 *
 *  - It returns, and reads and writes no other memory. It keeps no pointer and no memory: it frees what it takes of
 *    malloc before it returns, so the caller has nothing to free.
 *  - It has no state: any number of threads may call any functions at the same time.
 *  - After MP4_OK all elements are at the front of the array, and the places after them are as they were.
 *  - After MP4_NO_ROOM the array is as it was. The number of elements, and whatever else the function returns, is as
 *    after MP4_OK.
 *  - After any other status all memory of the caller is as it was, except that MP4_REFUSED leaves a reason.
 *
 * The comment of each function says what it needs beyond that, what it returns, and what it leaves in memory.
 *
 * The header is C89 and later, and C++. Define MP4_NO_STDINT where there is no <stdint.h>. Link the program with
 * libmp4_box_codec.a, which is for x86-64.
 */
#ifndef MP4_BOX_CODEC_H
#define MP4_BOX_CODEC_H

#include <stddef.h>
#ifdef MP4_NO_STDINT
typedef signed char int8_t;
typedef unsigned char uint8_t;
typedef unsigned short uint16_t;
typedef short int16_t;
typedef unsigned int uint32_t;
typedef int int32_t;
typedef unsigned long uint64_t;
typedef long int64_t;
#else
#include <stdint.h>
#endif

/* The version of the codec, by semantic versioning, and as a number: 1000000 for each major version, 1000 for each
   minor version, and 1 for each patch. */
#define MP4_VERSION "0.1.0"
#define MP4_VERSION_NUMBER 1000

#ifdef __cplusplus
extern "C" {
#endif

/* Lengths and numbers of elements have 64 bits, as do the largest numbers in boxes. */
typedef char mp4_size_has_64_bits[sizeof(size_t) == 8 && sizeof(uint64_t) == 8 ? 1 : -1];

/* A code from its four characters: MP4_CODE('m', 'o', 'o', 'v') is 0x6D6F6F76. */
#define MP4_CODE(a, b, c, d)                                                                                           \
    ((uint32_t)(unsigned char)(a) << 24 | (uint32_t)(unsigned char)(b) << 16 | (uint32_t)(unsigned char)(c) << 8 |     \
     (uint32_t)(unsigned char)(d))

/* The statuses. The status of an error of the codec is its position among the variants of the codec's Error, counted
   from 1. No function here returns the errors 4 to 11. */
enum {
    /* The call succeeded. */
    MP4_OK = 0,
    /* The bytes end before everything that a box needs. */
    MP4_END_OF_INPUT = 1,
    /* A check of the layout failed: a size is too small, a count doesn't fit its box, or a box is of another type. From
       a function that writes: the box can't be written. */
    MP4_INVALID_DATA = 2,
    /* A box lacks a child: a dinf has no dref. Or there is no such box. */
    MP4_BOX_NOT_FOUND = 3,
    /* malloc or realloc returned NULL. */
    MP4_OUT_OF_MEMORY = 12,
    /* The array has fewer places than there are elements. This status and those after it are not errors of the
       codec. */
    MP4_NO_ROOM = 100,
    /* No track has the track_ID. Only mp4_samples and mp4_fragment_samples return this status and those below, except
       MP4_UNKNOWN_BOX and MP4_REFUSED. mp4_fragment_samples returns those that mention a fragment. */
    MP4_NO_TRACK = 101,
    /* Boxes of this type are not read. Only mp4_fields, mp4_box_from_json and mp4_check_json return this status. */
    MP4_UNKNOWN_BOX = 102,
    /* There is no such new file, and a text has the reason. Only the functions for new files return this status. */
    MP4_REFUSED = 103,
    /* The tables of a track disagree: the number of sizes in stsz differs from its number of samples. */
    MP4_SAMPLE_SIZES_DISAGREE = 110,
    /* The first entry of stsc doesn't begin at chunk 1. */
    MP4_FIRST_CHUNK_DISAGREES = 111,
    /* The first_chunk of an entry of stsc is not above that of the entry before it. */
    MP4_CHUNK_ORDER_DISAGREES = 112,
    /* stco or co64 has 2^32 chunks or more, or a fragment has 2^32 runs or more. */
    MP4_CHUNK_COUNT_DISAGREES = 113,
    /* The chunks of stsc and of stco or co64 hold fewer samples than stsz counts. */
    MP4_CHUNKS_DISAGREE = 114,
    /* stts has durations for fewer samples than stsz counts, or a sample of a fragment ends past the time 2^64 - 1. */
    MP4_DURATIONS_DISAGREE = 115,
    /* An entry of stss is not above the one before it, or the first entry is 0. */
    MP4_SYNC_SAMPLES_DISAGREE = 116,
    /* A chunk of stco or co64 begins at an offset from which the bytes of all samples of stsz would end past 2^64 - 1.
       Or a sample of a fragment begins before the file or ends past 2^64 - 1. Or the end of the data before a fragment,
       from which its offsets count, isn't known. */
    MP4_OFFSETS_DISAGREE = 117
};

/* The position of a box in the bytes. */
struct mp4_span {
    uint64_t position;      /* the offset of its first byte, where its header begins */
    uint64_t length;        /* the number of its bytes, including the header */
    uint64_t header_length; /* 8 or 16: the distance from its position to its content */
    uint32_t code;          /* the four characters of its code, the first in the highest byte: 'ftyp' is 0x66747970 */
};

/* A box at a path, and the length of its header. */
struct mp4_place {
    uint64_t position; /* the offset of its first byte, where its header begins */
    uint64_t length;   /* the number of its bytes, including the header, as the header states it: also for a box that is
                          cut, and for one whose size is smaller than its header */
    uint64_t header_length; /* 8 or 16: the distance from its position to its content */
    uint32_t code;          /* the four characters of its code, the first in the highest byte */
    uint8_t is_whole;       /* 1 if the file has all its bytes, and its size counts its header; else 0 */
};

/* A sample of a track. Times are in the timescale of the media, which its mdhd has. */
struct mp4_sample {
    uint64_t offset;          /* of its first byte, from the front of the file; the file may end before the sample */
    uint64_t decode_time;     /* the sum of the durations of the samples before it */
    int64_t rendering_offset; /* the composition time minus the decode time; 0 without ctts */
    uint32_t size;            /* in bytes */
    uint32_t duration;
    uint32_t description; /* the index of the sample entry in stsd, counted from 1 */
    uint32_t chunk;       /* counted from 1; in a fragment the number of the run */
    uint8_t sync;         /* 1 for a sync sample, else 0; without stss each sample is one */
};

/* The fields of a table, without its entries. */
struct mp4_table {
    size_t count;    /* the number of entries */
    uint32_t flags;  /* the 24 bits of the box's flags */
    uint8_t version; /* the box's version */
};

/* The fields of an stsz box, without the sizes. If sample_size is 0, each sample has its own size in the array, and
   count is sample_count. Else all samples have this size, and the array is empty. */
struct mp4_stsz_table {
    size_t count;
    uint32_t flags;
    uint32_t sample_size;  /* in bytes */
    uint32_t sample_count; /* the number of samples of the track */
    uint8_t version;
};

/* A run of consecutive samples with the same duration. */
struct mp4_stts_row {
    uint32_t sample_count;
    uint32_t sample_delta; /* in the timescale of the media */
};

/* A run of consecutive samples with the same composition offset. */
struct mp4_ctts_row {
    uint32_t sample_count;
    int32_t sample_offset; /* in the timescale of the media; signed in every version */
};

/* A run of consecutive chunks that have the same number of samples each. Chunks, sample entries and samples count from
   1. */
struct mp4_stsc_row {
    uint32_t first_chunk;
    uint32_t samples_per_chunk;
    uint32_t sample_description_index;
    uint32_t first_sample; /* of the run; it is computed, the bytes don't have it */
};

/* An edit. An empty edit has the largest media_time of its width: 2^64 - 1 in version 1, else 2^32 - 1. */
struct mp4_elst_row {
    uint64_t segment_duration; /* in the timescale of the movie */
    uint64_t media_time;       /* in the timescale of the media */
    uint16_t media_rate;
    uint16_t media_rate_fraction;
};

/* The fields of a trun box, without its samples. Its flags say which fields it has: 0x1 a data_offset, 0x4
   first_sample_flags, and for each sample 0x100 a duration, 0x200 a size, 0x400 flags, 0x800 a composition_offset.
   Fields that it doesn't have are 0. If it has no fields for each sample, count is 0; else count is sample_count. */
struct mp4_trun_table {
    size_t count;
    uint32_t flags;
    uint32_t sample_count;
    int32_t data_offset; /* in bytes from the base data offset of the fragment */
    uint32_t first_sample_flags;
    uint8_t version;
};

/* The fields that a trun box has for one sample. */
struct mp4_trun_row {
    uint32_t duration; /* in the timescale of the media */
    uint32_t size;     /* in bytes */
    uint32_t flags;
    uint32_t composition_offset; /* signed in version 1, as two's complement */
};

/* The headers of a movie and of its fragments. Each has its version and 24 bits of flags. The version decides how many
   bits a time has where a comment says so. Times of creation and modification are in seconds since the beginning of
   1904, UTC. A number "times 256" or "times 65536" is a fixed-point number: divide it. */

/* mvhd (8.2.2): properties of the whole movie. */
struct mp4_mvhd_box {
    uint64_t creation_time; /* 32 bits in version 0, like the next two */
    uint64_t modification_time;
    uint64_t duration; /* of the longest track, in the timescale */
    uint32_t flags;
    uint32_t timescale;     /* units per second */
    uint32_t rate;          /* of playback, times 65536: 0x10000 is normal speed */
    int32_t matrix[9];      /* a, b, u, c, d, v, x, y, w, times 65536, but u, v and w times 2^30 */
    uint32_t next_track_id; /* a number that no track has */
    uint16_t volume;        /* times 256: 0x100 is full */
    uint8_t version;        /* 0 or 1 */
};

/* tkhd (8.3.2): properties of a track. */
struct mp4_tkhd_box {
    uint64_t creation_time; /* 32 bits in version 0, like the next two */
    uint64_t modification_time;
    uint64_t duration; /* in the timescale of the movie */
    uint32_t flags;    /* 0x1: enabled, 0x2: in the movie, 0x4: in the preview, 0x8: the size is an aspect ratio */
    uint32_t track_id;
    int32_t matrix[9]; /* as in mvhd */
    uint32_t width;    /* of the video on screen, in pixels times 65536 */
    uint32_t height;
    int16_t layer;           /* tracks with a lower layer cover those with a higher one */
    int16_t alternate_group; /* a player plays one track of a group; 0: no group */
    uint16_t volume;         /* times 256 */
    uint8_t version;         /* 0 or 1 */
};

/* mdhd (8.4.2): properties of the media of a track. */
struct mp4_mdhd_box {
    uint64_t creation_time; /* 32 bits in version 0, like the next two */
    uint64_t modification_time;
    uint64_t duration; /* in the timescale */
    uint32_t flags;
    uint32_t timescale; /* units per second */
    char language[4];   /* three letters of ISO 639-2/T and a zero; the five low bits of each letter are written */
    uint8_t version;    /* 0 or 1 */
};

/* mehd (8.8.2): the duration of a movie with fragments. */
struct mp4_mehd_box {
    uint64_t fragment_duration; /* in the timescale of the movie; 32 bits in version 0 */
    uint32_t flags;
    uint8_t version; /* 0 or 1 */
};

/* mfhd (8.8.5): the number of a fragment. */
struct mp4_mfhd_box {
    uint32_t flags;
    uint32_t sequence_number;
    uint8_t version;
};

/* smhd (12.2.2): the balance between left and right. */
struct mp4_smhd_box {
    uint32_t flags;
    int16_t balance; /* times 256: -0x100 is full left, 0 the centre */
    uint8_t version;
};

/* vmhd (12.1.2): how video is composed with what is below it. */
struct mp4_vmhd_box {
    uint32_t flags;         /* 1 in the standard */
    uint16_t graphics_mode; /* 0: the video covers what is below it */
    uint16_t red;           /* the colour that other modes use */
    uint16_t green;
    uint16_t blue;
    uint8_t version;
};

/* trex (8.8.3): the defaults for the samples of a track's fragments. */
struct mp4_trex_box {
    uint32_t flags;
    uint32_t track_id;
    uint32_t default_sample_description_index; /* of a sample entry, counted from 1 */
    uint32_t default_sample_duration;          /* in the timescale of the media */
    uint32_t default_sample_size;              /* in bytes */
    uint32_t default_sample_flags;
    uint8_t version;
};

/* tfdt (8.8.12): the time at which the first sample of a track fragment is decoded. */
struct mp4_tfdt_box {
    uint64_t base_media_decode_time; /* in the timescale of the media; 32 bits in version 0 */
    uint32_t flags;
    uint8_t version; /* 0 or 1 */
};

/* tfhd (8.8.7): the track of a fragment, and defaults for its samples. Its flags say which fields it has. A field that
   it doesn't have is read as 0, and not written. */
struct mp4_tfhd_box {
    uint64_t base_data_offset; /* with the flag 0x1: what data offsets are counted from, in bytes */
    uint32_t flags;
    uint32_t track_id;
    uint32_t sample_description_index; /* with 0x2: of a sample entry, counted from 1 */
    uint32_t default_sample_duration;  /* with 0x8: in the timescale of the media */
    uint32_t default_sample_size;      /* with 0x10: in bytes */
    uint32_t default_sample_flags;     /* with 0x20 */
    uint8_t version;
};

/* The boxes of strings and references. `count` is the number of elements of the array that belongs to the struct. */

/* ftyp (4.3): the brands of a file. A code is a number, the first character in the highest byte: 'isom' is 0x69736F6D.
 */
struct mp4_ftyp_box {
    size_t count; /* of compatible brands */
    uint32_t major_brand;
    uint32_t minor_version; /* of the major brand */
};

/* hdlr (8.4.3): the kind of media of a track. */
struct mp4_hdlr_box {
    size_t count; /* of bytes of the name */
    uint32_t flags;
    uint32_t handler_type; /* a code: 'vide' is 0x76696465, 'soun' 0x736F756E */
    uint8_t version;
};

/* data (QuickTime's metadata): the value of a metadata item. */
struct mp4_data_box {
    size_t count;       /* of bytes of the value */
    uint32_t data_type; /* 0: binary, 1: UTF-8, 13: JPEG, 21: a whole number */
};

/* url (8.7.2): the location of media data. */
struct mp4_url_box {
    size_t count;   /* of bytes of the location */
    uint32_t flags; /* 1: in the same file */
    uint8_t version;
};

/* dref (8.7.2), also in a dinf (8.7.1): the data references of a track, of which the codec keeps the last url. */
struct mp4_dref_box {
    struct mp4_url_box url; /* zeros without one */
    uint32_t flags;
    uint8_t version;
    uint8_t has_url; /* 0 or 1; each number except 0 is written as 1 */
};

/* emsg (ISO/IEC 23009-1, 5.10.3.3): an event message. The three counts are those of three arrays of bytes. */
struct mp4_emsg_box {
    size_t scheme_id_uri_count;
    size_t value_count;
    size_t message_data_count;
    uint64_t presentation_time;       /* in version 1: from the start of the presentation, in the timescale; else 0 */
    uint32_t presentation_time_delta; /* in version 0: from the start of the segment, in the timescale; else 0 */
    uint32_t timescale;               /* units per second */
    uint32_t event_duration;          /* in the timescale */
    uint32_t id;
    uint32_t flags;
    uint8_t version; /* 0 or 1: the time of the other version isn't written */
};

/* The sample entries, and the boxes in them. Resolutions are in pixels per inch. */

/* avcC (ISO/IEC 14496-15, 5.3.3.1): the configuration of an AVC decoder. Its parameter sets are in two arrays. One has
   their lengths: first those of the sequence sets, then those of the picture sets. The other has their bytes, one set
   after the other. */
struct mp4_avcc_box {
    size_t sequence_count; /* of sequence sets: at most 31 are written */
    size_t picture_count;  /* of picture sets: at most 255 are written */
    size_t set_bytes;      /* of all sets together; no effect when the box is written */
    uint8_t configuration_version;
    uint8_t avc_profile_indication;
    uint8_t profile_compatibility;
    uint8_t avc_level_indication;
    uint8_t
        length_size_minus_one; /* 0 to 3: of the length before each unit of a sample; the two low bits are written */
};

/* The fields of a visual sample entry (12.1.3), in avc1 and hev1. */
struct mp4_visual {
    uint32_t horizresolution; /* times 65536: usually 0x480000 */
    uint32_t vertresolution;
    uint16_t data_reference_index;
    uint16_t width; /* in pixels */
    uint16_t height;
    uint16_t frame_count; /* of a sample, usually 1 */
    uint16_t depth;       /* bits of a pixel, usually 24 */
};

/* avc1 (ISO/IEC 14496-15, 5.4.2): AVC video. */
struct mp4_avc1_box {
    struct mp4_avcc_box avcc;
    struct mp4_visual visual;
};

/* hvcC (ISO/IEC 14496-15, 8.3.3.1): the configuration of an HEVC decoder. The codec reads and writes only
   this field. */
struct mp4_hvcc_box {
    uint8_t configuration_version;
};

/* hev1 (ISO/IEC 14496-15, 8.4.1): HEVC video. */
struct mp4_hev1_box {
    struct mp4_visual visual;
    struct mp4_hvcc_box hvcc;
};

/* vpcC (VP Codec ISO Media File Format Binding): the configuration of a VP9 decoder. */
struct mp4_vpcc_box {
    uint32_t flags;
    uint16_t codec_initialization_data_size; /* 0 for VP9; the codec neither reads nor writes such bytes */
    uint8_t version;                         /* 1 in the standard */
    uint8_t profile;
    uint8_t level;                 /* times 10 */
    uint8_t bit_depth;             /* below 16 */
    uint8_t chroma_subsampling;    /* below 8 */
    uint8_t video_full_range_flag; /* 0 or 1; each number except 0 is written as 1 */
    uint8_t color_primaries;
    uint8_t transfer_characteristics;
    uint8_t matrix_coefficients;
};

/* vp09 (VP Codec ISO Media File Format Binding): VP9 video. The codec keeps the reserved bytes as they are. */
struct mp4_vp09_box {
    struct mp4_vpcc_box vpcc;
    uint32_t flags;      /* the second to the fourth of the six reserved bytes of a sample entry */
    uint16_t start_code; /* the last two of them */
    uint16_t data_reference_index;
    uint16_t width; /* in pixels */
    uint16_t height;
    uint16_t horizresolution[2]; /* the whole part, and the fraction in units of 1/65536 */
    uint16_t vertresolution[2];
    uint16_t frame_count; /* of a sample, usually 1 */
    uint16_t depth;       /* bits of a pixel, usually 24 */
    uint16_t end_code;    /* 0xFFFF in the standard */
    uint8_t version;      /* the first of the six reserved bytes */
    uint8_t reserved0[16];
    uint8_t reserved1[4];
    uint8_t compressorname[32]; /* the number of its bytes, the name, and zeros */
};

/* tx3g (3GPP TS 26.245, 5.16): timed text. */
struct mp4_tx3g_box {
    uint32_t display_flags;
    uint16_t data_reference_index;
    int16_t box_record[4];           /* top, left, bottom and right, in pixels */
    int8_t horizontal_justification; /* 0: left, 1: centre, -1: right */
    int8_t vertical_justification;   /* 0: top, 1: centre, -1: bottom */
    uint8_t bg_color_rgba[4];        /* red, green, blue and opacity */
    uint8_t style_record[12];
};

/* esds (ISO/IEC 14496-14, 5.6): the descriptors of MPEG-4 audio. */
struct mp4_esds_box {
    uint32_t flags;
    uint32_t buffer_size_db; /* in bytes, below 2^24 */
    uint32_t max_bitrate;    /* in bits per second */
    uint32_t avg_bitrate;
    uint32_t sample_rate; /* in hertz, below 2^24, if freq_index is 15; else 0, and not written */
    uint16_t es_id;
    uint8_t version;
    uint8_t object_type_indication; /* 0x40: MPEG-4 audio */
    uint8_t stream_type;            /* below 64; 5: audio */
    uint8_t up_stream;              /* 0 or 2; only the bit 2 is written */
    uint8_t profile;                /* the audio object type: 0 to 95, except 31; 2: AAC LC */
    uint8_t freq_index;             /* below 16 */
    uint8_t chan_conf;              /* below 16 */
};

/* mp4a (ISO/IEC 14496-14, 5.6): MPEG-4 audio. */
struct mp4_mp4a_box {
    struct mp4_esds_box esds; /* zeros without one */
    uint32_t samplerate;      /* in hertz, times 65536 */
    uint16_t data_reference_index;
    uint16_t channelcount;
    uint16_t samplesize; /* bits of a sample */
    uint8_t has_esds;    /* 0 or 1; each number except 0 is written as 1 */
};

/* stsd (8.5.2): the first sample entry of a track, if it is of one of these five types. Its fields are in the member
   with its name; the other members are zeros. */
struct mp4_stsd_box {
    struct mp4_avc1_box avc1;
    struct mp4_hev1_box hev1;
    struct mp4_vp09_box vp09;
    struct mp4_mp4a_box mp4a;
    struct mp4_tx3g_box tx3g;
    uint32_t flags;
    uint32_t entry; /* its code: 0x61766331, 0x68657631, 0x76703039, 0x6D703461 or 0x74783367; 0: no entry */
    uint8_t version;
};

/* A box as a walk reports it. Positions and lengths are in bytes. */
struct mp4_box {
    uint64_t position;      /* of its header in the file */
    uint64_t length;        /* including the header, as the header states it; without a box, what is left */
    uint64_t header_length; /* 8 or 16; without a box, what is left of the content */
    uint64_t children;      /* the position of the first box inside, if the walk enters this box; else 0 */
    uint64_t depth;         /* the number of boxes around it */
    uint32_t code;          /* the four characters of its code; 0 if the file ends before them */
    uint32_t parent;        /* the code of the enclosing box; 0 at the top level */
    uint32_t handler;       /* of the enclosing media, as an earlier hdlr says; else 0 */
    uint8_t what;           /* MP4_LEAF to MP4_NO_HEADER */
    uint8_t stsd_version;   /* the version of the enclosing box if it is an stsd, else 0 */
};

/* The state of a box, or of the place where one should begin. */
enum {
    MP4_LEAF = 0,     /* a whole box; the walk knows no boxes inside */
    MP4_PARENT = 1,   /* a whole box that holds boxes: the walk reports them next */
    MP4_TOO_DEEP = 2, /* a whole box that holds boxes, inside 32 others: the walk skips them */
    MP4_CUT = 3,      /* a box that ends after what is around it: the walk reports the boxes inside that are present */
    MP4_SMALL = 4,    /* a size that is smaller than the header */
    MP4_NO_HEADER = 5 /* fewer bytes than a header has */
};

/* The state of a walk. A caller reads `position` and `wanted`, and changes nothing. */
struct mp4_walk_level {
    uint64_t end;
    uint32_t parent;
    uint32_t handler;
    uint8_t stsd_version;
};
struct mp4_walk {
    uint64_t position; /* of the next box in the file, where the wanted bytes begin */
    uint64_t wanted;   /* the number of wanted bytes: at most 28, and 0 after the last box */
    uint64_t length;   /* of the file */
    uint64_t count;
    struct mp4_walk_level levels[33];
};

/* Faults and tracks of a file. Their texts are in an array of bytes, one after the other, as UTF-8 without zeros. */

/* A part of such an array. */
struct mp4_text_part {
    size_t position; /* of its first byte in the array */
    size_t length;   /* the number of its bytes */
};

/* The code of a fault. docs/CHECK.md explains each. The numbers never change. The last two are those of `mp4inspect
   check --media`, which looks at samples; mp4_check_file doesn't. */
enum {
    MP4_FAULT_NOT_MP4 = 1,
    MP4_FAULT_FILE_CUT = 2,
    MP4_FAULT_BOX_CUT = 3,
    MP4_FAULT_BOX_TOO_SMALL = 4,
    MP4_FAULT_BOX_INVALID = 5,
    MP4_FAULT_BOX_REPEATED = 6,
    MP4_FAULT_BOX_MISSING = 7,
    MP4_FAULT_SIZES_UNLISTED = 8,
    MP4_FAULT_AVC_WITHOUT_SETS = 9,
    MP4_FAULT_MOVIE_MISSING = 10,
    MP4_FAULT_TRACK_ID_ZERO = 11,
    MP4_FAULT_TRACK_ID_REPEATED = 12,
    MP4_FAULT_TRACK_ID_UNKNOWN = 13,
    MP4_FAULT_TABLES_DISAGREE = 14,
    MP4_FAULT_CHUNK_OUTSIDE_MEDIA = 15,
    MP4_FAULT_CHUNKS_OVERLAP = 16,
    MP4_FAULT_MEDIA_DURATION = 17,
    MP4_FAULT_TRACK_DURATION = 18,
    MP4_FAULT_MOVIE_DURATION = 19,
    MP4_FAULT_RUN_OUTSIDE_MEDIA = 20,
    MP4_FAULT_DECODE_TIME_BACK = 21,
    MP4_FAULT_INDEX_SIZES = 22,
    MP4_FAULT_NAL_UNITS_MISFIT = 23,
    MP4_FAULT_PCM_FRAMES_CUT = 24
};

/* The severity of a fault. */
enum {
    MP4_ERROR = 1,  /* a player fails, or leaves something out */
    MP4_WARNING = 2 /* the standard is broken, and players cope */
};

/* A fault of a file. */
struct mp4_fault {
    uint64_t position;         /* of the box that has the fault; 0 if no box has it */
    struct mp4_text_part path; /* of that box, such as moov/trak[1]/tkhd */
    struct mp4_text_part text; /* what is wrong, for people; it may change */
    uint32_t code;             /* MP4_FAULT_NOT_MP4 to MP4_FAULT_PCM_FRAMES_CUT */
    uint32_t severity;         /* MP4_ERROR or MP4_WARNING */
};

/* The numbers of elements of two arrays: faults, and bytes of their texts. */
struct mp4_fault_table {
    size_t count;
    size_t text_bytes;
};

/* The reason why a JSON text is not that of a box. The numbers never change. docs/FIELDS.md has the rules. */
enum {
    MP4_JSON_NOT_JSON = 1, /* the text isn't JSON in UTF-8 */
    MP4_JSON_NOT_OBJECT = 2,
    MP4_JSON_NOT_ARRAY = 3,
    MP4_JSON_NOT_WHOLE = 4, /* it isn't a whole number that the field can have */
    MP4_JSON_NOT_NUMBER = 5,
    MP4_JSON_NOT_TEXT = 6,
    MP4_JSON_NOT_HEX = 7,
    MP4_JSON_NOT_CODE = 8,
    MP4_JSON_OUT_OF_RANGE = 9,
    MP4_JSON_NO_VERSION = 10, /* the box doesn't have the version */
    MP4_JSON_WRONG_LENGTH = 11,
    MP4_JSON_TOO_MANY = 12, /* the field can't count the entries */
    MP4_JSON_WRONG_COUNT = 13,
    MP4_JSON_ZERO_BYTE = 14,
    MP4_JSON_UNKNOWN = 15, /* the box has no such field */
    MP4_JSON_TWICE = 16,
    MP4_JSON_MISSING = 17,
    MP4_JSON_CONTRADICTION = 18, /* it isn't what follows from the field */
    MP4_JSON_NOT_KEPT = 19       /* the box keeps only one of several members */
};

/* A fault of a JSON text. */
struct mp4_json_fault {
    struct mp4_text_part path; /* of the member, such as references[3].SAP_type; empty for the whole text */
    struct mp4_text_part text; /* what is wrong, for people; it may change */
    size_t text_bytes;         /* the number of bytes of both texts */
    uint32_t reason;           /* MP4_JSON_NOT_JSON to MP4_JSON_NOT_KEPT, or 0 if there is no fault */
};

/* The samples of a track, in its tables and its fragments. The largest number stands for all larger ones. */
struct mp4_track_samples {
    uint64_t sample_count;
    uint64_t key_frames;
    uint64_t bytes;    /* of all samples */
    uint64_t end;      /* the time at which the last sample ends, in the timescale */
    uint64_t bit_rate; /* bits of a second, on average; 0 in no time */
    uint64_t frames;   /* `frames` / `frame_units` frames in a second; both are 0 without a rate */
    uint64_t frame_units;
    uint8_t is_constant; /* 1 if all distances between frames are equal, 0 if the rate is an average */
};

/* The pictures of a track. */
struct mp4_track_picture {
    uint16_t width; /* in pixels, as the sample entry has it */
    uint16_t height;
    uint32_t h_spacing; /* the shape of a pixel, width to height; zeros if it is not stated */
    uint32_t v_spacing;
    uint16_t rotation;    /* degrees clockwise: 0, 90, 180 or 270 */
    uint8_t has_rotation; /* 1 if the matrix of the track is a turn by `rotation`; 0 if it does something else */
};

/* The sound of a track. */
struct mp4_track_sound {
    uint64_t sample_rate;  /* in whole hertz */
    uint32_t channels;     /* of the full range */
    uint32_t low_channels; /* of low frequencies: 5.1 is 5 and 1 */
};

/* The encryption of a track (ISO/IEC 23001-7). */
struct mp4_track_protection {
    uint32_t original; /* the code of the sample entry before it was encrypted; that of the entry if it is clear, or if
                          this is not known */
    uint32_t scheme;   /* a code: 'cenc' is 0x63656E63 */
    uint8_t kid[16];   /* the default KID */
    uint8_t is_encrypted;
    uint8_t has_kid; /* 1 if `kid` is known */
};

/* A track of the first moov. A number or a code that is not known is 0, and a text is then empty. */
struct mp4_track_info {
    struct mp4_text_part kind;     /* video, audio, subtitles, ..: a word for the handler, if there is one */
    struct mp4_text_part codec;    /* as web pages name it (RFC 6381), such as avc1.64001f */
    struct mp4_text_part language; /* a tag such as de-CH, or three letters such as deu; any bytes in a bad file */
    struct mp4_track_samples samples;
    uint64_t duration;       /* in ticks, by the edits: `duration` / `duration_scale` seconds */
    uint64_t duration_scale; /* ticks of a second; 0 if the duration is not known */
    struct mp4_track_sound sound;
    struct mp4_track_picture picture;
    uint32_t track_id;
    uint32_t handler;   /* a code: 'vide' is 0x76696465, 'soun' 0x736F756E */
    uint32_t timescale; /* of the media */
    uint32_t entry;     /* the code of the first sample entry */
    struct mp4_track_protection protection;
    uint8_t has_samples; /* 1 if the tables could be read */
    uint8_t has_picture; /* 1 if there is a sample entry, and the media have pictures */
    uint8_t has_sound;   /* 1 if there is a sample entry, and the media are sound */
};

/* The place of the first moov. */
enum {
    MP4_ORDER_UNKNOWN = 0, /* there is no moov or no mdat */
    MP4_MOOV_FIRST = 1,    /* it is before the first mdat */
    MP4_MOOV_LAST = 2      /* it is after the first mdat */
};

/* The facts of a file. The counts are those of three arrays: its brands, of which the major brand is the first, its
   tracks, and the bytes of their texts. */
struct mp4_file_info {
    size_t brand_count;
    size_t track_count;
    size_t text_bytes;
    uint64_t length;       /* of the file, in bytes */
    uint64_t milliseconds; /* the duration of the longest track */
    uint8_t is_fragmented; /* 1 if the movie may have fragments, or the file has some */
    uint8_t has_movie;     /* 1 if there is a moov with an mvhd; it is progressive unless the file is fragmented */
    uint8_t has_items;     /* 1 if the file has pictures or other items, as HEIF */
    uint8_t order;         /* MP4_ORDER_UNKNOWN, MP4_MOOV_FIRST or MP4_MOOV_LAST */
};

/* New files: what mp4remux writes, as pieces. A caller copies them one after the other, so that the library never holds
   the media data. */

/* A piece of a new file: bytes of the old file, or new bytes. All of them are present. */
struct mp4_piece {
    uint64_t position; /* of its first byte, in the old file or in the array of the new bytes */
    uint64_t length;   /* the number of its bytes */
    uint8_t is_new;    /* 1 if it is in the array of the new bytes, 0 if it is in the old file */
};

/* The numbers of elements of three arrays, and what was done. After MP4_REFUSED only `text_bytes` is not 0, and else
   only that is 0. A number that doesn't belong to the function is 0. */
struct mp4_new_file {
    size_t piece_count;
    size_t new_bytes;
    size_t text_bytes;   /* of the reason why there is no new file */
    uint64_t length;     /* of the new file: the sum of the lengths of its pieces */
    uint64_t fragments;  /* mp4_fragment: that are made; mp4_defragment: that are joined */
    uint64_t samples;    /* mp4_defragment: in the new tables; mp4_cut: in the part */
    uint64_t moved_from; /* mp4_faststart: the position of the moov in the old file */
    uint64_t moved_to;   /* mp4_faststart: its position in the new file; both are 0 if the new file is a copy */
};

/* The kind of a change. A path is that of mp4_find. A track is that with the track_ID. */
enum {
    MP4_CHANGE_REMOVE = 1,     /* removes the box at `path` */
    MP4_CHANGE_INSERT = 2,     /* inserts the boxes `bytes` before box `number` of those in the box at `path`, counted
                                  from 0, or after the last one if it is MP4_LAST; the path "/" stands for the file */
    MP4_CHANGE_REPLACE = 3,    /* replaces the box at `path` by the box `bytes` */
    MP4_CHANGE_BRANDS = 4,     /* sets the major brand to the first of the codes `bytes`, of four bytes each, and adds
                                  those that are missing to the compatible brands */
    MP4_CHANGE_LANGUAGE = 5,   /* sets the language of a track to the three letters `bytes`, such as deu */
    MP4_CHANGE_ROTATE = 6,     /* turns the pictures of a track clockwise by `value` degrees: 0, 90, 180 or 270 */
    MP4_CHANGE_ENABLE = 7,     /* enables a track if `value` is 1, and disables it if that is 0 */
    MP4_CHANGE_NO_TAGS = 8,    /* removes the tags of the movie */
    MP4_CHANGE_TAG = 9,        /* sets the tag with the code `value`, such as MP4_TITLE, to the text `bytes` as UTF-8 */
    MP4_CHANGE_COVER = 10,     /* sets the cover to the picture `bytes`, a JPEG or PNG */
    MP4_CHANGE_DROP_TRACK = 11 /* drops a track, with its samples in fragments */
};

/* The `number` of an insertion after the last box. */
#define MP4_LAST ((uint64_t)-1)

/* The code of the tag of a title. */
#define MP4_TITLE MP4_CODE(0xA9, 'n', 'a', 'm')

/* A change of a file. Its kind says which fields it has; the others are not read. `path` and `bytes` are parts of the
   array `data`. */
struct mp4_change {
    struct mp4_text_part path;
    struct mp4_text_part bytes;
    uint64_t number;
    uint32_t kind; /* MP4_CHANGE_REMOVE to MP4_CHANGE_DROP_TRACK */
    uint32_t track_id;
    uint32_t value;
};

/* The options of mp4_fragment. */
struct mp4_fragment_options {
    uint64_t least; /* nanoseconds that each fragment but the last has at least; 0: a video is cut at each sync sample,
                       and other media every two seconds */
    uint8_t has_sidx; /* 1 for a sidx before the fragments */
    uint8_t has_mfra; /* 1 for an mfra after the fragments */
    uint8_t has_styp; /* 1 for a styp before each fragment, so that it can be a separate file */
};

/*
 * Files and streams: whole files, and boxes of any type. A fault is MP4_END_OF_INPUT, MP4_INVALID_DATA,
 * MP4_BOX_NOT_FOUND or MP4_OUT_OF_MEMORY.
 */

/* Reads all boxes from the front of the bytes to their end. It skips boxes of types that the codec doesn't read, so it
   doesn't look into a moov: call it with the content of such a box to check the boxes inside.
   Needs: `length` bytes at `bytes`.
   Returns: MP4_OK, or the fault of the first box that has one.
   Leaves: nothing. */
uint32_t mp4_check(const uint8_t *bytes, size_t length);

/* Lists the boxes at the top level of the bytes, in their order. It reads only their headers. The children of a box are
   the boxes of its content.
   Needs: `length` bytes at `bytes`, and `places` places at `spans`.
   Returns: MP4_OK, MP4_NO_ROOM or the fault of the first header that has one.
   Leaves: the boxes in `spans` and their number in `count`. */
uint32_t mp4_list(const uint8_t *bytes, size_t length, struct mp4_span *spans, size_t places, size_t *count);

/* Writes the boxes of the bytes in their normal form. Boxes of types that the codec doesn't read stay as they are.
   Needs: `length` bytes at `bytes`, and `places` places at `out`.
   Returns: MP4_OK, MP4_NO_ROOM or the fault of the first box that has one; also MP4_INVALID_DATA if a box that was read
   is too large for a size of 32 bits.
   Leaves: the bytes in `out` and their number in `count`. */
uint32_t mp4_normal(const uint8_t *bytes, size_t length, uint8_t *out, size_t places, size_t *count);

/* A text of a program as the two arguments that mp4_find takes. */
#define MP4_TEXT(text) ((const uint8_t *)("" text)), (sizeof(text) - 1)

/* Finds the box at a path. A path is codes of four characters with '/' between them, such as moov/trak[1]/mdia/mdhd.
   The number in brackets selects one of the boxes with the same code. Numbers count from 0; no number means 0.
   Needs: the bytes of a file, and a path as UTF-8 without a zero after it, such as MP4_TEXT("moov/trak").
   Returns: MP4_OK; MP4_BOX_NOT_FOUND if there is no such box or its header isn't whole; MP4_INVALID_DATA if the text is
   not a path; MP4_OUT_OF_MEMORY.
   Leaves: the box in `place`, which also has a box that isn't whole. */
uint32_t mp4_find(const uint8_t *bytes, size_t length, const uint8_t *path, size_t path_length,
                  struct mp4_place *place);

/* Writes the fields of the box at the front of the bytes as the text of a JSON object (RFC 8259), like `mp4inspect
   --json`. It reads all boxes for which there is a function, such as mp4_mvhd. It also reads alac, alis, auxC, av1C,
   btrt, chan, chnl, clap, clli, colr, cslg, dac3, dec3, dfLa, dOps, dvcC, dvvC, elng, enda, fiel, frma, ftab, gmin,
   hmhd, iloc, imir, infe, iods, ipma, irot, ispe, keys, kind, leva, mdcv, mean, mfro, name, nmhd, pasp, pitm, pixi,
   prft, pssh, saio, saiz, sbgp, schm, sdtp, senc, sgpd, sidx, srat, ssix, sthd, stpp, styp, stz2, subs, tcmi, tenc,
   text, tfra, tref, urn, vvcC and wvtt. It sees only the code of a box. So it also reads other boxes as these: an alac
   in an stsd, a text outside of a gmhd, a mean or a name outside of a ----. Fields have the names of the standards. A
   number may have 64 bits. A code of four characters is a text, with a character for the number of each byte. Bytes are
   a text of hexadecimal digits. A fixed-point number is a number with a fraction. Texts have U+FFFD for each part that
   is not UTF-8.
   Needs: a whole box at the front of `bytes`, and `places` places at `text`.
   Returns: MP4_OK, MP4_NO_ROOM or a fault; MP4_UNKNOWN_BOX for a box of another type, whether it is whole or not.
   Leaves: the text in `text`, as UTF-8 without a zero after it, and the number of its bytes in `count`. */
uint32_t mp4_fields(const uint8_t *bytes, size_t length, uint8_t *text, size_t places, size_t *count);

/* Writes the box of a code whose fields a JSON object has, under the names of mp4_fields and in any order. Counts of
   lists and meanings of numbers may be left out.
   Needs: `json_length` bytes at `json`, the text of the object in UTF-8, and `places` places at `bytes`.
   Returns: MP4_OK or MP4_NO_ROOM; MP4_INVALID_DATA if the text isn't that of such a box, or the box would have 2^32
   bytes or more; MP4_UNKNOWN_BOX if mp4_fields reads no boxes of this code; MP4_OUT_OF_MEMORY.
   Leaves: the box in `bytes`, beginning with its header, and the number of its bytes in `length`. */
uint32_t mp4_box_from_json(uint32_t code, const uint8_t *json, size_t json_length, uint8_t *bytes, size_t places,
                           size_t *length);

/* Reports why mp4_box_from_json refuses a text.
   Needs: `json_length` bytes at `json`, and `places` places at `text`.
   Returns: MP4_OK, also for a text without a fault; MP4_NO_ROOM; MP4_UNKNOWN_BOX; MP4_OUT_OF_MEMORY.
   Leaves: the first fault in `fault`, and its texts in `text`. Its reason is 0 if there is none. */
uint32_t mp4_check_json(uint32_t code, const uint8_t *json, size_t json_length, uint8_t *text, size_t places,
                        struct mp4_json_fault *fault);

/* A walk over the boxes of a file that isn't in memory. It reports each box and then the boxes inside, if the codec
   knows that the box holds boxes. A walk takes no memory and reads nothing itself: the caller reads the bytes that the
   walk wants.

       mp4_walk_begin(length, &walk);
       while (walk.wanted > 0) {
           (read walk.wanted bytes at walk.position of the file)
           status = mp4_walk_next(bytes, walk.wanted, &walk, &box);
       } */

/* Begins a walk over a file.
   Needs: the number of bytes of the file.
   Returns: MP4_OK.
   Leaves: the state of the walk in `walk`, which wants the bytes of the first box. */
uint32_t mp4_walk_begin(uint64_t length, struct mp4_walk *walk);

/* Reports the next box of a walk, and takes one step. The boxes are those of the file if the bytes are those of the
   file; `what` reports faults of the file.
   Needs: a walk as mp4_walk_begin or mp4_walk_next left it, which the function doesn't check; and the `wanted` bytes at
   its `position` of the file.
   Returns: MP4_OK; MP4_END_OF_INPUT if there are fewer bytes than the walk wants; MP4_BOX_NOT_FOUND after the last box.
   Leaves: the box in `box`, and the state after it in `walk`. */
uint32_t mp4_walk_next(const uint8_t *bytes, size_t length, struct mp4_walk *walk, struct mp4_box *box);

/* Lists the samples of the first track with this track_ID (8.3.2), by the tables stsz or stz2, stsc, stco or co64,
   stts, ctts and stss of its stbl. The sizes are those of stz2 only if there is no stsz. It doesn't list samples of
   fragments. If a file has two moovs, only the first has tracks.
   Needs: the bytes of a file or of its moov, and `places` places at `samples`.
   Returns: MP4_OK, MP4_NO_ROOM or MP4_OUT_OF_MEMORY; MP4_NO_TRACK; MP4_BOX_NOT_FOUND if the file has no moov, or the
   track lacks mdia, minf, stbl or a table that it has to have (a track without stsz, stz2 and chunks has no samples);
   MP4_END_OF_INPUT and MP4_INVALID_DATA for a box that can't be read, also if the sizes of stz2 have another number of
   bits than 4, 8 or 16, or are not all present; MP4_SAMPLE_SIZES_DISAGREE to MP4_OFFSETS_DISAGREE.
   Leaves: the samples in `samples` and their number in `count`. */
uint32_t mp4_samples(const uint8_t *bytes, size_t length, uint32_t track_id, struct mp4_sample *samples, size_t places,
                     size_t *count);

/* Lists the samples of all fragments of the first track with this track_ID, in the order of the file: those of each
   traf (8.8.6) whose tfhd has the track_ID, by its runs, the defaults of its tfhd and those of the trex of the track.
   Without a tfdt the times of a fragment continue those of the fragment before it; those of the first fragment begin
   where the samples of the track's tables end, by its stts. Offsets count from the base that the tfhd names, else from
   its moof, or from the end of the data of the traf before it in the moof. The number of samples is at most 2^64 - 1.
   Needs: the bytes of a file, and `places` places at `samples`.
   Returns: the statuses of mp4_samples; MP4_BOX_NOT_FOUND also if a traf has no tfhd, or a fragment of the track no
   trex; MP4_CHUNK_COUNT_DISAGREES, MP4_DURATIONS_DISAGREE and MP4_OFFSETS_DISAGREE for fragments, which it finds only
   if the array has enough places for the samples.
   Leaves: the samples in `samples` and their number in `count`. */
uint32_t mp4_fragment_samples(const uint8_t *bytes, size_t length, uint32_t track_id, struct mp4_sample *samples,
                              size_t places, size_t *count);

/* Lists the faults of a file that `mp4inspect check` finds, in its order: those of single boxes, of the tracks and of
   the movie, of the fragments and of the indexes, and that of a file without a movie.
   Needs: the bytes of a file, `places` places at `faults`, and `text_places` places at `text`.
   Returns: MP4_OK, also for a file without faults; MP4_NO_ROOM if one of the two arrays is too short;
   MP4_OUT_OF_MEMORY.
   Leaves: the faults in `faults`, their texts in `text`, and the numbers of both in `table`. */
uint32_t mp4_check_file(const uint8_t *bytes, size_t length, struct mp4_fault *faults, size_t places, uint8_t *text,
                        size_t text_places, struct mp4_fault_table *table);

/* Writes the word of the code of a fault, such as box-cut for MP4_FAULT_BOX_CUT.
   Needs: `places` places at `text`.
   Returns: MP4_OK or MP4_NO_ROOM.
   Leaves: the word in `text`, as ASCII characters without a zero after them, and their number in `count`: 0 if the
   number is no code. */
uint32_t mp4_fault_name(uint32_t code, uint8_t *text, size_t places, size_t *count);

/* Reports what `mp4inspect info` knows of a file and of its tracks. A box with a fault counts as missing, so call
   mp4_check_file for the reason if something is not known.
   Needs: the bytes of a file, `brand_places` places at `brands`, `track_places` places at `tracks`, and `text_places`
   places at `text`.
   Returns: MP4_OK; MP4_NO_ROOM if one of the three arrays is too short; MP4_OUT_OF_MEMORY.
   Leaves: the brands in `brands`, the tracks of the first moov in `tracks`, their texts in `text`, and the other facts
   with the numbers of elements in `file`. */
uint32_t mp4_info(const uint8_t *bytes, size_t length, uint32_t *brands, size_t brand_places,
                  struct mp4_track_info *tracks, size_t track_places, uint8_t *text, size_t text_places,
                  struct mp4_file_info *file);

/* Reports the version of the library.
   Needs: nothing.
   Returns: MP4_VERSION_NUMBER of the header that the library was built with, and no status.
   Leaves: nothing. */
uint32_t mp4_version(void);

/* Writes the meaning of a status in English.
   Needs: `places` places at `text`.
   Returns: MP4_OK or MP4_NO_ROOM.
   Leaves: the text in `text`, as ASCII characters without a zero after them, and their number in `count`. */
uint32_t mp4_status_text(uint32_t status, uint8_t *text, size_t places, size_t *count);

/*
 * New files: these functions plan what mp4remux writes, and copy no media data. docs/REMUX.md says what each keeps.
 *
 * Copy the pieces one after the other: those of the old file from the bytes that the call got, and the others from the
 * new bytes. The reason of a refusal is the line that mp4remux prints, as UTF-8 without a zero after it.
 */

/* Plans the file with its moov before its media data. Every offset leads to the same byte. If no media data are before
   the moov, the new file is a copy.
   Needs: the bytes of a file, `piece_places` places at `pieces`, `byte_places` places at `new_bytes`, and `text_places`
   places at `text`.
   Returns: MP4_OK; MP4_REFUSED; MP4_NO_ROOM if one of the three arrays is too short; MP4_OUT_OF_MEMORY.
   Leaves: the pieces in `pieces` and the new bytes in `new_bytes`, or after MP4_REFUSED the reason in `text`; and the
   numbers of elements in `file`. */
uint32_t mp4_faststart(const uint8_t *bytes, size_t length, struct mp4_piece *pieces, size_t piece_places,
                       uint8_t *new_bytes, size_t byte_places, uint8_t *text, size_t text_places,
                       struct mp4_new_file *file);

/* Plans the file with some changes. Every sample of every track is kept, except those of tracks that are dropped, and
   offsets lead to the same bytes. Paths and numbers are those of the file before all changes.
   Needs: the bytes of a file, `count` elements at `changes`, `data_length` bytes at `data`, and the arrays of
   mp4_faststart.
   Returns: the statuses of mp4_faststart; MP4_REFUSED also if a change is none: the reason then begins with its number,
   as in "change 0: this is not a path".
   Leaves: what mp4_faststart leaves. */
uint32_t mp4_edit(const uint8_t *bytes, size_t length, const struct mp4_change *changes, size_t count,
                  const uint8_t *data, size_t data_length, struct mp4_piece *pieces, size_t piece_places,
                  uint8_t *new_bytes, size_t byte_places, uint8_t *text, size_t text_places, struct mp4_new_file *file);

/* Plans the file with all samples in fragments, as players of DASH, HLS and Media Source Extensions need them.
   Needs: the bytes of a file with tables, options, and the arrays of mp4_faststart.
   Returns: the statuses of mp4_faststart.
   Leaves: what mp4_faststart leaves. */
uint32_t mp4_fragment(const uint8_t *bytes, size_t length, const struct mp4_fragment_options *options,
                      struct mp4_piece *pieces, size_t piece_places, uint8_t *new_bytes, size_t byte_places,
                      uint8_t *text, size_t text_places, struct mp4_new_file *file);

/* Plans the file with all samples in tables.
   Needs: the bytes of a file with fragments, and the arrays of mp4_faststart.
   Returns: the statuses of mp4_faststart.
   Leaves: what mp4_faststart leaves. */
uint32_t mp4_defragment(const uint8_t *bytes, size_t length, struct mp4_piece *pieces, size_t piece_places,
                        uint8_t *new_bytes, size_t byte_places, uint8_t *text, size_t text_places,
                        struct mp4_new_file *file);

/* Plans the part of a file between two times. It begins with the last sync sample of the first video that is presented
   at `from` or earlier, and edit lists hide what is presented before `from`.
   Needs: the bytes of a file, two times of the presentation in nanoseconds, and the arrays of mp4_faststart.
   Returns: the statuses of mp4_faststart; MP4_REFUSED also if `to` isn't after `from`.
   Leaves: what mp4_faststart leaves. */
uint32_t mp4_cut(const uint8_t *bytes, size_t length, uint64_t from, uint64_t to, struct mp4_piece *pieces,
                 size_t piece_places, uint8_t *new_bytes, size_t byte_places, uint8_t *text, size_t text_places,
                 struct mp4_new_file *file);

/*
 * Tables, read. The bytes begin with the header of the box, and the box has to be whole. Bytes after the box aren't
 * read, except for fields that the codec reads past the box's size. A box with another code is MP4_INVALID_DATA.
 */

/* Reads the sizes of the samples (8.7.3.2), in bytes.
   Needs: a whole stsz at the front of `bytes`, and `places` places at `sizes`.
   Returns: MP4_OK, MP4_NO_ROOM or a fault.
   Leaves: the elements in `sizes`, and their number and the other fields in `table`. */
uint32_t mp4_stsz(const uint8_t *bytes, size_t length, uint32_t *sizes, size_t places, struct mp4_stsz_table *table);

/* Reads the offsets of the chunks (8.7.5), in bytes from the front of the file.
   Needs: a whole stco at the front of `bytes`, and `places` places at `offsets`.
   Returns: MP4_OK, MP4_NO_ROOM or a fault.
   Leaves: the elements in `offsets`, and their number and the other fields in `table`. */
uint32_t mp4_stco(const uint8_t *bytes, size_t length, uint32_t *offsets, size_t places, struct mp4_table *table);

/* Reads the offsets of the chunks in 64 bits (8.7.5), in bytes from the front of the file.
   Needs: a whole co64 at the front of `bytes`, and `places` places at `offsets`.
   Returns: MP4_OK, MP4_NO_ROOM or a fault.
   Leaves: the elements in `offsets`, and their number and the other fields in `table`. */
uint32_t mp4_co64(const uint8_t *bytes, size_t length, uint64_t *offsets, size_t places, struct mp4_table *table);

/* Reads the numbers of the sync samples (8.6.2), counted from 1.
   Needs: a whole stss at the front of `bytes`, and `places` places at `samples`.
   Returns: MP4_OK, MP4_NO_ROOM or a fault.
   Leaves: the elements in `samples`, and their number and the other fields in `table`. */
uint32_t mp4_stss(const uint8_t *bytes, size_t length, uint32_t *samples, size_t places, struct mp4_table *table);

/* Reads the durations of the samples (8.6.1.2).
   Needs: a whole stts at the front of `bytes`, and `places` places at `rows`.
   Returns: MP4_OK, MP4_NO_ROOM or a fault.
   Leaves: the elements in `rows`, and their number and the other fields in `table`. */
uint32_t mp4_stts(const uint8_t *bytes, size_t length, struct mp4_stts_row *rows, size_t places,
                  struct mp4_table *table);

/* Reads the composition offsets of the samples (8.6.1.3).
   Needs: a whole ctts at the front of `bytes`, and `places` places at `rows`.
   Returns: MP4_OK, MP4_NO_ROOM or a fault.
   Leaves: the elements in `rows`, and their number and the other fields in `table`. */
uint32_t mp4_ctts(const uint8_t *bytes, size_t length, struct mp4_ctts_row *rows, size_t places,
                  struct mp4_table *table);

/* Reads the chunks of the samples (8.7.4).
   Needs: a whole stsc at the front of `bytes`, and `places` places at `rows`.
   Returns: MP4_OK, MP4_NO_ROOM or a fault.
   Leaves: the elements in `rows`, and their number and the other fields in `table`. */
uint32_t mp4_stsc(const uint8_t *bytes, size_t length, struct mp4_stsc_row *rows, size_t places,
                  struct mp4_table *table);

/* Reads the edits of a track (8.6.6).
   Needs: a whole elst at the front of `bytes`, and `places` places at `rows`.
   Returns: MP4_OK, MP4_NO_ROOM or a fault.
   Leaves: the elements in `rows`, and their number and the other fields in `table`. */
uint32_t mp4_elst(const uint8_t *bytes, size_t length, struct mp4_elst_row *rows, size_t places,
                  struct mp4_table *table);

/* Reads the samples of a run of a track fragment (8.8.8).
   Needs: a whole trun at the front of `bytes`, and `places` places at `rows`.
   Returns: MP4_OK, MP4_NO_ROOM or a fault.
   Leaves: the elements in `rows`, and their number and the other fields in `table`. */
uint32_t mp4_trun(const uint8_t *bytes, size_t length, struct mp4_trun_row *rows, size_t places,
                  struct mp4_trun_table *table);

/*
 * Headers, read. The bytes begin with the box, as for the tables.
 */

/* Reads the movie header (8.2.2).
   Needs: a whole mvhd at the front of `bytes`.
   Returns: MP4_OK or a fault.
   Leaves: the fields in `box`. */
uint32_t mp4_mvhd(const uint8_t *bytes, size_t length, struct mp4_mvhd_box *box);

/* Reads a track header (8.3.2).
   Needs: a whole tkhd at the front of `bytes`.
   Returns: MP4_OK or a fault.
   Leaves: the fields in `box`. */
uint32_t mp4_tkhd(const uint8_t *bytes, size_t length, struct mp4_tkhd_box *box);

/* Reads a media header (8.4.2).
   Needs: a whole mdhd at the front of `bytes`.
   Returns: MP4_OK or a fault.
   Leaves: the fields in `box`. */
uint32_t mp4_mdhd(const uint8_t *bytes, size_t length, struct mp4_mdhd_box *box);

/* Reads the duration of a movie with fragments (8.8.2).
   Needs: a whole mehd at the front of `bytes`.
   Returns: MP4_OK or a fault.
   Leaves: the fields in `box`. */
uint32_t mp4_mehd(const uint8_t *bytes, size_t length, struct mp4_mehd_box *box);

/* Reads the number of a fragment (8.8.5).
   Needs: a whole mfhd at the front of `bytes`.
   Returns: MP4_OK or a fault.
   Leaves: the fields in `box`. */
uint32_t mp4_mfhd(const uint8_t *bytes, size_t length, struct mp4_mfhd_box *box);

/* Reads the header of sound (12.2.2).
   Needs: a whole smhd at the front of `bytes`.
   Returns: MP4_OK or a fault.
   Leaves: the fields in `box`. */
uint32_t mp4_smhd(const uint8_t *bytes, size_t length, struct mp4_smhd_box *box);

/* Reads the header of video (12.1.2).
   Needs: a whole vmhd at the front of `bytes`.
   Returns: MP4_OK or a fault.
   Leaves: the fields in `box`. */
uint32_t mp4_vmhd(const uint8_t *bytes, size_t length, struct mp4_vmhd_box *box);

/* Reads the defaults of a track's fragments (8.8.3).
   Needs: a whole trex at the front of `bytes`.
   Returns: MP4_OK or a fault.
   Leaves: the fields in `box`. */
uint32_t mp4_trex(const uint8_t *bytes, size_t length, struct mp4_trex_box *box);

/* Reads the decode time of a track fragment (8.8.12).
   Needs: a whole tfdt at the front of `bytes`.
   Returns: MP4_OK or a fault.
   Leaves: the fields in `box`. */
uint32_t mp4_tfdt(const uint8_t *bytes, size_t length, struct mp4_tfdt_box *box);

/* Reads the header of a track fragment (8.8.7).
   Needs: a whole tfhd at the front of `bytes`.
   Returns: MP4_OK or a fault.
   Leaves: the fields in `box`. */
uint32_t mp4_tfhd(const uint8_t *bytes, size_t length, struct mp4_tfhd_box *box);

/*
 * Boxes of strings, references and sample entries, read. The bytes begin with the box, as for the tables. A string has
 * no zero after it. The number of elements of a list is known only after the list was read, so a call with arrays of 0
 * places takes as much memory as one that fills them.
 */

/* Reads the type of a file (4.3).
   Needs: a whole ftyp at the front of `bytes`, and `places` places at `brands`.
   Returns: MP4_OK, MP4_NO_ROOM or a fault.
   Leaves: the compatible brands in `brands`, and their number and the other fields in `box`. */
uint32_t mp4_ftyp(const uint8_t *bytes, size_t length, uint32_t *brands, size_t places, struct mp4_ftyp_box *box);

/* Reads the kind of media of a track (8.4.3).
   Needs: a whole hdlr at the front of `bytes`, and `places` places at `name`.
   Returns: MP4_OK, MP4_NO_ROOM or a fault.
   Leaves: the bytes of the name in `name`, and their number and the other fields in `box`. */
uint32_t mp4_hdlr(const uint8_t *bytes, size_t length, uint8_t *name, size_t places, struct mp4_hdlr_box *box);

/* Reads the value of a metadata item (QuickTime).
   Needs: a whole data at the front of `bytes`, and `places` places at `value`.
   Returns: MP4_OK, MP4_NO_ROOM or a fault.
   Leaves: the bytes of the value in `value`, and their number and the other fields in `box`. */
uint32_t mp4_data(const uint8_t *bytes, size_t length, uint8_t *value, size_t places, struct mp4_data_box *box);

/* Reads the location of media data (8.7.2).
   Needs: a whole 'url ' at the front of `bytes`, and `places` places at `location`.
   Returns: MP4_OK, MP4_NO_ROOM or a fault.
   Leaves: the bytes of the location in `location`, and their number and the other fields in `box`. */
uint32_t mp4_url(const uint8_t *bytes, size_t length, uint8_t *location, size_t places, struct mp4_url_box *box);

/* Reads the data references of a track (8.7.2).
   Needs: a whole dref at the front of `bytes`, and `places` places at `location`.
   Returns: MP4_OK, MP4_NO_ROOM or a fault.
   Leaves: the bytes of the location of the last url in `location`, and their number and the other fields in `box`. */
uint32_t mp4_dref(const uint8_t *bytes, size_t length, uint8_t *location, size_t places, struct mp4_dref_box *box);

/* Reads the data references in a dinf (8.7.1).
   Needs: a whole dinf at the front of `bytes`, and `places` places at `location`.
   Returns: MP4_OK, MP4_NO_ROOM or a fault; MP4_BOX_NOT_FOUND if it has no dref.
   Leaves: the bytes of the location of the last url in `location`, and their number and the other fields in `box`. */
uint32_t mp4_dinf(const uint8_t *bytes, size_t length, uint8_t *location, size_t places, struct mp4_dref_box *box);

/* Reads an event message (ISO/IEC 23009-1, 5.10.3.3).
   Needs: a whole emsg at the front of `bytes`, and the places that are given at the three arrays.
   Returns: MP4_OK, MP4_NO_ROOM if one of the three arrays is too short, or a fault.
   Leaves: the bytes of the strings and the message in the arrays, and their numbers and the other fields in `box`.
   After MP4_NO_ROOM all three arrays are as they were. */
uint32_t mp4_emsg(const uint8_t *bytes, size_t length, uint8_t *scheme_id_uri, size_t scheme_id_uri_places,
                  uint8_t *value, size_t value_places, uint8_t *message_data, size_t message_data_places,
                  struct mp4_emsg_box *box);

/* Reads the configuration of an HEVC decoder (ISO/IEC 14496-15, 8.3.3.1).
   Needs: a whole hvcC at the front of `bytes`.
   Returns: MP4_OK or a fault.
   Leaves: the fields in `box`. */
uint32_t mp4_hvcc(const uint8_t *bytes, size_t length, struct mp4_hvcc_box *box);

/* Reads a sample entry of HEVC video (ISO/IEC 14496-15, 8.4.1).
   Needs: a whole hev1 at the front of `bytes`.
   Returns: MP4_OK or a fault.
   Leaves: the fields in `box`. */
uint32_t mp4_hev1(const uint8_t *bytes, size_t length, struct mp4_hev1_box *box);

/* Reads the configuration of a VP9 decoder.
   Needs: a whole vpcC at the front of `bytes`.
   Returns: MP4_OK or a fault.
   Leaves: the fields in `box`. */
uint32_t mp4_vpcc(const uint8_t *bytes, size_t length, struct mp4_vpcc_box *box);

/* Reads a sample entry of VP9 video.
   Needs: a whole vp09 at the front of `bytes`.
   Returns: MP4_OK or a fault.
   Leaves: the fields in `box`. */
uint32_t mp4_vp09(const uint8_t *bytes, size_t length, struct mp4_vp09_box *box);

/* Reads a sample entry of timed text (3GPP TS 26.245, 5.16).
   Needs: a whole tx3g at the front of `bytes`.
   Returns: MP4_OK or a fault.
   Leaves: the fields in `box`. */
uint32_t mp4_tx3g(const uint8_t *bytes, size_t length, struct mp4_tx3g_box *box);

/* Reads the descriptors of MPEG-4 audio (ISO/IEC 14496-14, 5.6).
   Needs: a whole esds at the front of `bytes`.
   Returns: MP4_OK or a fault.
   Leaves: the fields in `box`. */
uint32_t mp4_esds(const uint8_t *bytes, size_t length, struct mp4_esds_box *box);

/* Reads a sample entry of MPEG-4 audio (ISO/IEC 14496-14, 5.6).
   Needs: a whole mp4a at the front of `bytes`.
   Returns: MP4_OK or a fault.
   Leaves: the fields in `box`. */
uint32_t mp4_mp4a(const uint8_t *bytes, size_t length, struct mp4_mp4a_box *box);

/* Reads the configuration of an AVC decoder (ISO/IEC 14496-15, 5.3.3.1).
   Needs: a whole avcC at the front of `bytes`, `places` places at `lengths`, and `byte_places` places at `set_bytes`.
   Returns: MP4_OK, MP4_NO_ROOM if one of the two arrays is too short, or a fault.
   Leaves: the lengths of the parameter sets in `lengths`, their bytes in `set_bytes`, and their numbers and the other
   fields in `box`. After MP4_NO_ROOM both arrays are as they were. */
uint32_t mp4_avcc(const uint8_t *bytes, size_t length, size_t *lengths, size_t places, uint8_t *set_bytes,
                  size_t byte_places, struct mp4_avcc_box *box);

/* Reads a sample entry of AVC video (ISO/IEC 14496-15, 5.4.2).
   Needs: a whole avc1 at the front of `bytes`, `places` places at `lengths`, and `byte_places` places at `set_bytes`.
   Returns: MP4_OK, MP4_NO_ROOM if one of the two arrays is too short, or a fault.
   Leaves: the lengths of the parameter sets in `lengths`, their bytes in `set_bytes`, and their numbers and the other
   fields in `box`. After MP4_NO_ROOM both arrays are as they were. */
uint32_t mp4_avc1(const uint8_t *bytes, size_t length, size_t *lengths, size_t places, uint8_t *set_bytes,
                  size_t byte_places, struct mp4_avc1_box *box);

/* Reads the first sample entry of a track (8.5.2).
   Needs: a whole stsd at the front of `bytes`, `places` places at `lengths`, and `byte_places` places at `set_bytes`.
   Returns: MP4_OK, MP4_NO_ROOM if one of the two arrays is too short, or a fault.
   Leaves: the lengths of the parameter sets in `lengths`, their bytes in `set_bytes`, and their numbers and the other
   fields in `box`. Only an avc1 has parameter sets. After MP4_NO_ROOM both arrays are as they were. */
uint32_t mp4_stsd(const uint8_t *bytes, size_t length, size_t *lengths, size_t places, uint8_t *set_bytes,
                  size_t byte_places, struct mp4_stsd_box *box);

/*
 * Headers, written. A function that writes puts the box at the front of `bytes`, beginning with its header. A box can't
 * be written if a number doesn't fit the bits of its field (24 for flags, 32 for times of version 0), the version of a
 * header with times isn't 0 or 1, or the box would have 2^32 bytes or more.
 */

/* Writes the movie header (8.2.2).
   Needs: the fields in `box`, and `places` places at `bytes`.
   Returns: MP4_OK, MP4_NO_ROOM, MP4_INVALID_DATA if the box can't be written, or MP4_OUT_OF_MEMORY.
   Leaves: the box in `bytes`, and the number of its bytes in `length`. */
uint32_t mp4_write_mvhd(const struct mp4_mvhd_box *box, uint8_t *bytes, size_t places, size_t *length);

/* Writes a track header (8.3.2).
   Needs: the fields in `box`, and `places` places at `bytes`.
   Returns: MP4_OK, MP4_NO_ROOM, MP4_INVALID_DATA if the box can't be written, or MP4_OUT_OF_MEMORY.
   Leaves: the box in `bytes`, and the number of its bytes in `length`. */
uint32_t mp4_write_tkhd(const struct mp4_tkhd_box *box, uint8_t *bytes, size_t places, size_t *length);

/* Writes a media header (8.4.2).
   Needs: the fields in `box`, and `places` places at `bytes`.
   Returns: MP4_OK, MP4_NO_ROOM, MP4_INVALID_DATA if the box can't be written, or MP4_OUT_OF_MEMORY.
   Leaves: the box in `bytes`, and the number of its bytes in `length`. */
uint32_t mp4_write_mdhd(const struct mp4_mdhd_box *box, uint8_t *bytes, size_t places, size_t *length);

/* Writes the duration of a movie with fragments (8.8.2).
   Needs: the fields in `box`, and `places` places at `bytes`.
   Returns: MP4_OK, MP4_NO_ROOM, MP4_INVALID_DATA if the box can't be written, or MP4_OUT_OF_MEMORY.
   Leaves: the box in `bytes`, and the number of its bytes in `length`. */
uint32_t mp4_write_mehd(const struct mp4_mehd_box *box, uint8_t *bytes, size_t places, size_t *length);

/* Writes the number of a fragment (8.8.5).
   Needs: the fields in `box`, and `places` places at `bytes`.
   Returns: MP4_OK, MP4_NO_ROOM, MP4_INVALID_DATA if the box can't be written, or MP4_OUT_OF_MEMORY.
   Leaves: the box in `bytes`, and the number of its bytes in `length`. */
uint32_t mp4_write_mfhd(const struct mp4_mfhd_box *box, uint8_t *bytes, size_t places, size_t *length);

/* Writes the header of sound (12.2.2).
   Needs: the fields in `box`, and `places` places at `bytes`.
   Returns: MP4_OK, MP4_NO_ROOM, MP4_INVALID_DATA if the box can't be written, or MP4_OUT_OF_MEMORY.
   Leaves: the box in `bytes`, and the number of its bytes in `length`. */
uint32_t mp4_write_smhd(const struct mp4_smhd_box *box, uint8_t *bytes, size_t places, size_t *length);

/* Writes the header of video (12.1.2).
   Needs: the fields in `box`, and `places` places at `bytes`.
   Returns: MP4_OK, MP4_NO_ROOM, MP4_INVALID_DATA if the box can't be written, or MP4_OUT_OF_MEMORY.
   Leaves: the box in `bytes`, and the number of its bytes in `length`. */
uint32_t mp4_write_vmhd(const struct mp4_vmhd_box *box, uint8_t *bytes, size_t places, size_t *length);

/* Writes the defaults of a track's fragments (8.8.3).
   Needs: the fields in `box`, and `places` places at `bytes`.
   Returns: MP4_OK, MP4_NO_ROOM, MP4_INVALID_DATA if the box can't be written, or MP4_OUT_OF_MEMORY.
   Leaves: the box in `bytes`, and the number of its bytes in `length`. */
uint32_t mp4_write_trex(const struct mp4_trex_box *box, uint8_t *bytes, size_t places, size_t *length);

/* Writes the decode time of a track fragment (8.8.12).
   Needs: the fields in `box`, and `places` places at `bytes`.
   Returns: MP4_OK, MP4_NO_ROOM, MP4_INVALID_DATA if the box can't be written, or MP4_OUT_OF_MEMORY.
   Leaves: the box in `bytes`, and the number of its bytes in `length`. */
uint32_t mp4_write_tfdt(const struct mp4_tfdt_box *box, uint8_t *bytes, size_t places, size_t *length);

/* Writes the header of a track fragment (8.8.7).
   Needs: the fields in `box`, and `places` places at `bytes`.
   Returns: MP4_OK, MP4_NO_ROOM, MP4_INVALID_DATA if the box can't be written, or MP4_OUT_OF_MEMORY.
   Leaves: the box in `bytes`, and the number of its bytes in `length`. */
uint32_t mp4_write_tfhd(const struct mp4_tfhd_box *box, uint8_t *bytes, size_t places, size_t *length);

/*
 * Tables, written. The count in `table` has no effect.
 */

/* Writes the sizes of samples.
   Needs: `count` elements at `sizes`, the other fields in `table`, and `places` places at `bytes`.
   Returns: MP4_OK, MP4_NO_ROOM, MP4_INVALID_DATA if the box can't be written (also if there are not sample_count sizes,
   or sizes although sample_size isn't 0), or MP4_OUT_OF_MEMORY.
   Leaves: the box in `bytes`, and the number of its bytes in `length`. */
uint32_t mp4_write_stsz(const struct mp4_stsz_table *table, const uint32_t *sizes, size_t count, uint8_t *bytes,
                        size_t places, size_t *length);

/* Writes the offsets of chunks.
   Needs: `count` elements at `offsets`, the other fields in `table`, and `places` places at `bytes`.
   Returns: MP4_OK, MP4_NO_ROOM, MP4_INVALID_DATA if the box can't be written, or MP4_OUT_OF_MEMORY.
   Leaves: the box in `bytes`, and the number of its bytes in `length`. */
uint32_t mp4_write_stco(const struct mp4_table *table, const uint32_t *offsets, size_t count, uint8_t *bytes,
                        size_t places, size_t *length);

/* Writes the offsets of chunks in 64 bits.
   Needs: `count` elements at `offsets`, the other fields in `table`, and `places` places at `bytes`.
   Returns: MP4_OK, MP4_NO_ROOM, MP4_INVALID_DATA if the box can't be written, or MP4_OUT_OF_MEMORY.
   Leaves: the box in `bytes`, and the number of its bytes in `length`. */
uint32_t mp4_write_co64(const struct mp4_table *table, const uint64_t *offsets, size_t count, uint8_t *bytes,
                        size_t places, size_t *length);

/* Writes the numbers of the sync samples.
   Needs: `count` elements at `samples`, the other fields in `table`, and `places` places at `bytes`.
   Returns: MP4_OK, MP4_NO_ROOM, MP4_INVALID_DATA if the box can't be written, or MP4_OUT_OF_MEMORY.
   Leaves: the box in `bytes`, and the number of its bytes in `length`. */
uint32_t mp4_write_stss(const struct mp4_table *table, const uint32_t *samples, size_t count, uint8_t *bytes,
                        size_t places, size_t *length);

/* Writes the durations of samples.
   Needs: `count` elements at `rows`, the other fields in `table`, and `places` places at `bytes`.
   Returns: MP4_OK, MP4_NO_ROOM, MP4_INVALID_DATA if the box can't be written, or MP4_OUT_OF_MEMORY.
   Leaves: the box in `bytes`, and the number of its bytes in `length`. */
uint32_t mp4_write_stts(const struct mp4_table *table, const struct mp4_stts_row *rows, size_t count, uint8_t *bytes,
                        size_t places, size_t *length);

/* Writes the composition offsets of samples.
   Needs: `count` elements at `rows`, the other fields in `table`, and `places` places at `bytes`.
   Returns: MP4_OK, MP4_NO_ROOM, MP4_INVALID_DATA if the box can't be written, or MP4_OUT_OF_MEMORY.
   Leaves: the box in `bytes`, and the number of its bytes in `length`. */
uint32_t mp4_write_ctts(const struct mp4_table *table, const struct mp4_ctts_row *rows, size_t count, uint8_t *bytes,
                        size_t places, size_t *length);

/* Writes the chunks of samples, in which first_sample has no effect.
   Needs: `count` elements at `rows`, the other fields in `table`, and `places` places at `bytes`.
   Returns: MP4_OK, MP4_NO_ROOM, MP4_INVALID_DATA if the box can't be written (also if a first_chunk is below the one
   before it, or the number of a first sample has more than 32 bits), or MP4_OUT_OF_MEMORY.
   Leaves: the box in `bytes`, and the number of its bytes in `length`. */
uint32_t mp4_write_stsc(const struct mp4_table *table, const struct mp4_stsc_row *rows, size_t count, uint8_t *bytes,
                        size_t places, size_t *length);

/* Writes the edits of a track.
   Needs: `count` elements at `rows`, the other fields in `table`, and `places` places at `bytes`.
   Returns: MP4_OK, MP4_NO_ROOM, MP4_INVALID_DATA if the box can't be written (also if a time of a version other than 1
   has more than 32 bits), or MP4_OUT_OF_MEMORY.
   Leaves: the box in `bytes`, and the number of its bytes in `length`. */
uint32_t mp4_write_elst(const struct mp4_table *table, const struct mp4_elst_row *rows, size_t count, uint8_t *bytes,
                        size_t places, size_t *length);

/* Writes the samples of a run; fields whose flags aren't set are not written.
   Needs: `count` elements at `rows`, the other fields in `table`, and `places` places at `bytes`.
   Returns: MP4_OK, MP4_NO_ROOM, MP4_INVALID_DATA if the box can't be written (also if the rows and flags give it fields
   for each sample, but not sample_count of them), or MP4_OUT_OF_MEMORY.
   Leaves: the box in `bytes`, and the number of its bytes in `length`. */
uint32_t mp4_write_trun(const struct mp4_trun_table *table, const struct mp4_trun_row *rows, size_t count,
                        uint8_t *bytes, size_t places, size_t *length);

/*
 * Boxes of strings, references and sample entries, written. The counts in `box` have no effect, except those of an
 * avcC.
 */

/* Writes the type of a file.
   Needs: `count` elements at `brands`, the other fields in `box`, and `places` places at `bytes`.
   Returns: MP4_OK, MP4_NO_ROOM, MP4_INVALID_DATA if the box can't be written, or MP4_OUT_OF_MEMORY.
   Leaves: the box in `bytes`, and the number of its bytes in `length`. */
uint32_t mp4_write_ftyp(const struct mp4_ftyp_box *box, const uint32_t *brands, size_t count, uint8_t *bytes,
                        size_t places, size_t *length);

/* Writes the kind of media of a track.
   Needs: `count` elements at `name`, the other fields in `box`, and `places` places at `bytes`.
   Returns: MP4_OK, MP4_NO_ROOM, MP4_INVALID_DATA if the box can't be written (also if the name isn't UTF-8), or
   MP4_OUT_OF_MEMORY.
   Leaves: the box in `bytes`, and the number of its bytes in `length`. */
uint32_t mp4_write_hdlr(const struct mp4_hdlr_box *box, const uint8_t *name, size_t count, uint8_t *bytes,
                        size_t places, size_t *length);

/* Writes the data references of a track: none, or a url with this location.
   Needs: `count` elements at `location`, the other fields in `box`, and `places` places at `bytes`.
   Returns: MP4_OK, MP4_NO_ROOM, MP4_INVALID_DATA if the box can't be written (also if the location isn't UTF-8), or
   MP4_OUT_OF_MEMORY.
   Leaves: the box in `bytes`, and the number of its bytes in `length`. */
uint32_t mp4_write_dref(const struct mp4_dref_box *box, const uint8_t *location, size_t count, uint8_t *bytes,
                        size_t places, size_t *length);

/* Writes an event message.
   Needs: the bytes of the strings and the message in three arrays with their numbers, the other fields in `box`, and
   `places` places at `bytes`.
   Returns: MP4_OK, MP4_NO_ROOM, MP4_INVALID_DATA if the box can't be written (also if a string isn't UTF-8 or has a
   zero byte, or the version isn't 0 or 1), or MP4_OUT_OF_MEMORY.
   Leaves: the box in `bytes`, and the number of its bytes in `length`. */
uint32_t mp4_write_emsg(const struct mp4_emsg_box *box, const uint8_t *scheme_id_uri, size_t scheme_id_uri_count,
                        const uint8_t *value, size_t value_count, const uint8_t *message_data,
                        size_t message_data_count, uint8_t *bytes, size_t places, size_t *length);

/* Writes a sample description with the entry whose code is in `entry`, or without an entry if that is 0. Only an avc1
   has parameter sets.
   Needs: `count` lengths of parameter sets at `lengths`, their `byte_count` bytes at `set_bytes`, the other fields in
   `box`, and `places` places at `bytes`.
   Returns: MP4_OK, MP4_NO_ROOM, MP4_INVALID_DATA if the box can't be written (also if the `entry` is none of the five
   codes and not 0, the number of lengths of an avc1 isn't the sum of sequence_count and picture_count, or the number of
   bytes isn't the sum of the lengths), or MP4_OUT_OF_MEMORY.
   Leaves: the box in `bytes`, and the number of its bytes in `length`. */
uint32_t mp4_write_stsd(const struct mp4_stsd_box *box, const size_t *lengths, size_t count, const uint8_t *set_bytes,
                        size_t byte_count, uint8_t *bytes, size_t places, size_t *length);

#if defined(__GNUC__)
#define MP4_INLINE static __inline__
#elif defined(__cplusplus) || (defined(__STDC_VERSION__) && __STDC_VERSION__ >= 199901L)
#define MP4_INLINE static inline
#else
#define MP4_INLINE static
#endif

/* Writes the four characters of a code and a zero to `text`, and returns `text`. */
MP4_INLINE char *mp4_code_text(uint32_t code, char *text) {
    int i;
    for (i = 0; i < 4; i++)
        text[i] = (char)(unsigned char)(code >> (24 - 8 * i));
    text[4] = 0;
    return text;
}

/* Returns the number in the first `width` bytes, 0 to 4 of them, the highest byte first: such as the length before a
   unit in a sample. */
MP4_INLINE uint32_t mp4_number(const uint8_t *bytes, size_t width) {
    uint32_t number = 0;
    size_t i;
    for (i = 0; i < width; i++)
        number = number << 8 | bytes[i];
    return number;
}

/* Writes a number as four bytes, the highest byte first: such as the length before a unit, or the size of a box. */
MP4_INLINE void mp4_put_number(uint32_t number, uint8_t *bytes) {
    int i;
    for (i = 0; i < 4; i++)
        bytes[i] = (uint8_t)(number >> (24 - 8 * i));
}

/* Returns the bytes of a piece of a new file: in the bytes of the old file, or in the new bytes. */
MP4_INLINE const uint8_t *mp4_piece_bytes(const struct mp4_piece *piece, const uint8_t *bytes,
                                          const uint8_t *new_bytes) {
    return (piece->is_new ? new_bytes : bytes) + piece->position;
}

/*
 * An array without elements may be NULL: calls use the functions below, which replace NULL by a pointer to memory.
 */

MP4_INLINE const void *mp4_from(const void *array) {
    static const uint64_t nothing = 0;
    return array != NULL ? array : (const void *)&nothing;
}

MP4_INLINE void *mp4_to(void *array) {
    static uint64_t nothing = 0;
    return array != NULL ? array : (void *)&nothing;
}

#define MP4_BYTES(bytes) ((const uint8_t *)mp4_from(bytes))
#define MP4_READS_BOX(name)                                                                                            \
    MP4_INLINE uint32_t mp4_call_##name(const uint8_t *bytes, size_t length, struct mp4_##name##_box *box) {           \
        return mp4_##name(MP4_BYTES(bytes), length, box);                                                              \
    }
#define MP4_READS_ROWS(name, row, told)                                                                                \
    MP4_INLINE uint32_t mp4_call_##name(const uint8_t *bytes, size_t length, row *rows, size_t places, told *table) {  \
        return mp4_##name(MP4_BYTES(bytes), length, (row *)mp4_to(rows), places, table);                               \
    }
#define MP4_WRITES_BOX(name)                                                                                           \
    MP4_INLINE uint32_t mp4_call_write_##name(const struct mp4_##name##_box *box, uint8_t *bytes, size_t places,       \
                                              size_t *length) {                                                        \
        return mp4_write_##name(box, (uint8_t *)mp4_to(bytes), places, length);                                        \
    }
#define MP4_WRITES_ROWS(name, row, told)                                                                               \
    MP4_INLINE uint32_t mp4_call_write_##name(const told *table, const row *rows, size_t count, uint8_t *bytes,        \
                                              size_t places, size_t *length) {                                         \
        return mp4_write_##name(table, (const row *)mp4_from(rows), count, (uint8_t *)mp4_to(bytes), places, length);  \
    }
#define MP4_BOX(name) MP4_READS_BOX(name) MP4_WRITES_BOX(name)
#define MP4_ROWS(name, row, told) MP4_READS_ROWS(name, row, told) MP4_WRITES_ROWS(name, row, told)

MP4_INLINE uint32_t mp4_call_check(const uint8_t *bytes, size_t length) { return mp4_check(MP4_BYTES(bytes), length); }
MP4_INLINE uint32_t mp4_call_find(const uint8_t *bytes, size_t length, const uint8_t *path, size_t path_length,
                                  struct mp4_place *place) {
    return mp4_find(MP4_BYTES(bytes), length, MP4_BYTES(path), path_length, place);
}
MP4_INLINE uint32_t mp4_call_samples(const uint8_t *bytes, size_t length, uint32_t track_id, struct mp4_sample *samples,
                                     size_t places, size_t *count) {
    return mp4_samples(MP4_BYTES(bytes), length, track_id, (struct mp4_sample *)mp4_to(samples), places, count);
}
MP4_INLINE uint32_t mp4_call_fragment_samples(const uint8_t *bytes, size_t length, uint32_t track_id,
                                              struct mp4_sample *samples, size_t places, size_t *count) {
    return mp4_fragment_samples(MP4_BYTES(bytes), length, track_id, (struct mp4_sample *)mp4_to(samples), places,
                                count);
}
MP4_INLINE uint32_t mp4_call_check_file(const uint8_t *bytes, size_t length, struct mp4_fault *faults, size_t places,
                                        uint8_t *text, size_t text_places, struct mp4_fault_table *table) {
    return mp4_check_file(MP4_BYTES(bytes), length, (struct mp4_fault *)mp4_to(faults), places, (uint8_t *)mp4_to(text),
                          text_places, table);
}
MP4_INLINE uint32_t mp4_call_fault_name(uint32_t code, uint8_t *text, size_t places, size_t *count) {
    return mp4_fault_name(code, (uint8_t *)mp4_to(text), places, count);
}
MP4_INLINE uint32_t mp4_call_info(const uint8_t *bytes, size_t length, uint32_t *brands, size_t brand_places,
                                  struct mp4_track_info *tracks, size_t track_places, uint8_t *text, size_t text_places,
                                  struct mp4_file_info *file) {
    return mp4_info(MP4_BYTES(bytes), length, (uint32_t *)mp4_to(brands), brand_places,
                    (struct mp4_track_info *)mp4_to(tracks), track_places, (uint8_t *)mp4_to(text), text_places, file);
}
MP4_INLINE uint32_t mp4_call_faststart(const uint8_t *bytes, size_t length, struct mp4_piece *pieces,
                                       size_t piece_places, uint8_t *new_bytes, size_t byte_places, uint8_t *text,
                                       size_t text_places, struct mp4_new_file *file) {
    return mp4_faststart(MP4_BYTES(bytes), length, (struct mp4_piece *)mp4_to(pieces), piece_places,
                         (uint8_t *)mp4_to(new_bytes), byte_places, (uint8_t *)mp4_to(text), text_places, file);
}
MP4_INLINE uint32_t mp4_call_edit(const uint8_t *bytes, size_t length, const struct mp4_change *changes, size_t count,
                                  const uint8_t *data, size_t data_length, struct mp4_piece *pieces,
                                  size_t piece_places, uint8_t *new_bytes, size_t byte_places, uint8_t *text,
                                  size_t text_places, struct mp4_new_file *file) {
    return mp4_edit(MP4_BYTES(bytes), length, (const struct mp4_change *)mp4_from(changes), count, MP4_BYTES(data),
                    data_length, (struct mp4_piece *)mp4_to(pieces), piece_places, (uint8_t *)mp4_to(new_bytes),
                    byte_places, (uint8_t *)mp4_to(text), text_places, file);
}
MP4_INLINE uint32_t mp4_call_fragment(const uint8_t *bytes, size_t length, const struct mp4_fragment_options *options,
                                      struct mp4_piece *pieces, size_t piece_places, uint8_t *new_bytes,
                                      size_t byte_places, uint8_t *text, size_t text_places,
                                      struct mp4_new_file *file) {
    return mp4_fragment(MP4_BYTES(bytes), length, options, (struct mp4_piece *)mp4_to(pieces), piece_places,
                        (uint8_t *)mp4_to(new_bytes), byte_places, (uint8_t *)mp4_to(text), text_places, file);
}
MP4_INLINE uint32_t mp4_call_defragment(const uint8_t *bytes, size_t length, struct mp4_piece *pieces,
                                        size_t piece_places, uint8_t *new_bytes, size_t byte_places, uint8_t *text,
                                        size_t text_places, struct mp4_new_file *file) {
    return mp4_defragment(MP4_BYTES(bytes), length, (struct mp4_piece *)mp4_to(pieces), piece_places,
                          (uint8_t *)mp4_to(new_bytes), byte_places, (uint8_t *)mp4_to(text), text_places, file);
}
MP4_INLINE uint32_t mp4_call_cut(const uint8_t *bytes, size_t length, uint64_t from, uint64_t to,
                                 struct mp4_piece *pieces, size_t piece_places, uint8_t *new_bytes, size_t byte_places,
                                 uint8_t *text, size_t text_places, struct mp4_new_file *file) {
    return mp4_cut(MP4_BYTES(bytes), length, from, to, (struct mp4_piece *)mp4_to(pieces), piece_places,
                   (uint8_t *)mp4_to(new_bytes), byte_places, (uint8_t *)mp4_to(text), text_places, file);
}
MP4_INLINE uint32_t mp4_call_status_text(uint32_t status, uint8_t *text, size_t places, size_t *count) {
    return mp4_status_text(status, (uint8_t *)mp4_to(text), places, count);
}
MP4_INLINE uint32_t mp4_call_box_from_json(uint32_t code, const uint8_t *json, size_t json_length, uint8_t *bytes,
                                           size_t places, size_t *length) {
    return mp4_box_from_json(code, MP4_BYTES(json), json_length, (uint8_t *)mp4_to(bytes), places, length);
}
MP4_INLINE uint32_t mp4_call_check_json(uint32_t code, const uint8_t *json, size_t json_length, uint8_t *text,
                                        size_t places, struct mp4_json_fault *fault) {
    return mp4_check_json(code, MP4_BYTES(json), json_length, (uint8_t *)mp4_to(text), places, fault);
}
MP4_INLINE uint32_t mp4_call_walk_next(const uint8_t *bytes, size_t length, struct mp4_walk *walk,
                                       struct mp4_box *box) {
    return mp4_walk_next(MP4_BYTES(bytes), length, walk, box);
}
MP4_READS_ROWS(list, struct mp4_span, size_t)
MP4_READS_ROWS(normal, uint8_t, size_t)
MP4_READS_ROWS(fields, uint8_t, size_t)
MP4_ROWS(stsz, uint32_t, struct mp4_stsz_table)
MP4_ROWS(stco, uint32_t, struct mp4_table)
MP4_ROWS(co64, uint64_t, struct mp4_table)
MP4_ROWS(stss, uint32_t, struct mp4_table)
MP4_ROWS(stts, struct mp4_stts_row, struct mp4_table)
MP4_ROWS(ctts, struct mp4_ctts_row, struct mp4_table)
MP4_ROWS(stsc, struct mp4_stsc_row, struct mp4_table)
MP4_ROWS(elst, struct mp4_elst_row, struct mp4_table)
MP4_ROWS(trun, struct mp4_trun_row, struct mp4_trun_table)
MP4_BOX(mvhd)
MP4_BOX(tkhd)
MP4_BOX(mdhd)
MP4_BOX(mehd)
MP4_BOX(mfhd)
MP4_BOX(smhd)
MP4_BOX(vmhd)
MP4_BOX(trex)
MP4_BOX(tfdt)
MP4_BOX(tfhd)

#define MP4_READS_SETS(name)                                                                                           \
    MP4_INLINE uint32_t mp4_call_##name(const uint8_t *bytes, size_t length, size_t *lengths, size_t places,           \
                                        uint8_t *set_bytes, size_t byte_places, struct mp4_##name##_box *box) {        \
        return mp4_##name(MP4_BYTES(bytes), length, (size_t *)mp4_to(lengths), places, (uint8_t *)mp4_to(set_bytes),   \
                          byte_places, box);                                                                           \
    }
MP4_ROWS(ftyp, uint32_t, struct mp4_ftyp_box)
MP4_ROWS(hdlr, uint8_t, struct mp4_hdlr_box)
MP4_READS_ROWS(data, uint8_t, struct mp4_data_box)
MP4_READS_ROWS(url, uint8_t, struct mp4_url_box)
MP4_ROWS(dref, uint8_t, struct mp4_dref_box)
MP4_READS_ROWS(dinf, uint8_t, struct mp4_dref_box)
MP4_READS_BOX(hvcc)
MP4_READS_BOX(hev1)
MP4_READS_BOX(vpcc)
MP4_READS_BOX(vp09)
MP4_READS_BOX(tx3g)
MP4_READS_BOX(esds)
MP4_READS_BOX(mp4a)
MP4_READS_SETS(avcc)
MP4_READS_SETS(avc1)
MP4_READS_SETS(stsd)
MP4_INLINE uint32_t mp4_call_emsg(const uint8_t *bytes, size_t length, uint8_t *scheme_id_uri,
                                  size_t scheme_id_uri_places, uint8_t *value, size_t value_places,
                                  uint8_t *message_data, size_t message_data_places, struct mp4_emsg_box *box) {
    return mp4_emsg(MP4_BYTES(bytes), length, (uint8_t *)mp4_to(scheme_id_uri), scheme_id_uri_places,
                    (uint8_t *)mp4_to(value), value_places, (uint8_t *)mp4_to(message_data), message_data_places, box);
}
MP4_INLINE uint32_t mp4_call_write_emsg(const struct mp4_emsg_box *box, const uint8_t *scheme_id_uri,
                                        size_t scheme_id_uri_count, const uint8_t *value, size_t value_count,
                                        const uint8_t *message_data, size_t message_data_count, uint8_t *bytes,
                                        size_t places, size_t *length) {
    return mp4_write_emsg(box, MP4_BYTES(scheme_id_uri), scheme_id_uri_count, MP4_BYTES(value), value_count,
                          MP4_BYTES(message_data), message_data_count, (uint8_t *)mp4_to(bytes), places, length);
}
MP4_INLINE uint32_t mp4_call_write_stsd(const struct mp4_stsd_box *box, const size_t *lengths, size_t count,
                                        const uint8_t *set_bytes, size_t byte_count, uint8_t *bytes, size_t places,
                                        size_t *length) {
    return mp4_write_stsd(box, (const size_t *)mp4_from(lengths), count, MP4_BYTES(set_bytes), byte_count,
                          (uint8_t *)mp4_to(bytes), places, length);
}

#undef MP4_READS_BOX
#undef MP4_READS_SETS
#undef MP4_READS_ROWS
#undef MP4_WRITES_BOX
#undef MP4_WRITES_ROWS
#undef MP4_BOX
#undef MP4_ROWS

#define mp4_check mp4_call_check
#define mp4_walk_next mp4_call_walk_next
#define mp4_ftyp mp4_call_ftyp
#define mp4_write_ftyp mp4_call_write_ftyp
#define mp4_hdlr mp4_call_hdlr
#define mp4_write_hdlr mp4_call_write_hdlr
#define mp4_data mp4_call_data
#define mp4_url mp4_call_url
#define mp4_dref mp4_call_dref
#define mp4_write_dref mp4_call_write_dref
#define mp4_dinf mp4_call_dinf
#define mp4_emsg mp4_call_emsg
#define mp4_write_emsg mp4_call_write_emsg
#define mp4_hvcc mp4_call_hvcc
#define mp4_hev1 mp4_call_hev1
#define mp4_vpcc mp4_call_vpcc
#define mp4_vp09 mp4_call_vp09
#define mp4_tx3g mp4_call_tx3g
#define mp4_esds mp4_call_esds
#define mp4_mp4a mp4_call_mp4a
#define mp4_avcc mp4_call_avcc
#define mp4_avc1 mp4_call_avc1
#define mp4_stsd mp4_call_stsd
#define mp4_write_stsd mp4_call_write_stsd
#define mp4_find mp4_call_find
#define mp4_samples mp4_call_samples
#define mp4_fragment_samples mp4_call_fragment_samples
#define mp4_check_file mp4_call_check_file
#define mp4_fault_name mp4_call_fault_name
#define mp4_info mp4_call_info
#define mp4_faststart mp4_call_faststart
#define mp4_edit mp4_call_edit
#define mp4_fragment mp4_call_fragment
#define mp4_defragment mp4_call_defragment
#define mp4_cut mp4_call_cut
#define mp4_status_text mp4_call_status_text
#define mp4_list mp4_call_list
#define mp4_normal mp4_call_normal
#define mp4_fields mp4_call_fields
#define mp4_box_from_json mp4_call_box_from_json
#define mp4_check_json mp4_call_check_json
#define mp4_stsz mp4_call_stsz
#define mp4_write_stsz mp4_call_write_stsz
#define mp4_stco mp4_call_stco
#define mp4_write_stco mp4_call_write_stco
#define mp4_co64 mp4_call_co64
#define mp4_write_co64 mp4_call_write_co64
#define mp4_stss mp4_call_stss
#define mp4_write_stss mp4_call_write_stss
#define mp4_stts mp4_call_stts
#define mp4_write_stts mp4_call_write_stts
#define mp4_ctts mp4_call_ctts
#define mp4_write_ctts mp4_call_write_ctts
#define mp4_stsc mp4_call_stsc
#define mp4_write_stsc mp4_call_write_stsc
#define mp4_elst mp4_call_elst
#define mp4_write_elst mp4_call_write_elst
#define mp4_trun mp4_call_trun
#define mp4_write_trun mp4_call_write_trun
#define mp4_mvhd mp4_call_mvhd
#define mp4_write_mvhd mp4_call_write_mvhd
#define mp4_tkhd mp4_call_tkhd
#define mp4_write_tkhd mp4_call_write_tkhd
#define mp4_mdhd mp4_call_mdhd
#define mp4_write_mdhd mp4_call_write_mdhd
#define mp4_mehd mp4_call_mehd
#define mp4_write_mehd mp4_call_write_mehd
#define mp4_mfhd mp4_call_mfhd
#define mp4_write_mfhd mp4_call_write_mfhd
#define mp4_smhd mp4_call_smhd
#define mp4_write_smhd mp4_call_write_smhd
#define mp4_vmhd mp4_call_vmhd
#define mp4_write_vmhd mp4_call_write_vmhd
#define mp4_trex mp4_call_trex
#define mp4_write_trex mp4_call_write_trex
#define mp4_tfdt mp4_call_tfdt
#define mp4_write_tfdt mp4_call_write_tfdt
#define mp4_tfhd mp4_call_tfhd
#define mp4_write_tfhd mp4_call_write_tfhd

#ifdef __cplusplus
}
#endif

#endif

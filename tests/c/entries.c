/*
 * Calls the functions of include/mp4_box_codec.h for boxes of strings, references and sample entries: reads each,
 * writes those that are written, with arrays that are long enough and too short, bytes that have each fault, and memory
 * that is refused. The bytes were worked out from docs/LAYOUT.md: no two fields are alike.
 */
#include "checks.h"

#define ZEROS_4 "\0\0\0\0"
#define ZEROS_12 ZEROS_4 ZEROS_4 ZEROS_4

/* A box that is returned in a struct, with an array of rows or without one. */

static int no_rows(const void *rows, size_t count) {
    (void)rows;
    return count == 0;
}

#define TOLD(name)                                                                                                     \
    static uint32_t call_##name(const uint8_t *bytes, size_t length, void *rows, size_t places, void *told) {          \
        (void)rows;                                                                                                    \
        (void)places;                                                                                                  \
        return mp4_##name(bytes, length, (struct mp4_##name##_box *)told);                                             \
    }

/* Checks calls that succeed, each cut, each fault of the header, and each refused request if the box takes memory. */
static void try_box(const struct subject *s, int takes_memory) {
    size_t cut;
    subject = s->name;
    EXPECT(call_with(s, s->bytes, s->length, s->count) == MP4_OK);
    for (cut = 1; cut < s->length; cut++)
        EXPECT(call_with(s, s->bytes, cut, s->count) == MP4_END_OF_INPUT);
    if (s->count > 0) {
        EXPECT(call_with(s, s->bytes, s->length, s->count + 3) == MP4_OK);
        EXPECT(call_with(s, s->bytes, s->length, s->count - 1) == MP4_NO_ROOM);
        EXPECT(call_with(s, s->bytes, s->length, 0) == MP4_NO_ROOM);
    }
    if (s->length + 8 <= 128)
        try_header(s);
    if (takes_memory)
        refuse_each(s);
}

/* Strings and references. */

static const char FTYP[] = "\0\0\0\x1C"
                           "ftypiso6\x81\x82\x83\x84isomavc1\xA9ray";

static int are_brands(const void *rows, size_t count) {
    const uint32_t *brands = rows;
    return count == 3 && brands[0] == 0x69736F6D && brands[1] == 0x61766331 && brands[2] == 0xA9726179;
}

static int is_ftyp(const void *told) {
    const struct mp4_ftyp_box *box = told;
    return box->count == 3 && box->major_brand == 0x69736F36 && box->minor_version == 0x81828384;
}

AS_CALL(ftyp, uint32_t, struct mp4_ftyp_box)

/* The name has five characters in six bytes. */
static const char HDLR[] = "\0\0\0\x27hdlr\x85\x86\x87\x88" ZEROS_4 "vide" ZEROS_12 "Vid\xC3\xA9o";
#define NAME "Vid\xC3\xA9o"

static int is_name(const void *rows, size_t count) { return count == 6 && memcmp(rows, NAME, 6) == 0; }

static int is_hdlr(const void *told) {
    const struct mp4_hdlr_box *box = told;
    return box->count == 6 && box->flags == 0x868788 && box->handler_type == 0x76696465 && box->version == 0x85;
}

AS_CALL(hdlr, uint8_t, struct mp4_hdlr_box)

static const char DATA[] = "\0\0\0\x13"
                           "data\0\0\0\x0D" ZEROS_4 "\xFF\xD8\xFE";

static int is_jpeg(const void *rows, size_t count) { return count == 3 && memcmp(rows, "\xFF\xD8\xFE", 3) == 0; }

static int is_data(const void *told) {
    const struct mp4_data_box *box = told;
    return box->count == 3 && box->data_type == 13;
}

AS_CALL(data, uint8_t, struct mp4_data_box)

#define LOCATION "a/\xC3\xA9"
#define URL_BYTES "\0\0\0\x11url \x85\x86\x87\x88" LOCATION "\0"
static const char URL[] = URL_BYTES;

static int is_location(const void *rows, size_t count) { return count == 4 && memcmp(rows, LOCATION, 4) == 0; }

static int is_url(const void *told) {
    const struct mp4_url_box *box = told;
    return box->count == 4 && box->flags == 0x868788 && box->version == 0x85;
}

AS_CALL(url, uint8_t, struct mp4_url_box)

#define DREF_BYTES                                                                                                     \
    "\0\0\0\x21"                                                                                                       \
    "dref\x95\x96\x97\x98\0\0\0\1" URL_BYTES
static const char DREF[] = DREF_BYTES;
static const char DINF[] = "\0\0\0\x29"
                           "dinf" DREF_BYTES;
static const char DREF_WITHOUT[] = "\0\0\0\x10"
                                   "dref\x95\x96\x97\x98" ZEROS_4;

static int is_dref(const void *told) {
    const struct mp4_dref_box *box = told;
    return is_url(&box->url) && box->flags == 0x969798 && box->version == 0x95 && box->has_url == 1;
}

static int is_dref_without(const void *told) {
    const struct mp4_dref_box *box = told;
    return box->url.count == 0 && box->url.flags == 0 && box->url.version == 0 && box->flags == 0x969798 &&
           box->version == 0x95 && box->has_url == 0;
}

AS_CALL(dref, uint8_t, struct mp4_dref_box)
AS_CALL(dinf, uint8_t, struct mp4_dref_box)

/* The sample entries without parameter sets. */

static const char HVCC[] = "\0\0\0\x09hvcC\xB7";

static int is_hvcc(const void *told) { return ((const struct mp4_hvcc_box *)told)->configuration_version == 0xB7; }

TOLD(hvcc)

#define VISUAL_BYTES                                                                                                   \
    "\0\0\0\0\0\0\x81\x82" ZEROS_12 ZEROS_4 "\x83\x84\x85\x86\x91\x92\x93\x94\x95\x96\x97\x98" ZEROS_4                 \
    "\xA1\xA2" ZEROS_12 ZEROS_12 ZEROS_4 ZEROS_4 "\xB1\xB2\xFF\xFF"

static int is_visual(const struct mp4_visual *visual) {
    return visual->data_reference_index == 0x8182 && visual->width == 0x8384 && visual->height == 0x8586 &&
           visual->horizresolution == 0x91929394 && visual->vertresolution == 0x95969798 &&
           visual->frame_count == 0xA1A2 && visual->depth == 0xB1B2;
}

#define HEV1_BYTES "\0\0\0\x5Fhev1" VISUAL_BYTES "\0\0\0\x09hvcC\xB7"
static const char HEV1[] = HEV1_BYTES;

static int is_hev1(const void *told) {
    const struct mp4_hev1_box *box = told;
    return is_visual(&box->visual) && is_hvcc(&box->hvcc);
}

TOLD(hev1)

/* The bit depth is 10, the chroma subsampling 3, and the range full. */
#define VPCC_BYTES "\0\0\0\x14vpcC\x81\x82\x83\x84\x85\x86\xA7\x88\x89\x8A\x8B\x8C"
static const char VPCC[] = VPCC_BYTES;

static int is_vpcc(const void *told) {
    const struct mp4_vpcc_box *box = told;
    return box->version == 0x81 && box->flags == 0x828384 && box->profile == 0x85 && box->level == 0x86 &&
           box->bit_depth == 10 && box->chroma_subsampling == 3 && box->video_full_range_flag == 1 &&
           box->color_primaries == 0x88 && box->transfer_characteristics == 0x89 && box->matrix_coefficients == 0x8A &&
           box->codec_initialization_data_size == 0x8B8C;
}

TOLD(vpcc)

#define RESERVED_16 "\1\2\3\4\5\6\7\x08\x09\x0A\x0B\x0C\x0D\x0E\x0F\x10"
#define COMPRESSOR_32                                                                                                  \
    "\x1F"                                                                                                             \
    "abcdefghijklmnopqrstuvwxyz12345"
#define VP09_BYTES                                                                                                     \
    "\0\0\0\x6Avp09\x91\x92\x93\x94\x95\x96\x97\x98" RESERVED_16 "\xB1\xB2\xB3\xB4\xB5\xB6\xB7\xB8\xB9\xBA\xBB\xBC"    \
    "\xC1\xC2\xC3\xC4\xC5\xC6" COMPRESSOR_32 "\xF1\xF2\xF3\xF4" VPCC_BYTES
static const char VP09[] = VP09_BYTES;

static int is_vp09(const void *told) {
    const struct mp4_vp09_box *box = told;
    return is_vpcc(&box->vpcc) && box->version == 0x91 && box->flags == 0x929394 && box->start_code == 0x9596 &&
           box->data_reference_index == 0x9798 && memcmp(box->reserved0, RESERVED_16, 16) == 0 &&
           box->width == 0xB1B2 && box->height == 0xB3B4 && box->horizresolution[0] == 0xB5B6 &&
           box->horizresolution[1] == 0xB7B8 && box->vertresolution[0] == 0xB9BA && box->vertresolution[1] == 0xBBBC &&
           memcmp(box->reserved1, "\xC1\xC2\xC3\xC4", 4) == 0 && box->frame_count == 0xC5C6 &&
           memcmp(box->compressorname, COMPRESSOR_32, 32) == 0 && box->depth == 0xF1F2 && box->end_code == 0xF3F4;
}

TOLD(vp09)

#define TX3G_BYTES                                                                                                     \
    "\0\0\0\x2Etx3g\0\0\0\0\0\0\x81\x82\x83\x84\x85\x86\1\xFF\x91\x92\x93\x94\xFF\xFE\0\3\x7F\1\x80\2"                 \
    "\xA1\xA2\xA3\xA4\xA5\xA6\xA7\xA8\xA9\xAA\xAB\xAC"
static const char TX3G[] = TX3G_BYTES;

static int is_tx3g(const void *told) {
    const struct mp4_tx3g_box *box = told;
    return box->data_reference_index == 0x8182 && box->display_flags == 0x83848586 &&
           box->horizontal_justification == 1 && box->vertical_justification == -1 &&
           memcmp(box->bg_color_rgba, "\x91\x92\x93\x94", 4) == 0 && box->box_record[0] == -2 &&
           box->box_record[1] == 3 && box->box_record[2] == 0x7F01 && box->box_record[3] == -0x7FFE &&
           memcmp(box->style_record, TX3G + 34, 12) == 0;
}

TOLD(tx3g)

/* The audio configuration has 5 bytes: the audio object type 29 in 5 bits, 15 in 4, the rate 0x0ABCDE in 24, and 13 in
 * 4. */
#define ESDS_BYTES                                                                                                     \
    "\0\0\0\x2A"                                                                                                       \
    "esds\x85\x86\x87\x88\3\x1C\x91\x92\0\4\x14\x41\x17\xA1\xA2\xA3\xB1\xB2\xB3\xB4\xC1\xC2\xC3\xC4"                   \
    "\5\5\xEF\x85\x5E\x6F\x68\6\0\0"
static const char ESDS[] = ESDS_BYTES;

static int is_esds(const void *told) {
    const struct mp4_esds_box *box = told;
    return box->version == 0x85 && box->flags == 0x868788 && box->es_id == 0x9192 &&
           box->object_type_indication == 0x41 && box->stream_type == 5 && box->up_stream == 2 &&
           box->buffer_size_db == 0xA1A2A3 && box->max_bitrate == 0xB1B2B3B4 && box->avg_bitrate == 0xC1C2C3C4 &&
           box->profile == 29 && box->freq_index == 15 && box->sample_rate == 0x0ABCDE && box->chan_conf == 13;
}

TOLD(esds)

/* The audio configuration has 2 bytes: the audio object type 2, the index 4, the channel configuration 2, no rate. */
static const char ESDS_PLAIN[] =
    "\0\0\0\x27"
    "esds\x85\x86\x87\x88\3\x19\x91\x92\0\4\x11\x41\x15\xA1\xA2\xA3\xB1\xB2\xB3\xB4\xC1\xC2\xC3\xC4"
    "\5\2\x12\x10\6\1\2";

static int is_esds_plain(const void *told) {
    const struct mp4_esds_box *box = told;
    return box->up_stream == 0 && box->profile == 2 && box->freq_index == 4 && box->sample_rate == 0 &&
           box->chan_conf == 2;
}

#define MP4A_FIELDS "\0\0\0\0\0\0\x81\x82" ZEROS_4 ZEROS_4 "\x83\x84\x85\x86" ZEROS_4 "\x91\x92\x93\x94"
#define MP4A_BYTES "\0\0\0\x4Emp4a" MP4A_FIELDS ESDS_BYTES
static const char MP4A[] = MP4A_BYTES;
static const char MP4A_WITHOUT[] = "\0\0\0\x24mp4a" MP4A_FIELDS;

static int has_mp4a_fields(const struct mp4_mp4a_box *box) {
    return box->data_reference_index == 0x8182 && box->channelcount == 0x8384 && box->samplesize == 0x8586 &&
           box->samplerate == 0x91929394;
}

static int is_mp4a(const void *told) {
    const struct mp4_mp4a_box *box = told;
    return has_mp4a_fields(box) && box->has_esds == 1 && is_esds(&box->esds);
}

static int is_mp4a_without(const void *told) {
    const struct mp4_mp4a_box *box = told;
    return has_mp4a_fields(box) && box->has_esds == 0 && box->esds.es_id == 0 && box->esds.profile == 0;
}

TOLD(mp4a)

static const struct subject WITH_ROWS[] = {
    {"ftyp", call_ftyp, 4, sizeof(struct mp4_ftyp_box), are_brands, is_ftyp, 3, BYTES(FTYP), {0, 0}},
    {"hdlr",
     call_hdlr,
     1,
     sizeof(struct mp4_hdlr_box),
     is_name,
     is_hdlr,
     6,
     (const uint8_t *)HDLR,
     sizeof HDLR,
     {0, 0}},
    {"data", call_data, 1, sizeof(struct mp4_data_box), is_jpeg, is_data, 3, BYTES(DATA), {0, 0}},
    {"url", call_url, 1, sizeof(struct mp4_url_box), is_location, is_url, 4, BYTES(URL), {0, 0}},
    {"dref", call_dref, 1, sizeof(struct mp4_dref_box), is_location, is_dref, 4, BYTES(DREF), {0, 0}},
    {"dinf", call_dinf, 1, sizeof(struct mp4_dref_box), is_location, is_dref, 4, BYTES(DINF), {0, 0}},
};

static const struct subject TOLD_BOXES[] = {
    {"hvcc", call_hvcc, 1, sizeof(struct mp4_hvcc_box), no_rows, is_hvcc, 0, BYTES(HVCC), {0, 0}},
    {"hev1", call_hev1, 1, sizeof(struct mp4_hev1_box), no_rows, is_hev1, 0, BYTES(HEV1), {0, 0}},
    {"vpcc", call_vpcc, 1, sizeof(struct mp4_vpcc_box), no_rows, is_vpcc, 0, BYTES(VPCC), {0, 0}},
    {"vp09", call_vp09, 1, sizeof(struct mp4_vp09_box), no_rows, is_vp09, 0, BYTES(VP09), {0, 0}},
    {"tx3g", call_tx3g, 1, sizeof(struct mp4_tx3g_box), no_rows, is_tx3g, 0, BYTES(TX3G), {0, 0}},
    {"esds", call_esds, 1, sizeof(struct mp4_esds_box), no_rows, is_esds, 0, BYTES(ESDS), {0, 0}},
    {"esds, plain", call_esds, 1, sizeof(struct mp4_esds_box), no_rows, is_esds_plain, 0, BYTES(ESDS_PLAIN), {0, 0}},
    {"mp4a", call_mp4a, 1, sizeof(struct mp4_mp4a_box), no_rows, is_mp4a, 0, BYTES(MP4A), {0, 0}},
    {"mp4a without esds",
     call_mp4a,
     1,
     sizeof(struct mp4_mp4a_box),
     no_rows,
     is_mp4a_without,
     0,
     BYTES(MP4A_WITHOUT),
     {0, 0}},
    {"dref without url",
     call_dref,
     1,
     sizeof(struct mp4_dref_box),
     no_rows,
     is_dref_without,
     0,
     BYTES(DREF_WITHOUT),
     {0, 0}},
};

/* The boxes with parameter sets: sequence sets of 3 bytes and 1, and a picture set of 2. */

#define AVCC_BYTES                                                                                                     \
    "\0\0\0\x1B"                                                                                                       \
    "avcC\x81\x64\x92\x1F\xFE\xE2\0\3\x67\x64\x1F\0\1\x41\1\0\2\x68\xEE"
#define AVC1_BYTES                                                                                                     \
    "\0\0\0\x71"                                                                                                       \
    "avc1" VISUAL_BYTES AVCC_BYTES
#define STSD_HEAD(size, entry) "\0\0\0" size "stsd\x71\x72\x73\x74\0\0\0\1" entry
#define SET_BYTES "\x67\x64\x1F\x41\x68\xEE"

static const size_t SET_LENGTHS[] = {3, 1, 2};

/* The bytes of the sets come first in the rows, so that the lengths after them end where their page does. */
#define SETS_CALL(name)                                                                                                \
    static uint32_t call_##name(const uint8_t *bytes, size_t length, void *rows, size_t places, void *told) {          \
        size_t byte_places = places < 6 ? places : 6;                                                                  \
        return mp4_##name(bytes, length, (size_t *)((uint8_t *)rows + byte_places),                                    \
                          (places - byte_places) / sizeof(size_t), (uint8_t *)rows, byte_places,                       \
                          (struct mp4_##name##_box *)told);                                                            \
    }
#define SETS_SIZE (6 + sizeof SET_LENGTHS)

static int are_sets(const void *rows, size_t count) {
    const uint8_t *bytes = rows;
    return count == SETS_SIZE && memcmp(bytes, SET_BYTES, 6) == 0 &&
           memcmp(bytes + 6, SET_LENGTHS, sizeof SET_LENGTHS) == 0;
}

static int is_avcc(const void *told) {
    const struct mp4_avcc_box *box = told;
    return box->sequence_count == 2 && box->picture_count == 1 && box->set_bytes == 6 &&
           box->configuration_version == 0x81 && box->avc_profile_indication == 0x64 &&
           box->profile_compatibility == 0x92 && box->avc_level_indication == 0x1F && box->length_size_minus_one == 2;
}

static int is_avc1(const void *told) {
    const struct mp4_avc1_box *box = told;
    return is_avcc(&box->avcc) && is_visual(&box->visual);
}

/* An stsd shows which entries it doesn't hold. */
static int are_zeros(const void *memory, size_t size) {
    const uint8_t *bytes = memory;
    while (size > 0)
        if (bytes[--size] != 0)
            return 0;
    return 1;
}

static int has_stsd_fields(const struct mp4_stsd_box *box, uint32_t entry) {
    return box->version == 0x71 && box->flags == 0x727374 && box->entry == entry;
}

#define NONE_OF(member) (box->member.data_reference_index == 0 && box->member.width == 0)

static int is_stsd_avc1(const void *told) {
    const struct mp4_stsd_box *box = told;
    return has_stsd_fields(box, 0x61766331) && is_avc1(&box->avc1) && NONE_OF(hev1.visual) && NONE_OF(vp09) &&
           are_zeros(box->vp09.compressorname, 32) && box->mp4a.data_reference_index == 0 && box->mp4a.has_esds == 0 &&
           box->tx3g.data_reference_index == 0;
}

static int is_stsd_hev1(const void *told) {
    const struct mp4_stsd_box *box = told;
    return has_stsd_fields(box, 0x68657631) && is_hev1(&box->hev1) && NONE_OF(avc1.visual) && NONE_OF(vp09);
}

static int is_stsd_vp09(const void *told) {
    const struct mp4_stsd_box *box = told;
    return has_stsd_fields(box, 0x76703039) && is_vp09(&box->vp09) && NONE_OF(avc1.visual) && NONE_OF(hev1.visual);
}

static int is_stsd_mp4a(const void *told) {
    const struct mp4_stsd_box *box = told;
    return has_stsd_fields(box, 0x6D703461) && is_mp4a(&box->mp4a) && box->tx3g.data_reference_index == 0;
}

static int is_stsd_tx3g(const void *told) {
    const struct mp4_stsd_box *box = told;
    return has_stsd_fields(box, 0x74783367) && is_tx3g(&box->tx3g) && box->mp4a.data_reference_index == 0;
}

static int is_stsd_without(const void *told) { return has_stsd_fields(told, 0); }

SETS_CALL(avcc)
SETS_CALL(avc1)
SETS_CALL(stsd)

static const char AVCC[] = AVCC_BYTES, AVC1[] = AVC1_BYTES;
static const char STSD_AVC1[] = STSD_HEAD("\x81", AVC1_BYTES), STSD_HEV1[] = STSD_HEAD("\x6F", HEV1_BYTES);
static const char STSD_VP09[] = STSD_HEAD("\x7A", VP09_BYTES), STSD_MP4A[] = STSD_HEAD("\x5E", MP4A_BYTES);
static const char STSD_TX3G[] = STSD_HEAD("\x3E", TX3G_BYTES);
static const char STSD_NONE[] = "\0\0\0\x10stsd\x71\x72\x73\x74" ZEROS_4;
/* An entry of another type is not read. */
static const char STSD_OTHER[] = STSD_HEAD("\x18", "\0\0\0\x08"
                                                   "av01");

#define SETS_CASE(name, function, box, told, text)                                                                     \
    {                                                                                                                  \
        name, function, 1, sizeof(struct mp4_##box##_box), are_sets, told, SETS_SIZE, BYTES(text), { 0, 0 }            \
    }
#define STSD_CASE(name, told, text)                                                                                    \
    {                                                                                                                  \
        name, call_stsd, 1, sizeof(struct mp4_stsd_box), no_rows, told, 0, BYTES(text), { 0, 0 }                       \
    }

static const struct subject WITH_SETS[] = {
    SETS_CASE("avcc", call_avcc, avcc, is_avcc, AVCC),
    SETS_CASE("avc1", call_avc1, avc1, is_avc1, AVC1),
    SETS_CASE("stsd of avc1", call_stsd, stsd, is_stsd_avc1, STSD_AVC1),
};

static const struct subject STSD_BOXES[] = {
    STSD_CASE("stsd of hev1", is_stsd_hev1, STSD_HEV1),
    STSD_CASE("stsd of vp09", is_stsd_vp09, STSD_VP09),
    STSD_CASE("stsd of mp4a", is_stsd_mp4a, STSD_MP4A),
    STSD_CASE("stsd of tx3g", is_stsd_tx3g, STSD_TX3G),
    STSD_CASE("stsd without an entry", is_stsd_without, STSD_NONE),
    STSD_CASE("stsd of another entry", is_stsd_without, STSD_OTHER),
};

/* Checks calls with one of the two arrays too short by one, and with both as NULL. */
static void try_short_sets(void) {
    struct mp4_avcc_box box;
    size_t lengths[3] = {7, 7, 7};
    uint8_t bytes[7] = "......";
    subject = "short arrays of sets";
    EXPECT(mp4_avcc(BYTES(AVCC), lengths, 2, bytes, 6, &box) == MP4_NO_ROOM && is_avcc(&box));
    EXPECT(mp4_avcc(BYTES(AVCC), lengths, 3, bytes, 5, &box) == MP4_NO_ROOM && is_avcc(&box));
    EXPECT(mp4_avcc(BYTES(AVCC), NULL, 0, NULL, 0, &box) == MP4_NO_ROOM && is_avcc(&box));
    EXPECT(lengths[0] == 7 && lengths[2] == 7 && bytes[0] == '.' && bytes[5] == '.');
    EXPECT(mp4_avcc(BYTES(AVCC), lengths, 3, bytes, 7, &box) == MP4_OK);
    EXPECT(memcmp(lengths, SET_LENGTHS, sizeof lengths) == 0 && memcmp(bytes, SET_BYTES, 7) == 0);
    EXPECT(mp4_stsd(BYTES(STSD_HEV1), NULL, 0, NULL, 0, &(struct mp4_stsd_box){0}) == MP4_OK);
}

/* emsg, in both versions. */

#define SCHEME "urn:\xC3\xA9"
#define VALUE "v1!"
#define MESSAGE "\1\xFF"
static const char EMSG_0[] =
    "\0\0\0\x29"
    "emsg\0\x86\x87\x88" SCHEME "\0" VALUE "\0\x81\x82\x83\x84\x91\x92\x93\x94\xA1\xA2\xA3\xA4\xB1\xB2\xB3\xB4" MESSAGE;
static const char EMSG_1[] =
    "\0\0\0\x2D"
    "emsg\1\x86\x87\x88\x81\x82\x83\x84\x91\x92\x93\x94\x95\x96\x97\x98\xA1\xA2\xA3\xA4\xB1\xB2\xB3\xB4" SCHEME
    "\0" VALUE "\0" MESSAGE;

static int has_emsg_fields(const struct mp4_emsg_box *box) {
    return box->scheme_id_uri_count == 6 && box->value_count == 3 && box->message_data_count == 2 &&
           box->flags == 0x868788 && box->timescale == 0x81828384 && box->event_duration == 0xA1A2A3A4 &&
           box->id == 0xB1B2B3B4;
}

static int is_emsg_0(const void *told) {
    const struct mp4_emsg_box *box = told;
    return has_emsg_fields(box) && box->version == 0 && box->presentation_time_delta == 0x91929394 &&
           box->presentation_time == 0;
}

static int is_emsg_1(const void *told) {
    const struct mp4_emsg_box *box = told;
    return has_emsg_fields(box) && box->version == 1 && box->presentation_time == 0x9192939495969798 &&
           box->presentation_time_delta == 0;
}

/* Calls mp4_emsg with `rows` for the message, the value and the scheme, in this order. Each has exactly the places that
 * it needs. */
static uint32_t call_emsg(const uint8_t *bytes, size_t length, void *rows, size_t places, void *told) {
    uint8_t *texts = rows;
    EXPECT(places == 11);
    return mp4_emsg(bytes, length, texts + 5, 6, texts + 2, 3, texts, 2, (struct mp4_emsg_box *)told);
}

static int are_texts(const void *rows, size_t count) {
    return count == 11 && memcmp(rows, MESSAGE VALUE SCHEME, 11) == 0;
}

static const struct subject EMSGS[] = {
    {"emsg of version 0", call_emsg, 1, sizeof(struct mp4_emsg_box), are_texts, is_emsg_0, 11, BYTES(EMSG_0), {0, 0}},
    {"emsg of version 1", call_emsg, 1, sizeof(struct mp4_emsg_box), are_texts, is_emsg_1, 11, BYTES(EMSG_1), {0, 0}},
};

static void try_short_texts(void) {
    struct mp4_emsg_box box;
    uint8_t scheme[7] = "......", value[4] = "...", message[3] = "..";
    subject = "short arrays of an emsg";
    EXPECT(mp4_emsg(BYTES(EMSG_0), scheme, 5, value, 3, message, 2, &box) == MP4_NO_ROOM && is_emsg_0(&box));
    EXPECT(mp4_emsg(BYTES(EMSG_0), scheme, 6, value, 2, message, 2, &box) == MP4_NO_ROOM && is_emsg_0(&box));
    EXPECT(mp4_emsg(BYTES(EMSG_1), scheme, 6, value, 3, message, 1, &box) == MP4_NO_ROOM && is_emsg_1(&box));
    EXPECT(mp4_emsg(BYTES(EMSG_1), NULL, 0, NULL, 0, NULL, 0, &box) == MP4_NO_ROOM && is_emsg_1(&box));
    EXPECT(scheme[0] == '.' && scheme[5] == '.' && value[2] == '.' && message[1] == '.');
    EXPECT(mp4_emsg(BYTES(EMSG_0), scheme, 7, value, 4, message, 3, &box) == MP4_OK);
    EXPECT(memcmp(scheme, SCHEME, 7) == 0 && memcmp(value, VALUE, 4) == 0 && memcmp(message, MESSAGE, 3) == 0);
}

/* Writing. `writes` writes the box that is read from `bytes`, so it has to write these bytes. */

struct writing {
    const char *name;
    uint32_t (*writes)(uint8_t *bytes, size_t places, size_t *length);
    const uint8_t *bytes;
    size_t length;
    int takes_memory;
};

static uint32_t write_with(const struct writing *w, size_t places) {
    uint8_t *bytes = at_page_end(places);
    size_t length = 0xA5A5;
    uint32_t status;
    calls += 1;
    status = w->writes(bytes, places, &length);
    EXPECT(held == 0);
    if (status == MP4_OK)
        EXPECT(memcmp(bytes, w->bytes, w->length) == 0 && is_filler(bytes + w->length, places - w->length));
    else
        EXPECT(is_filler(bytes, places));
    EXPECT(length == (status == MP4_OK || status == MP4_NO_ROOM ? w->length : 0xA5A5));
    give_back(bytes, places);
    return status;
}

static void try_writing(const struct writing *w) {
    long request, most;
    subject = w->name;
    refuse(0, 0);
    EXPECT(write_with(w, w->length) == MP4_OK);
    most = asked;
    EXPECT((most > 0) == w->takes_memory);
    EXPECT(write_with(w, w->length + 3) == MP4_OK);
    EXPECT(write_with(w, w->length - 1) == MP4_NO_ROOM);
    EXPECT(write_with(w, 0) == MP4_NO_ROOM);
    for (request = 1; request <= most; request++) {
        refuse(request, 1);
        EXPECT(write_with(w, w->length) == MP4_OUT_OF_MEMORY);
    }
    refuse(0, 0);
}

/* Checks that a write of faulty values is refused, with nothing changed. */
#define REFUSED(call)                                                                                                  \
    do {                                                                                                               \
        uint8_t bytes[200];                                                                                            \
        size_t length = 0xA5A5;                                                                                        \
        memset(bytes, FILLER, sizeof bytes);                                                                           \
        EXPECT((call) == MP4_INVALID_DATA);                                                                            \
        EXPECT(length == 0xA5A5 && is_filler(bytes, sizeof bytes) && held == 0);                                       \
    } while (0)
#define OUT bytes, sizeof bytes, &length

static const uint32_t BRANDS[] = {0x69736F6D, 0x61766331, 0xA9726179};
/* The writing functions ignore counts, which are wrong here. */
static const struct mp4_ftyp_box FTYP_FIELDS = {77, 0x69736F36, 0x81828384};
static const struct mp4_hdlr_box HDLR_FIELDS = {77, 0x868788, 0x76696465, 0x85};
static const struct mp4_dref_box DREF_FIELDS = {{77, 0x868788, 0x85}, 0x969798, 0x95, 2};
static const struct mp4_dref_box DREF_NO_URL = {{77, 0xFFFFFFFF, 0x85}, 0x969798, 0x95, 0};
static const struct mp4_emsg_box EMSG_0_FIELDS = {77,         77,         77,         0x9192939495969798, 0x91929394,
                                                  0x81828384, 0xA1A2A3A4, 0xB1B2B3B4, 0x868788,           0};
static const struct mp4_emsg_box EMSG_1_FIELDS = {77,         77,         77,         0x9192939495969798, 0x91929394,
                                                  0x81828384, 0xA1A2A3A4, 0xB1B2B3B4, 0x868788,           1};

#define WRITES(name, call)                                                                                             \
    static uint32_t name(uint8_t *bytes, size_t places, size_t *length) { return call; }
#define TEXT(text) (const uint8_t *)(text), sizeof(text) - 1
WRITES(write_ftyp, mp4_write_ftyp(&FTYP_FIELDS, BRANDS, 3, bytes, places, length))
WRITES(write_hdlr, mp4_write_hdlr(&HDLR_FIELDS, TEXT(NAME), bytes, places, length))
WRITES(write_dref, mp4_write_dref(&DREF_FIELDS, TEXT(LOCATION), bytes, places, length))
/* Without a url its location is ignored. */
WRITES(write_dref_without, mp4_write_dref(&DREF_NO_URL, TEXT("\xFF"), bytes, places, length))
WRITES(write_emsg_0, mp4_write_emsg(&EMSG_0_FIELDS, TEXT(SCHEME), TEXT(VALUE), TEXT(MESSAGE), bytes, places, length))
WRITES(write_emsg_1, mp4_write_emsg(&EMSG_1_FIELDS, TEXT(SCHEME), TEXT(VALUE), TEXT(MESSAGE), bytes, places, length))

/* The stsd that is written was read from the bytes. */
static struct mp4_stsd_box stsd;
WRITES(write_stsd, mp4_write_stsd(&stsd, SET_LENGTHS, 3, TEXT(SET_BYTES), bytes, places, length))
WRITES(write_stsd_without_sets, mp4_write_stsd(&stsd, NULL, 0, NULL, 0, bytes, places, length))

static const struct writing WRITINGS[] = {
    {"write ftyp", write_ftyp, BYTES(FTYP), 1},
    {"write hdlr", write_hdlr, (const uint8_t *)HDLR, sizeof HDLR, 1},
    {"write dref", write_dref, BYTES(DREF), 1},
    {"write dref without url", write_dref_without, BYTES(DREF_WITHOUT), 0},
    {"write emsg of version 0", write_emsg_0, BYTES(EMSG_0), 1},
    {"write emsg of version 1", write_emsg_1, BYTES(EMSG_1), 1},
};

static void try_stsd(const struct subject *s, int has_sets) {
    size_t lengths[3];
    uint8_t sets[6];
    struct writing w;
    w.name = s->name;
    w.writes = has_sets ? write_stsd : write_stsd_without_sets;
    w.bytes = s->bytes;
    w.length = s->length;
    w.takes_memory = has_sets;
    memset(&stsd, FILLER, sizeof stsd);
    EXPECT(mp4_stsd(s->bytes, s->length, lengths, 3, sets, 6, &stsd) == MP4_OK);
    try_writing(&w);
}

static void try_faults(void) {
    struct mp4_hdlr_box hdlr = HDLR_FIELDS;
    struct mp4_dref_box dref = DREF_FIELDS;
    struct mp4_emsg_box emsg = EMSG_0_FIELDS;
    size_t lengths[3] = {3, 1, 2};
    subject = "faults of what is written";
    hdlr.flags = 0x1000000;
    REFUSED(mp4_write_hdlr(&hdlr, TEXT(NAME), OUT));
    REFUSED(mp4_write_hdlr(&HDLR_FIELDS, TEXT("\xC3"), OUT));
    dref.flags = 0x1000000;
    REFUSED(mp4_write_dref(&dref, TEXT(LOCATION), OUT));
    dref = DREF_FIELDS;
    dref.url.flags = 0x1000000;
    REFUSED(mp4_write_dref(&dref, TEXT(LOCATION), OUT));
    REFUSED(mp4_write_dref(&DREF_FIELDS, TEXT("\xFF"), OUT));
    emsg.version = 2;
    REFUSED(mp4_write_emsg(&emsg, TEXT(SCHEME), TEXT(VALUE), TEXT(MESSAGE), OUT));
    emsg = EMSG_1_FIELDS;
    emsg.flags = 0x1000000;
    REFUSED(mp4_write_emsg(&emsg, TEXT(SCHEME), TEXT(VALUE), TEXT(MESSAGE), OUT));
    REFUSED(mp4_write_emsg(&EMSG_0_FIELDS, TEXT("\xFF"), TEXT(VALUE), TEXT(MESSAGE), OUT));
    REFUSED(mp4_write_emsg(&EMSG_0_FIELDS, TEXT(SCHEME), TEXT("\xFF"), TEXT(MESSAGE), OUT));
    REFUSED(mp4_write_emsg(&EMSG_0_FIELDS, TEXT("a\0b"), TEXT(VALUE), TEXT(MESSAGE), OUT));
    REFUSED(mp4_write_emsg(&EMSG_1_FIELDS, TEXT(SCHEME), TEXT("a\0b"), TEXT(MESSAGE), OUT));
    EXPECT(mp4_stsd(BYTES(STSD_AVC1), lengths, 3, (uint8_t[6]){0}, 6, &stsd) == MP4_OK);
    REFUSED(mp4_write_stsd(&stsd, lengths, 2, TEXT("\x67\x64\x1F\x41"), OUT));
    REFUSED(mp4_write_stsd(&stsd, lengths, 3, TEXT("\x67\x64\x1F\x41\x68"), OUT));
    REFUSED(mp4_write_stsd(&stsd, lengths, 3, TEXT(SET_BYTES "\xEF"), OUT));
    stsd.avc1.avcc.sequence_count = SIZE_MAX;
    stsd.avc1.avcc.picture_count = 4;
    REFUSED(mp4_write_stsd(&stsd, lengths, 3, TEXT(SET_BYTES), OUT));
    stsd.entry = 0x61763031;
    REFUSED(mp4_write_stsd(&stsd, lengths, 3, TEXT(SET_BYTES), OUT));
    EXPECT(mp4_stsd(BYTES(STSD_VP09), NULL, 0, NULL, 0, &stsd) == MP4_OK);
    stsd.vp09.vpcc.bit_depth = 16;
    REFUSED(mp4_write_stsd(&stsd, NULL, 0, NULL, 0, OUT));
    stsd.vp09.vpcc.bit_depth = 15;
    stsd.flags = 0x1000000;
    REFUSED(mp4_write_stsd(&stsd, NULL, 0, NULL, 0, OUT));
    EXPECT(mp4_stsd(BYTES(STSD_MP4A), NULL, 0, NULL, 0, &stsd) == MP4_OK);
    stsd.mp4a.esds.profile = 31;
    REFUSED(mp4_write_stsd(&stsd, NULL, 0, NULL, 0, OUT));
}

#define EACH(list, index) for (index = 0; index < sizeof list / sizeof list[0]; index++)

int main(void) {
    size_t index;
    EACH(WITH_ROWS, index)
    try_box(&WITH_ROWS[index], 1);
    EACH(TOLD_BOXES, index)
    try_box(&TOLD_BOXES[index], 0);
    EACH(WITH_SETS, index) {
        size_t cut;
        const struct subject *s = &WITH_SETS[index];
        refuse_each(s);
        for (cut = 1; cut < s->length; cut++)
            EXPECT(call_with(s, s->bytes, cut, s->count) == MP4_END_OF_INPUT);
    }
    EACH(STSD_BOXES, index)
    try_box(&STSD_BOXES[index], 0);
    EACH(EMSGS, index) {
        refuse_each(&EMSGS[index]);
        try_header(&EMSGS[index]);
    }
    try_short_sets();
    try_short_texts();
    EACH(WRITINGS, index)
    try_writing(&WRITINGS[index]);
    try_stsd(&WITH_SETS[2], 1);
    for (index = 0; index < 5; index++)
        try_stsd(&STSD_BOXES[index], 0);
    try_faults();
    printf("%ld calls and %ld checks of strings and sample entries passed\n", calls, checks);
    return 0;
}

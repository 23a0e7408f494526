/*
 * Calls the functions of include/mp4_box_codec.h for boxes of fixed fields: reads each and writes each, with arrays
 * that are long enough and too short, bytes that have each fault, numbers that don't fit, and memory that is refused.
 * The bytes were worked out from docs/LAYOUT.md: no two fields are alike.
 */
#include "checks.h"

/* A box as a struct and as bytes, with the functions that read the bytes and write the struct. */
struct box {
    const char *name;
    call *reads, *writes; /* `writes` gets the struct instead of the bytes, and the bytes instead of the rows */
    int (*are_same)(const void *one, const void *other);
    const void *fields;
    size_t size;
    const uint8_t *bytes;
    size_t length;
    int has_times; /* only version 0 and 1 */
    int takes_memory;
};

static const struct box *tried;

static int no_rows(const void *rows, size_t count) {
    (void)rows;
    return count == 0;
}

static int are_fields(const void *told) { return tried->are_same(told, tried->fields); }

static int are_bytes(const void *rows, size_t count) {
    return count == tried->length && memcmp(rows, tried->bytes, count) == 0;
}

static int is_length(const void *told) { return *(const size_t *)told == tried->length; }

#define BOX(name, comparison)                                                                                          \
    static uint32_t read_##name(const uint8_t *bytes, size_t length, void *rows, size_t places, void *told) {          \
        (void)rows;                                                                                                    \
        (void)places;                                                                                                  \
        return mp4_##name(bytes, length, (struct mp4_##name##_box *)told);                                             \
    }                                                                                                                  \
    static uint32_t write_##name(const uint8_t *bytes, size_t length, void *rows, size_t places, void *told) {         \
        (void)length;                                                                                                  \
        return mp4_write_##name((const struct mp4_##name##_box *)bytes, (uint8_t *)rows, places, (size_t *)told);      \
    }                                                                                                                  \
    static int same_##name(const void *one, const void *other) {                                                       \
        const struct mp4_##name##_box *a = one, *b = other;                                                            \
        return a->version == b->version && a->flags == b->flags && (comparison);                                       \
    }
#define SAME(field) (a->field == b->field)
#define ALIKE(field) (memcmp(a->field, b->field, sizeof a->field) == 0)

BOX(mvhd, SAME(creation_time) && SAME(modification_time) && SAME(duration) && SAME(timescale) && SAME(rate) &&
              ALIKE(matrix) && SAME(next_track_id) && SAME(volume))
BOX(tkhd, SAME(creation_time) && SAME(modification_time) && SAME(duration) && SAME(track_id) && ALIKE(matrix) &&
              SAME(width) && SAME(height) && SAME(layer) && SAME(alternate_group) && SAME(volume))
BOX(mdhd, SAME(creation_time) && SAME(modification_time) && SAME(duration) && SAME(timescale) && ALIKE(language))
BOX(mehd, SAME(fragment_duration))
BOX(mfhd, SAME(sequence_number))
BOX(smhd, SAME(balance))
BOX(vmhd, SAME(graphics_mode) && SAME(red) && SAME(green) && SAME(blue))
BOX(trex, SAME(track_id) && SAME(default_sample_description_index) && SAME(default_sample_duration) &&
              SAME(default_sample_size) && SAME(default_sample_flags))
BOX(tfdt, SAME(base_media_decode_time))
BOX(tfhd, SAME(base_data_offset) && SAME(track_id) && SAME(sample_description_index) && SAME(default_sample_duration) &&
              SAME(default_sample_size) && SAME(default_sample_flags))

/* The values, and their bytes. */

#define ZEROS_8 "\0\0\0\0\0\0\0\0"
#define MATRIX                                                                                                         \
    { 0x11121314, 0x21222324, 0x31323334, 0x41424344, 0x51525354, 0x61626364, 0x71727374, -2, -0x7FFFFFFF }
#define MATRIX_BYTES                                                                                                   \
    "\x11\x12\x13\x14\x21\x22\x23\x24\x31\x32\x33\x34\x41\x42\x43\x44\x51\x52\x53\x54\x61\x62\x63\x64\x71\x72\x73\x74" \
    "\xFF\xFF\xFF\xFE\x80\0\0\1"
#define FIRST 0x8182838485868788
#define SECOND 0x9192939495969798
#define THIRD 0xA1A2A3A4A5A6A7A8
#define FIRST_BYTES "\x81\x82\x83\x84\x85\x86\x87\x88"
#define SECOND_BYTES "\x91\x92\x93\x94\x95\x96\x97\x98"
#define THIRD_BYTES "\xA1\xA2\xA3\xA4\xA5\xA6\xA7\xA8"

static const struct mp4_mvhd_box MVHD_0 = {0x81828384, 0x91929394, 0xA1A2A3A4, 0xB1B2B3, 0xC1C2C3C4,
                                           0xD1D2D3D4, MATRIX,     0xE1E2E3E4, 0xF1F2,   0};
static const struct mp4_mvhd_box MVHD_1 = {FIRST,      SECOND, THIRD,      0xB1B2B3, 0xC1C2C3C4,
                                           0xD1D2D3D4, MATRIX, 0xE1E2E3E4, 0xF1F2,   1};
#define MVHD_END "\xD1\xD2\xD3\xD4\xF1\xF2" ZEROS_8 "\0\0" MATRIX_BYTES ZEROS_8 ZEROS_8 ZEROS_8 "\xE1\xE2\xE3\xE4"
#define MVHD_0_BYTES                                                                                                   \
    "\0\0\0\x6Cmvhd\0\xB1\xB2\xB3\x81\x82\x83\x84\x91\x92\x93\x94\xC1\xC2\xC3\xC4\xA1\xA2\xA3\xA4" MVHD_END
#define MVHD_1_BYTES "\0\0\0\x78mvhd\1\xB1\xB2\xB3" FIRST_BYTES SECOND_BYTES "\xC1\xC2\xC3\xC4" THIRD_BYTES MVHD_END

static const struct mp4_tkhd_box TKHD_0 = {0x81828384, 0x91929394, 0xA1A2A3A4, 0xB1B2B3, 0xC1C2C3C4, MATRIX,
                                           0xD1D2D3D4, 0xE1E2E3E4, -2,         0x7172,   0xF1F2,     0};
static const struct mp4_tkhd_box TKHD_1 = {FIRST,      SECOND,     THIRD, 0xB1B2B3, 0xC1C2C3C4, MATRIX,
                                           0xD1D2D3D4, 0xE1E2E3E4, -2,    0x7172,   0xF1F2,     1};
#define TKHD_END ZEROS_8 "\xFF\xFE\x71\x72\xF1\xF2\0\0" MATRIX_BYTES "\xD1\xD2\xD3\xD4\xE1\xE2\xE3\xE4"
#define TKHD_0_BYTES                                                                                                   \
    "\0\0\0\x5Ctkhd\0\xB1\xB2\xB3\x81\x82\x83\x84\x91\x92\x93\x94\xC1\xC2\xC3\xC4\0\0\0\0\xA1\xA2\xA3\xA4" TKHD_END
#define TKHD_1_BYTES                                                                                                   \
    "\0\0\0\x68tkhd\1\xB1\xB2\xB3" FIRST_BYTES SECOND_BYTES "\xC1\xC2\xC3\xC4\0\0\0\0" THIRD_BYTES TKHD_END

/* The code of the language has 5, 14 and 7 in five bits each: the letters e, n and g. */
static const struct mp4_mdhd_box MDHD_0 = {0x81828384, 0x91929394, 0xA1A2A3A4, 0xB1B2B3, 0xC1C2C3C4, "eng", 0};
static const struct mp4_mdhd_box MDHD_1 = {FIRST, SECOND, THIRD, 0xB1B2B3, 0xC1C2C3C4, "eng", 1};
#define MDHD_0_BYTES                                                                                                   \
    "\0\0\0\x20mdhd\0\xB1\xB2\xB3\x81\x82\x83\x84\x91\x92\x93\x94\xC1\xC2\xC3\xC4\xA1\xA2\xA3\xA4\x15\xC7\0\0"
#define MDHD_1_BYTES                                                                                                   \
    "\0\0\0\x2Cmdhd\1\xB1\xB2\xB3" FIRST_BYTES SECOND_BYTES "\xC1\xC2\xC3\xC4" THIRD_BYTES "\x15\xC7\0\0"

static const struct mp4_mehd_box MEHD_0 = {0x81828384, 0xB1B2B3, 0}, MEHD_1 = {FIRST, 0xB1B2B3, 1};
static const struct mp4_mfhd_box MFHD = {0xB1B2B3, 0x81828384, 0xA9};
static const struct mp4_smhd_box SMHD = {0xB1B2B3, -0x7EFE, 0xA9};
static const struct mp4_vmhd_box VMHD = {0xB1B2B3, 0x8182, 0x9192, 0xA1A2, 0xC1C2, 0xA9};
static const struct mp4_trex_box TREX = {0xB1B2B3, 0x81828384, 0x91929394, 0xA1A2A3A4, 0xC1C2C3C4, 0xD1D2D3D4, 0xA9};
static const struct mp4_tfdt_box TFDT_0 = {0x81828384, 0xB1B2B3, 0}, TFDT_1 = {FIRST, 0xB1B2B3, 1};
static const struct mp4_tfhd_box TFHD_0 = {0, 0x80FFC4, 0x81828384, 0, 0, 0, 0, 0xA9};
static const struct mp4_tfhd_box TFHD_1 = {FIRST,      0x80003B,   0x81828384, 0x91929394,
                                           0xA1A2A3A4, 0xC1C2C3C4, 0xD1D2D3D4, 0xA9};

#define CASE(name, value, text, has_times, takes_memory)                                                               \
    { #name, read_##name, write_##name, same_##name, &value, sizeof value, BYTES(text), has_times, takes_memory }

static const struct box BOXES[] = {
    CASE(mvhd, MVHD_0, MVHD_0_BYTES, 1, 0),
    CASE(mvhd, MVHD_1, MVHD_1_BYTES, 1, 0),
    CASE(tkhd, TKHD_0, TKHD_0_BYTES, 1, 0),
    CASE(tkhd, TKHD_1, TKHD_1_BYTES, 1, 0),
    CASE(mdhd, MDHD_0, MDHD_0_BYTES, 1, 1),
    CASE(mdhd, MDHD_1, MDHD_1_BYTES, 1, 1),
    CASE(mehd, MEHD_0, "\0\0\0\x10mehd\0\xB1\xB2\xB3\x81\x82\x83\x84", 1, 0),
    CASE(mehd, MEHD_1, "\0\0\0\x14mehd\1\xB1\xB2\xB3" FIRST_BYTES, 1, 0),
    CASE(mfhd, MFHD, "\0\0\0\x10mfhd\xA9\xB1\xB2\xB3\x81\x82\x83\x84", 0, 0),
    CASE(smhd, SMHD, "\0\0\0\x10smhd\xA9\xB1\xB2\xB3\x81\2\0\0", 0, 0),
    CASE(vmhd, VMHD, "\0\0\0\x14vmhd\xA9\xB1\xB2\xB3\x81\x82\x91\x92\xA1\xA2\xC1\xC2", 0, 0),
    CASE(trex, TREX,
         "\0\0\0\x20trex\xA9\xB1\xB2\xB3\x81\x82\x83\x84\x91\x92\x93\x94\xA1\xA2\xA3\xA4\xC1\xC2\xC3\xC4"
         "\xD1\xD2\xD3\xD4",
         0, 0),
    CASE(tfdt, TFDT_0, "\0\0\0\x10tfdt\0\xB1\xB2\xB3\x81\x82\x83\x84", 1, 0),
    CASE(tfdt, TFDT_1, "\0\0\0\x14tfdt\1\xB1\xB2\xB3" FIRST_BYTES, 1, 0),
    CASE(tfhd, TFHD_0, "\0\0\0\x10tfhd\xA9\x80\xFF\xC4\x81\x82\x83\x84", 0, 0),
    CASE(tfhd, TFHD_1,
         "\0\0\0\x28tfhd\xA9\x80\0\x3B\x81\x82\x83\x84" FIRST_BYTES "\x91\x92\x93\x94\xA1\xA2\xA3\xA4"
         "\xC1\xC2\xC3\xC4\xD1\xD2\xD3\xD4",
         0, 0),
};

/* The offset of the version in the bytes of each box. */
#define VERSION_AT 8

static void try_memory(const struct subject *s, int takes_memory) {
    if (takes_memory) {
        refuse_each(s);
    } else {
        refuse(1, 1);
        EXPECT(call_with(s, s->bytes, s->length, s->count) == MP4_OK);
        EXPECT(asked == 0);
        refuse(0, 0);
    }
}

static void try_reading(const struct box *box) {
    struct subject s = {box->name, box->reads, 1, box->size, no_rows, are_fields, 0, box->bytes, box->length, {0, 0}};
    uint8_t bytes[128];
    size_t cut;
    subject = box->name;
    try_memory(&s, box->takes_memory);
    for (cut = 1; cut < s.length; cut++)
        EXPECT(call_with(&s, s.bytes, cut, 0) == MP4_END_OF_INPUT);
    try_header(&s);
    memcpy(bytes, s.bytes, s.length);
    /* Fields are read past the size of the box, up to the end of the bytes. */
    bytes[3] = 8;
    EXPECT(call_with(&s, bytes, s.length, 0) == MP4_OK);
    EXPECT(call_with(&s, bytes, 11, 0) == MP4_END_OF_INPUT);
    if (box->has_times) {
        bytes[3] = (uint8_t)s.length;
        bytes[VERSION_AT] = 2;
        EXPECT(call_with(&s, bytes, s.length, 0) == MP4_INVALID_DATA);
    }
}

static void try_writing(const struct box *box) {
    struct subject s = {box->name, box->writes, 1,           sizeof(size_t), are_bytes,
                        is_length, box->length, box->fields, box->size,      {0, 0}};
    subject = box->name;
    try_memory(&s, box->takes_memory);
    EXPECT(call_with(&s, s.bytes, s.length, s.count + 3) == MP4_OK);
    EXPECT(call_with(&s, s.bytes, s.length, s.count - 1) == MP4_NO_ROOM);
    EXPECT(call_with(&s, s.bytes, s.length, 0) == MP4_NO_ROOM);
}

/* Checks that a box is refused after `change`, which makes a value that can't be written. */
#define REFUSED(name, value, change)                                                                                   \
    do {                                                                                                               \
        struct mp4_##name##_box spoiled = value;                                                                       \
        uint8_t bytes[128];                                                                                            \
        size_t length = 77;                                                                                            \
        subject = #name;                                                                                               \
        spoiled.change;                                                                                                \
        memset(bytes, FILLER, sizeof bytes);                                                                           \
        EXPECT(mp4_write_##name(&spoiled, bytes, sizeof bytes, &length) == MP4_INVALID_DATA);                          \
        EXPECT(length == 77 && is_filler(bytes, sizeof bytes));                                                        \
    } while (0)

static void try_refused(void) {
    REFUSED(mvhd, MVHD_0, flags = 0x1000000);
    REFUSED(tkhd, TKHD_0, flags = 0x1000000);
    REFUSED(mdhd, MDHD_0, flags = 0x1000000);
    REFUSED(mehd, MEHD_0, flags = 0x1000000);
    REFUSED(mfhd, MFHD, flags = 0x1000000);
    REFUSED(smhd, SMHD, flags = 0x1000000);
    REFUSED(vmhd, VMHD, flags = 0x1000000);
    REFUSED(trex, TREX, flags = 0x1000000);
    REFUSED(tfdt, TFDT_0, flags = 0x1000000);
    REFUSED(tfhd, TFHD_1, flags = 0x100003B);
    REFUSED(mvhd, MVHD_1, version = 2);
    REFUSED(tkhd, TKHD_1, version = 2);
    REFUSED(mdhd, MDHD_1, version = 2);
    REFUSED(mehd, MEHD_1, version = 2);
    REFUSED(tfdt, TFDT_1, version = 2);
    REFUSED(mvhd, MVHD_0, creation_time = 0x100000000);
    REFUSED(mvhd, MVHD_0, modification_time = 0x100000000);
    REFUSED(mvhd, MVHD_0, duration = 0x100000000);
    REFUSED(tkhd, TKHD_0, creation_time = 0x100000000);
    REFUSED(tkhd, TKHD_0, modification_time = 0x100000000);
    REFUSED(tkhd, TKHD_0, duration = 0x100000000);
    REFUSED(mdhd, MDHD_0, creation_time = 0x100000000);
    REFUSED(mdhd, MDHD_0, modification_time = 0x100000000);
    REFUSED(mdhd, MDHD_0, duration = 0x100000000);
    REFUSED(mehd, MEHD_0, fragment_duration = 0x100000000);
    REFUSED(tfdt, TFDT_0, base_media_decode_time = 0x100000000);
}

/* Checks a tfhd with only one of its flags, for each flag: the field of the flag is written and read, and no other. */
static void try_flags(void) {
    static const struct {
        uint32_t flag;
        const char *bytes;
        size_t length;
    } FIELDS[] = {
        {0x1, FIRST_BYTES, 8},         {0x2, "\x91\x92\x93\x94", 4},  {0x8, "\xA1\xA2\xA3\xA4", 4},
        {0x10, "\xC1\xC2\xC3\xC4", 4}, {0x20, "\xD1\xD2\xD3\xD4", 4},
    };
    size_t i;
    subject = "tfhd";
    for (i = 0; i < sizeof FIELDS / sizeof *FIELDS; i++) {
        struct mp4_tfhd_box box = TFHD_1, one = {0, 0, 0, 0, 0, 0, 0, 0}, read;
        uint8_t bytes[24];
        size_t length = 0;
        box.flags = FIELDS[i].flag;
        EXPECT(mp4_write_tfhd(&box, bytes, sizeof bytes, &length) == MP4_OK);
        EXPECT(length == 16 + FIELDS[i].length && bytes[3] == length && bytes[11] == FIELDS[i].flag);
        EXPECT(memcmp(bytes + 16, FIELDS[i].bytes, FIELDS[i].length) == 0);
        one.version = box.version;
        one.flags = box.flags;
        one.track_id = box.track_id;
        *(i == 0 ? &one.base_data_offset : &(uint64_t){0}) = box.base_data_offset;
        *(i == 1 ? &one.sample_description_index : &(uint32_t){0}) = box.sample_description_index;
        *(i == 2 ? &one.default_sample_duration : &(uint32_t){0}) = box.default_sample_duration;
        *(i == 3 ? &one.default_sample_size : &(uint32_t){0}) = box.default_sample_size;
        *(i == 4 ? &one.default_sample_flags : &(uint32_t){0}) = box.default_sample_flags;
        EXPECT(mp4_tfhd(bytes, length, &read) == MP4_OK && same_tfhd(&read, &one));
    }
}

/* Checks that only the five low bits of the letters of a language are written. */
static void try_languages(void) {
    static const struct {
        char given[4];
        uint8_t code[2];
        char read[4];
    } LANGUAGES[] = {
        {"und", {0x55, 0xC4}, "und"},
        {"ENG", {0x15, 0xC7}, "eng"},
        {"", {0, 0}, "```"},
        {{'\x7F', '\xFF', '\x1F', 'x'}, {0x7F, 0xFF}, {'\x7F', '\x7F', '\x7F', 0}},
    };
    size_t i;
    subject = "mdhd";
    for (i = 0; i < sizeof LANGUAGES / sizeof *LANGUAGES; i++) {
        struct mp4_mdhd_box box = MDHD_0;
        uint8_t bytes[32];
        size_t length = 0;
        memcpy(box.language, LANGUAGES[i].given, 4);
        EXPECT(mp4_write_mdhd(&box, bytes, sizeof bytes, &length) == MP4_OK && length == 32);
        EXPECT(memcmp(bytes + 28, LANGUAGES[i].code, 2) == 0);
        EXPECT(mp4_mdhd(bytes, length, &box) == MP4_OK && memcmp(box.language, LANGUAGES[i].read, 4) == 0);
    }
}

/* Checks NULL for no bytes and for no places. */
static void try_null(void) {
    struct mp4_mfhd_box box = MFHD;
    size_t length = 0;
    subject = "NULL";
    EXPECT(mp4_mfhd(NULL, 0, &box) == MP4_END_OF_INPUT && same_mfhd(&box, &MFHD));
    EXPECT(mp4_write_mfhd(&box, NULL, 0, &length) == MP4_NO_ROOM && length == 16);
    EXPECT(mp4_write_mdhd(&MDHD_1, NULL, 0, &length) == MP4_NO_ROOM && length == 44);
    EXPECT(mp4_write_tfhd(&TFHD_1, NULL, 0, &length) == MP4_NO_ROOM && length == 40);
}

int main(void) {
    size_t i;
    for (i = 0; i < sizeof BOXES / sizeof BOXES[0]; i++) {
        tried = &BOXES[i];
        try_reading(tried);
        try_writing(tried);
    }
    try_refused();
    try_flags();
    try_languages();
    try_null();
    printf("boxes: %ld calls of 20 functions, %ld checks\n", calls, checks);
    return 0;
}

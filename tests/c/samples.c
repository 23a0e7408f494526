/*
 * Calls the functions of include/mp4_box_codec.h that find the boxes of a file and the samples of a track, and those
 * for the version and the texts of the library. The calls have arrays that are long enough and too short, each fault,
 * each beginning of a file, and memory that is refused. The file and its samples were worked out from ISO/IEC 14496-12.
 */
#include "checks.h"

/* A track header up to the track_ID, and its bytes after that. */
#define ZEROS_17 "\0\0\0\0\0\0\0\0\0\0\0\0\0\0\0\0\0"
#define HEADER "\0\0\0\x5Ctkhd\0\0\0\7\0\0\0\0\0\0\0\0\0\0\0"
#define REST ZEROS_17 ZEROS_17 ZEROS_17 ZEROS_17
/* The media of a track without samples in tables. */
#define MEDIA "\0\0\0\x18mdia\0\0\0\x10minf\0\0\0\x08stbl"

/* A movie with a track of track_ID 5 that has no media, and one of track_ID 7 with three samples of 3, 4 and 5 bytes.
 */
static const char FILE_BYTES[] = "\0\0\1\xADmoov"                  /* 0 */
                                 "\0\0\0\x64trak" HEADER "\5" REST /* 8 */
                                 "\0\0\1\x41trak" HEADER "\7" REST /* 108, its header at 116 */
                                 "\0\0\0\xDDmdia"                  /* 208 */
                                 "\0\0\0\x20mdhd\0\0\0\0\0\0\0\0\0\0\0\0\0\0\3\xE8\0\0\0\x1E\x55\xC4\0\0" /* 216 */
                                 "\0\0\0\x21hdlr\0\0\0\0\0\0\0\0vide\0\0\0\0\0\0\0\0\0\0\0\0\0"           /* 248 */
                                 "\0\0\0\x94minf\0\0\0\x8Cstbl"                                           /* 281, 289 */
                                 "\0\0\0\x20stsz\0\0\0\0\0\0\0\0\0\0\0\3\0\0\0\3\0\0\0\4\0\0\0\5"         /* 297 */
                                 "\0\0\0\x1Cstsc\0\0\0\0\0\0\0\1\0\0\0\1\0\0\0\2\0\0\0\1"                 /* 329 */
                                 "\0\0\0\x18stco\0\0\0\0\0\0\0\2\0\0\1\xB5\0\0\1\xBC"                     /* 357 */
                                 "\0\0\0\x18stts\0\0\0\0\0\0\0\1\0\0\0\3\0\0\0\x0A"                       /* 381 */
                                 "\0\0\0\x18stss\0\0\0\0\0\0\0\2\0\0\0\1\0\0\0\3"                         /* 405 */
                                 "\0\0\0\x14mdatabcdefghijkl";                                            /* 429 */

#define LENGTH (sizeof FILE_BYTES - 1)

/* The status and the number of samples for a file that is cut to `from` bytes or more, up to the next row. The first
 * box that is missing or cut decides the status, in this order: stsz, stco, stsc, stts, stss. */
static const struct {
    size_t from, count;
    uint32_t status;
} TABLE_BEGINNINGS[] = {
    {0, 0, MP4_BOX_NOT_FOUND},   /* no moov */
    {8, 0, MP4_NO_TRACK},
    {208, 0, MP4_BOX_NOT_FOUND}, /* no mdia, minf or stbl */
    {297, 0, MP4_OK},            /* no table, so no sample */
    {305, 0, MP4_END_OF_INPUT},  /* stsz is cut */
    {329, 0, MP4_BOX_NOT_FOUND}, /* no stco */
    {365, 0, MP4_END_OF_INPUT},
    {381, 0, MP4_BOX_NOT_FOUND}, /* no stts */
    {389, 0, MP4_END_OF_INPUT},
    {405, 3, MP4_OK},            /* no stss, so each sample is a sync sample */
    {413, 0, MP4_END_OF_INPUT},
    {429, 3, MP4_OK},
};

static uint32_t track_id = 7;

static uint32_t call_samples(const uint8_t *bytes, size_t length, void *rows, size_t places, void *told) {
    return mp4_samples(bytes, length, track_id, (struct mp4_sample *)rows, places, (size_t *)told);
}

static int is_sample(const struct mp4_sample *s, uint64_t offset, uint64_t time, uint32_t size, uint32_t chunk,
                     int sync) {
    return s->offset == offset && s->decode_time == time && s->rendering_offset == 0 && s->size == size &&
           s->duration == 10 && s->description == 1 && s->chunk == chunk && s->sync == sync;
}

static int are_samples(const void *rows, size_t count) {
    const struct mp4_sample *s = rows;
    return count == 3 && is_sample(&s[0], 437, 0, 3, 1, 1) && is_sample(&s[2], 444, 20, 5, 2, 1) &&
           (is_sample(&s[1], 440, 10, 4, 1, 0) || is_sample(&s[1], 440, 10, 4, 1, 1));
}

static int is_three(const void *told) { return *(const size_t *)told == 3; }

static int no_rows(const void *rows, size_t count) {
    (void)rows;
    return count == 0;
}

static int is_zero(const void *told) { return *(const size_t *)told == 0; }

/* Returns the status for a file with `byte` instead of its byte at `at`. */
static uint32_t with_byte(const struct subject *s, size_t at, uint8_t byte) {
    uint8_t bytes[1000];
    memcpy(bytes, s->bytes, s->length);
    bytes[at] = byte;
    return call_with(s, bytes, s->length, 3);
}

/* Tries a track without sizes: without chunks too it has no samples. */
static void try_no_sizes(const struct subject *s, const struct subject *none) {
    uint8_t bytes[LENGTH];
    memcpy(bytes, FILE_BYTES, LENGTH);
    bytes[301] = 'x'; /* no stsz */
    EXPECT(call_with(s, bytes, LENGTH, 3) == MP4_BOX_NOT_FOUND);
    bytes[372] = 0; /* no chunk in stco */
    EXPECT(call_with(none, bytes, LENGTH, 3) == MP4_OK);
    EXPECT(call_with(none, bytes, LENGTH, 0) == MP4_OK);
    bytes[361] = 'x'; /* no stco */
    EXPECT(call_with(none, bytes, LENGTH, 3) == MP4_OK);
}

/* Tries a file whose first moov is empty, and one with a moov of no track at its end. */
static void try_two_movies(const struct subject *s) {
    uint8_t bytes[LENGTH + 8];
    memcpy(bytes, "\0\0\0\x08moov", 8);
    memcpy(bytes + 8, FILE_BYTES, LENGTH);
    EXPECT(call_with(s, bytes, sizeof bytes, 3) == MP4_NO_TRACK);
    memcpy(bytes, FILE_BYTES, LENGTH);
    memcpy(bytes + LENGTH, "\0\0\0\x08moov", 8);
    EXPECT(call_with(s, bytes, sizeof bytes, 3) == MP4_OK);
}

static void try_samples(void) {
    struct subject s = {
        "mp4_samples",     call_samples, sizeof(struct mp4_sample), sizeof(size_t), are_samples, is_three, 3,
        BYTES(FILE_BYTES), {0, 0}};
    struct subject none = {
        "mp4_samples",     call_samples, sizeof(struct mp4_sample), sizeof(size_t), no_rows, is_zero, 0,
        BYTES(FILE_BYTES), {0, 0}};
    struct mp4_sample rows[3];
    size_t cut, at = 0, count = 0;
    refuse_each(&s);
    EXPECT(call_with(&s, s.bytes, LENGTH, 5) == MP4_OK);
    EXPECT(call_with(&s, s.bytes, LENGTH, 0) == MP4_NO_ROOM);
    EXPECT(call_with(&s, s.bytes, LENGTH, 2) == MP4_NO_ROOM);
    for (cut = 0; cut <= LENGTH; cut++) {
        if (at + 1 < sizeof TABLE_BEGINNINGS / sizeof *TABLE_BEGINNINGS && cut == TABLE_BEGINNINGS[at + 1].from)
            at++;
        EXPECT(call_with(TABLE_BEGINNINGS[at].count == 0 ? &none : &s, s.bytes, cut, 3) ==
               TABLE_BEGINNINGS[at].status);
    }
    try_no_sizes(&s, &none);
    try_two_movies(&s);
    memset(rows, 0, sizeof rows);
    EXPECT(mp4_samples(s.bytes, LENGTH, 7, rows, 3, &count) == MP4_OK && count == 3);
    EXPECT(rows[0].sync == 1 && rows[1].sync == 0 && rows[2].sync == 1);
    EXPECT(memcmp(s.bytes + rows[2].offset, "hijkl", rows[2].size) == 0);
    EXPECT(mp4_samples(s.bytes, LENGTH, 7, NULL, 0, &count) == MP4_NO_ROOM && count == 3);
    EXPECT(mp4_samples(NULL, 0, 7, NULL, 0, &count) == MP4_BOX_NOT_FOUND && count == 3);
    EXPECT(with_byte(&s, 124, 2) == MP4_NO_TRACK); /* a tkhd of an unknown version */
    EXPECT(with_byte(&s, 316, 9) == MP4_INVALID_DATA);
    EXPECT(with_byte(&s, 348, 2) == MP4_FIRST_CHUNK_DISAGREES);
    EXPECT(with_byte(&s, 352, 1) == MP4_CHUNKS_DISAGREE);
    EXPECT(with_byte(&s, 400, 2) == MP4_DURATIONS_DISAGREE);
    EXPECT(with_byte(&s, 428, 1) == MP4_SYNC_SAMPLES_DISAGREE);
    track_id = 6;
    EXPECT(call_with(&s, s.bytes, LENGTH, 3) == MP4_NO_TRACK);
    track_id = 5;
    EXPECT(call_with(&s, s.bytes, LENGTH, 3) == MP4_BOX_NOT_FOUND);
    track_id = 7;
}

/* Two fragments of the tracks 1 and 2. Those of track 1 have two samples of 3 and 6 bytes, beginning at the time
   1000, and one of the default size, after the data of track 2, whose samples have 5 bytes and are not sync samples. */
static const char FRAGMENT_BYTES[] = "\0\0\1\x48moov"                                                   /* 0 */
                                     "\0\0\0\x7Ctrak" HEADER "\1" REST MEDIA                            /* 8 */
                                     "\0\0\0\x7Ctrak" HEADER "\2" REST MEDIA                            /* 132 */
                                     "\0\0\0\x48mvex"                                                   /* 256 */
                                     "\0\0\0\x20trex\0\0\0\0\0\0\0\1\0\0\0\1\0\0\0\x0A\0\0\0\4\0\0\0\0" /* 264 */
                                     "\0\0\0\x20trex\0\0\0\0\0\0\0\2\0\0\0\1\0\0\0\7\0\0\0\5\0\1\0\0"   /* 296 */
                                     "\0\0\0\x84moof\0\0\0\x10mfhd\0\0\0\0\0\0\0\1"                     /* 328, 336 */
                                     "\0\0\0\x44traf\0\0\0\x10tfhd\0\0\0\0\0\0\0\1"                     /* 352, 360 */
                                     "\0\0\0\x10tfdt\0\0\0\0\0\0\3\xE8"                                 /* 376 */
                                     "\0\0\0\x1Ctrun\0\0\2\1\0\0\0\2\0\0\0\x8C\0\0\0\3\0\0\0\6"         /* 392 */
                                     "\0\0\0\x28traf\0\0\0\x10tfhd\0\0\0\0\0\0\0\2"                     /* 420, 428 */
                                     "\0\0\0\x10trun\0\0\0\0\0\0\0\3"                                   /* 444 */
                                     "\0\0\0\x20mdatabcdefghijklmnopqrstuvwx"                           /* 460 */
                                     "\0\0\0\x6Cmoof\0\0\0\x10mfhd\0\0\0\0\0\0\0\2"                     /* 492, 500 */
                                     "\0\0\0\x2Ctraf\0\0\0\x10tfhd\0\2\0\0\0\0\0\2"                     /* 516, 524 */
                                     "\0\0\0\x14trun\0\0\0\1\0\0\0\1\0\0\0\x74"                         /* 540 */
                                     "\0\0\0\x28traf\0\0\0\x10tfhd\0\0\0\0\0\0\0\1"                     /* 560, 568 */
                                     "\0\0\0\x10trun\0\0\0\0\0\0\0\1"                                   /* 584 */
                                     "\0\0\0\x11mdatabcdefghi";                                         /* 600 */

#define FRAGMENT_LENGTH (sizeof FRAGMENT_BYTES - 1)

/* The number of samples of the fragments of track 1, and the status, for a file that is cut to `from` bytes or more, up
 * to the next row. */
static const struct {
    size_t from, count;
    uint32_t status;
} BEGINNINGS[] = {
    {0, 0, MP4_BOX_NOT_FOUND},
    {8, 0, MP4_NO_TRACK},
    {108, 0, MP4_BOX_NOT_FOUND},
    {132, 0, MP4_OK},
    {360, 0, MP4_BOX_NOT_FOUND},
    {368, 0, MP4_END_OF_INPUT},
    {376, 0, MP4_OK},
    {384, 0, MP4_END_OF_INPUT},
    {392, 0, MP4_OK},
    {400, 0, MP4_END_OF_INPUT},
    {420, 2, MP4_OK},
    {428, 0, MP4_BOX_NOT_FOUND},
    {436, 0, MP4_END_OF_INPUT},
    {444, 2, MP4_OK},
    {452, 0, MP4_END_OF_INPUT},
    {460, 2, MP4_OK},
    {524, 0, MP4_BOX_NOT_FOUND},
    {532, 0, MP4_END_OF_INPUT},
    {540, 2, MP4_OK},
    {548, 0, MP4_END_OF_INPUT},
    {560, 2, MP4_OK},
    {568, 0, MP4_BOX_NOT_FOUND},
    {576, 0, MP4_END_OF_INPUT},
    {584, 2, MP4_OK},
    {592, 0, MP4_END_OF_INPUT},
    {600, 3, MP4_OK},
};

static uint32_t call_fragments(const uint8_t *bytes, size_t length, void *rows, size_t places, void *told) {
    return mp4_fragment_samples(bytes, length, track_id, (struct mp4_sample *)rows, places, (size_t *)told);
}

static int is_sample_of(const struct mp4_sample *s, uint64_t offset, uint64_t time, uint32_t size, uint32_t duration,
                        int sync) {
    return s->offset == offset && s->decode_time == time && s->rendering_offset == 0 && s->size == size &&
           s->duration == duration && s->description == 1 && s->chunk == 1 && s->sync == sync;
}

static int are_of_track_1(const void *rows, size_t count) {
    const struct mp4_sample *s = rows;
    return count == 3 && is_sample_of(&s[0], 468, 1000, 3, 10, 1) && is_sample_of(&s[1], 471, 1010, 6, 10, 1) &&
           is_sample_of(&s[2], 613, 1020, 4, 10, 1);
}

static void try_beginnings(void) {
    struct mp4_sample rows[3];
    size_t cut, at = 0, count;
    for (cut = 0; cut <= FRAGMENT_LENGTH; cut++) {
        if (at + 1 < sizeof BEGINNINGS / sizeof *BEGINNINGS && cut == BEGINNINGS[at + 1].from)
            at++;
        count = 9;
        EXPECT(mp4_fragment_samples((const uint8_t *)FRAGMENT_BYTES, cut, 1, rows, 3, &count) == BEGINNINGS[at].status);
        EXPECT(count == (BEGINNINGS[at].status == MP4_OK ? BEGINNINGS[at].count : 9));
    }
}

static void try_fragments(void) {
    struct subject s = {
        "mp4_fragment_samples", call_fragments, sizeof(struct mp4_sample), sizeof(size_t), are_of_track_1, is_three, 3,
        BYTES(FRAGMENT_BYTES),  {0, 0}};
    struct mp4_sample rows[4];
    size_t count = 0;
    track_id = 1;
    refuse_each(&s);
    EXPECT(call_with(&s, s.bytes, FRAGMENT_LENGTH, 5) == MP4_OK);
    EXPECT(call_with(&s, s.bytes, FRAGMENT_LENGTH, 0) == MP4_NO_ROOM);
    EXPECT(call_with(&s, s.bytes, FRAGMENT_LENGTH, 2) == MP4_NO_ROOM);
    try_beginnings();
    EXPECT(mp4_fragment_samples(s.bytes, FRAGMENT_LENGTH, 2, rows, 4, &count) == MP4_OK && count == 4);
    EXPECT(is_sample_of(&rows[0], 477, 0, 5, 7, 0) && is_sample_of(&rows[1], 482, 7, 5, 7, 0));
    EXPECT(is_sample_of(&rows[2], 487, 14, 5, 7, 0) && is_sample_of(&rows[3], 608, 21, 5, 7, 0));
    EXPECT(mp4_fragment_samples((const uint8_t *)FILE_BYTES, LENGTH, 7, NULL, 0, &count) == MP4_OK && count == 0);
    EXPECT(mp4_fragment_samples(NULL, 0, 7, NULL, 0, &count) == MP4_BOX_NOT_FOUND && count == 0);
    track_id = 3;
    EXPECT(call_with(&s, s.bytes, FRAGMENT_LENGTH, 3) == MP4_NO_TRACK);
    track_id = 1;
    EXPECT(with_byte(&s, 279, 3) == MP4_BOX_NOT_FOUND);       /* no defaults of track 1 */
    EXPECT(with_byte(&s, 311, 3) == MP4_OFFSETS_DISAGREE);    /* none of track 2, whose data are before */
    EXPECT(with_byte(&s, 408, 0xFF) == MP4_OFFSETS_DISAGREE); /* a data offset below 0 */
    EXPECT(with_byte(&s, 407, 3) == MP4_INVALID_DATA);        /* three samples of two sizes */
    EXPECT(with_byte(&s, 368, 1) == MP4_OK);                  /* a tfhd of another version */
    track_id = 7;
}

/* mp4_find, in the form that all functions share. Its result is a place. */

static const char *path;

static uint32_t call_find(const uint8_t *bytes, size_t length, void *rows, size_t places, void *told) {
    size_t long_ = strlen(path);
    uint8_t *text = at_page_end(long_);
    uint32_t status;
    (void)rows;
    (void)places;
    memcpy(text, path, long_);
    status = mp4_find(bytes, length, text, long_, (struct mp4_place *)told);
    give_back(text, long_);
    return status;
}

static int is_stsz(const void *told) {
    const struct mp4_place *place = told;
    return place->position == 297 && place->length == 32 && place->header_length == 8 && place->code == 0x7374737A &&
           place->is_whole == 1;
}

static void try_find(void) {
    struct subject s = {"mp4_find", call_find,         1,     sizeof(struct mp4_place), no_rows, is_stsz,
                        0,          BYTES(FILE_BYTES), {0, 0}};
    struct mp4_place place = {0, 0, 0, 0, 0};
    size_t cut;
    path = "moov/trak[1]/mdia/minf/stbl/stsz";
    refuse_each(&s);
    for (cut = 0; cut < 305; cut++)
        EXPECT(call_with(&s, s.bytes, cut, 0) == MP4_BOX_NOT_FOUND);
    for (cut = 329; cut <= LENGTH; cut++)
        EXPECT(call_with(&s, s.bytes, cut, 0) == MP4_OK);
    EXPECT(mp4_find(s.bytes, 305, (const uint8_t *)path, strlen(path), &place) == MP4_OK);
    EXPECT(place.position == 297 && place.length == 32 && place.is_whole == 0);
    path = "moov/trak/mdia";
    EXPECT(call_with(&s, s.bytes, LENGTH, 0) == MP4_BOX_NOT_FOUND);
    path = "moov/trak[1]/mdi";
    EXPECT(call_with(&s, s.bytes, LENGTH, 0) == MP4_INVALID_DATA);
    path = "moov/trak[one]";
    EXPECT(call_with(&s, s.bytes, LENGTH, 0) == MP4_INVALID_DATA);
    path = "moov/\xFF\xFFtr";
    EXPECT(call_with(&s, s.bytes, LENGTH, 0) == MP4_INVALID_DATA);
    path = "";
    EXPECT(call_with(&s, s.bytes, LENGTH, 0) == MP4_INVALID_DATA);
    EXPECT(mp4_find((const uint8_t *)"\0\0\0\1free\0\0\0\0\0\0\0\x10", 16, MP4_TEXT("free"), &place) == MP4_OK);
    EXPECT(place.position == 0 && place.length == 16 && place.header_length == 16 && place.code == 0x66726565);
    EXPECT(mp4_find(NULL, 0, MP4_TEXT("free"), &place) == MP4_BOX_NOT_FOUND);
    EXPECT(mp4_find(NULL, 0, NULL, 0, &place) == MP4_INVALID_DATA && place.length == 16);
}

/* Boxes whose sizes are smaller than their headers, at the end of a page. */

/* Writes `number` big-endian into the `width` bytes at the front of `to`. */
static void put_number(uint8_t *to, size_t width, uint64_t number) {
    while (width > 0) {
        to[--width] = (uint8_t)number;
        number >>= 8;
    }
}

/* Calls mp4_find for a file of `length` bytes: a moov, unless `outer` is 0, and in its last `inner` bytes the beginning
 * of a trak. The trak has the size `size`, and the 64-bit size `large` if `size` is 1. Bytes after the header are
 * zeros. */
static uint32_t find_trak(size_t outer, size_t inner, size_t length, uint32_t size, uint64_t large,
                          struct mp4_place *place) {
    uint8_t *bytes = at_page_end(length), head[16];
    const char *text = outer == 0 ? "trak" : "moov/trak";
    uint32_t status;
    memset(bytes, 0, length);
    if (outer > 0) {
        put_number(bytes, 4, outer + inner);
        memcpy(bytes + 4, "moov", 4);
    }
    put_number(head, 4, size);
    memcpy(head + 4, "trak", 4);
    put_number(head + 8, 8, size == 1 ? large : 0);
    memcpy(bytes + outer, head, inner < sizeof head ? inner : sizeof head);
    memset(place, FILLER, sizeof *place);
    status = mp4_find(bytes, length, (const uint8_t *)text, strlen(text), place);
    give_back(bytes, length);
    return status;
}

static int is_trak(const struct mp4_place *place, uint64_t position, uint64_t length, uint64_t header_length,
                   int is_whole) {
    return place->position == position && place->length == length && place->header_length == header_length &&
           place->code == 0x7472616B && place->is_whole == is_whole;
}

static void try_small_boxes(void) {
    static const size_t MORE[] = {0, 1, 8, 12, 20};
    struct mp4_place place;
    size_t i, inner;
    uint32_t size;
    uint64_t large;
    subject = "mp4_find of a box whose size is smaller than its header";
    for (i = 0; i < sizeof MORE / sizeof *MORE; i++) {
        inner = 8 + MORE[i];
        for (size = 2; size < 8; size++) {
            EXPECT(find_trak(0, inner, inner, size, 0, &place) == MP4_OK);
            EXPECT(is_trak(&place, 0, size, 8, 0));
        }
        for (size = 0; size < 8; size += size == 0 ? 2 : 1) {
            EXPECT(find_trak(8, inner, 8 + inner, size, 0, &place) == MP4_OK);
            EXPECT(is_trak(&place, 8, size, 8, 0));
        }
        inner = 16 + MORE[i];
        for (large = 1; large < 16; large++) {
            EXPECT(find_trak(0, inner, inner, 1, large, &place) == MP4_OK);
            EXPECT(is_trak(&place, 0, large, 16, 0));
        }
        for (large = 0; large < 16; large++) {
            EXPECT(find_trak(8, inner, 8 + inner, 1, large, &place) == MP4_OK);
            EXPECT(is_trak(&place, 8, large, 16, 0));
        }
        /* At the top level a size of 0 means up to the end of the file. The smallest sizes are those of headers. */
        EXPECT(find_trak(0, inner, inner, 0, 0, &place) == MP4_OK && is_trak(&place, 0, inner, 8, 1));
        EXPECT(find_trak(0, inner, inner, 1, 0, &place) == MP4_OK && is_trak(&place, 0, inner, 16, 1));
        EXPECT(find_trak(8, inner, 8 + inner, 8, 0, &place) == MP4_OK && is_trak(&place, 8, 8, 8, 1));
        EXPECT(find_trak(8, inner, 8 + inner, 1, 16, &place) == MP4_OK && is_trak(&place, 8, 16, 16, 1));
    }
    /* A header that isn't whole has no length: the file or the box around it ends within the header. */
    for (inner = 8; inner < 16; inner++) {
        EXPECT(find_trak(0, inner, inner, 1, 99, &place) == MP4_BOX_NOT_FOUND && is_filler(&place, sizeof place));
        EXPECT(find_trak(8, inner, 8 + inner, 1, 99, &place) == MP4_BOX_NOT_FOUND);
        EXPECT(find_trak(8, inner, 40, 1, 99, &place) == MP4_BOX_NOT_FOUND && is_filler(&place, sizeof place));
    }
    EXPECT(find_trak(0, 7, 7, 7, 0, &place) == MP4_BOX_NOT_FOUND && is_filler(&place, sizeof place));
}

/* The version and the texts of the library. */

static void try_about(void) {
    static const uint32_t STATUSES[] = {MP4_OK,
                                        MP4_END_OF_INPUT,
                                        MP4_INVALID_DATA,
                                        MP4_BOX_NOT_FOUND,
                                        MP4_OUT_OF_MEMORY,
                                        MP4_NO_ROOM,
                                        MP4_NO_TRACK,
                                        MP4_UNKNOWN_BOX,
                                        MP4_SAMPLE_SIZES_DISAGREE,
                                        MP4_FIRST_CHUNK_DISAGREES,
                                        MP4_CHUNK_ORDER_DISAGREES,
                                        MP4_CHUNK_COUNT_DISAGREES,
                                        MP4_CHUNKS_DISAGREE,
                                        MP4_DURATIONS_DISAGREE,
                                        MP4_SYNC_SAMPLES_DISAGREE,
                                        MP4_OFFSETS_DISAGREE};
    uint8_t text[100], other[100];
    size_t i, j, count = 0, unknown = 0;
    int major, minor, patch;
    subject = "what the library says of itself";
    EXPECT(mp4_version() == MP4_VERSION_NUMBER);
    EXPECT(sscanf(MP4_VERSION, "%d.%d.%d", &major, &minor, &patch) == 3);
    EXPECT(MP4_VERSION_NUMBER == 1000000 * major + 1000 * minor + patch);
    EXPECT(mp4_status_text(12345, other, sizeof other, &unknown) == MP4_OK);
    EXPECT(unknown == strlen("unknown status") && memcmp(other, "unknown status", unknown) == 0);
    for (i = 0; i < sizeof STATUSES / sizeof *STATUSES; i++) {
        EXPECT(mp4_status_text(STATUSES[i], text, sizeof text, &count) == MP4_OK);
        EXPECT(count > 3 && (count != unknown || memcmp(text, other, count) != 0));
        for (j = 0; j < count; j++)
            EXPECT(text[j] >= ' ' && text[j] <= '~');
    }
    EXPECT(mp4_status_text(MP4_OUT_OF_MEMORY, text, 13, &count) == MP4_OK);
    EXPECT(count == 13 && memcmp(text, "out of memory", 13) == 0);
    EXPECT(mp4_status_text(MP4_OUT_OF_MEMORY, NULL, 0, &count) == MP4_NO_ROOM && count == 13);
    text[0] = 7;
    EXPECT(mp4_status_text(MP4_OUT_OF_MEMORY, text, 12, &count) == MP4_NO_ROOM && count == 13 && text[0] == 7);
}

/* Runs the checks. With an argument it writes the file, for other programs. */
int main(int arguments, char **argument) {
    (void)argument;
    if (arguments > 1)
        return fwrite(FILE_BYTES, 1, LENGTH, stdout) != LENGTH;
    EXPECT(LENGTH == 449);
    try_find();
    try_small_boxes();
    try_samples();
    try_fragments();
    try_about();
    printf("samples: %ld calls of 5 functions, %ld checks\n", calls, checks);
    return 0;
}

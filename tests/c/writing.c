/*
 * Calls the functions of include/mp4_box_codec.h that write tables: with three unlike rows and with none, arrays that
 * are long enough and too short, tables that can't be written, and memory that is refused. The written tables are read
 * again. The bytes were worked out from docs/LAYOUT.md.
 */
#include "checks.h"

/* A table as a struct with rows and as bytes, with the functions that write and read it. */
struct table {
    const char *name;
    call *writes, *reads; /* `writes` gets the table instead of the bytes, and the bytes instead of the rows */
    const void *table, *rows;
    size_t table_size, row_size, used; /* `used` bytes of a row are numbers, and the rest is padding */
    const uint8_t *bytes;
    size_t length, told; /* `told` bytes of the table are compared: all except the padding after its version */
};

static const struct table *tried;
static size_t row_count;

static int are_bytes(const void *rows, size_t count) {
    return count == tried->length && memcmp(rows, tried->bytes, count) == 0;
}

static int is_length(const void *told) { return *(const size_t *)told == tried->length; }

static int are_rows(const void *rows, size_t count) {
    size_t i;
    for (i = 0; i < count; i++)
        if (memcmp((const uint8_t *)rows + i * tried->row_size, (const uint8_t *)tried->rows + i * tried->row_size,
                   tried->used))
            return 0;
    return count == row_count;
}

static int is_table(const void *told) { return memcmp(told, tried->table, tried->told) == 0; }

#define TABLE(name, row_type, table_type)                                                                              \
    AS_CALL(name, row_type, table_type)                                                                                \
    static uint32_t write_##name(const uint8_t *table, size_t size, void *bytes, size_t places, void *length) {        \
        row_type *rows = at_page_end(row_count * sizeof *rows);                                                        \
        uint32_t status;                                                                                               \
        (void)size;                                                                                                    \
        memcpy(rows, tried->rows, row_count * sizeof *rows);                                                           \
        status =                                                                                                       \
            mp4_write_##name((const table_type *)table, rows, row_count, (uint8_t *)bytes, places, (size_t *)length);  \
        EXPECT(memcmp(rows, tried->rows, row_count * sizeof *rows) == 0);                                              \
        give_back(rows, row_count * sizeof *rows);                                                                     \
        return status;                                                                                                 \
    }

TABLE(stsz, uint32_t, struct mp4_stsz_table)
TABLE(stco, uint32_t, struct mp4_table)
TABLE(co64, uint64_t, struct mp4_table)
TABLE(stss, uint32_t, struct mp4_table)
TABLE(stts, struct mp4_stts_row, struct mp4_table)
TABLE(ctts, struct mp4_ctts_row, struct mp4_table)
TABLE(stsc, struct mp4_stsc_row, struct mp4_table)
TABLE(elst, struct mp4_elst_row, struct mp4_table)
TABLE(trun, struct mp4_trun_row, struct mp4_trun_table)

static const struct mp4_table THREE = {3, 0xB1B2B3, 0xA9};
#define HEAD "\xA9\xB1\xB2\xB3\0\0\0\3"
static const struct mp4_stsz_table SIZES = {3, 0xB1B2B3, 0, 3, 0xA9};
static const uint32_t NUMBERS[] = {0x81828384, 0x91929394, 0xA1A2A3A4};
#define NUMBERS_BYTES "\x81\x82\x83\x84\x91\x92\x93\x94\xA1\xA2\xA3\xA4"
static const uint64_t LONG_NUMBERS[] = {0x8182838485868788, 0x9192939495969798, 0xA1A2A3A4A5A6A7A8};
static const struct mp4_stts_row DURATIONS[] = {
    {0x81828384, 0x85868788}, {0x91929394, 0x95969798}, {0xA1A2A3A4, 0xA5A6A7A8}};
static const struct mp4_ctts_row COMPOSITIONS[] = {
    {0x81828384, -2}, {0x91929394, 0x15969798}, {0xA1A2A3A4, -0x7FFFFFFF}};
/* The first chunk has 1 sample, and chunks 2 to 4 have 2 each. The third run begins with sample 1 + 1 + 6. */
static const struct mp4_stsc_row CHUNKS[] = {
    {1, 1, 0x81828384, 1}, {2, 2, 0x91929394, 2}, {5, 0xA1A2A3A4, 0xA5A6A7A8, 8}};
static const struct mp4_table LONG_EDITS = {3, 0xB1B2B3, 1}, SHORT_EDITS = {3, 0xB1B2B3, 0};
static const struct mp4_elst_row EDITS[] = {{0x8182838485868788, 0x898A8B8C8D8E8F80, 0xC1C2, 0xC3C4},
                                            {0x9192939495969798, UINT64_MAX, 0xD1D2, 0xD3D4},
                                            {0xA1A2A3A4A5A6A7A8, 0xA9AAABACADAEAFA0, 0xE1E2, 0xE3E4}};
static const struct mp4_elst_row OLD_EDITS[] = {{0x81828384, 0x85868788, 0xC1C2, 0xC3C4},
                                                {0x91929394, UINT32_MAX, 0xD1D2, 0xD3D4},
                                                {0xA1A2A3A4, 0xA5A6A7A8, 0xE1E2, 0xE3E4}};
static const struct mp4_trun_table RUN = {3, 0xF05, 3, -16, 0xC1C2C3C4, 1}, SIZES_OF_RUN = {3, 0x200, 3, 0, 0, 0xA9};
static const struct mp4_trun_row SAMPLES[] = {{0x81828384, 0x85868788, 0x898A8B8C, 0x8D8E8F80},
                                              {0x91929394, 0x95969798, 0x999A9B9C, 0x9D9E9F90},
                                              {0xA1A2A3A4, 0xA5A6A7A8, 0xA9AAABAC, 0xADAEAFA0}};
static const struct mp4_trun_row SAMPLE_SIZES[] = {{0, 0x85868788, 0, 0}, {0, 0x95969798, 0, 0}, {0, 0xA5A6A7A8, 0, 0}};

#define END_OF(type, field) (offsetof(type, field) + sizeof(((type *)0)->field))
#define CASE(name, table_type, table, rows, used, text)                                                                \
    {                                                                                                                  \
#name, write_##name, call_##name, &table, rows, sizeof table, sizeof *rows, used, BYTES(text),                 \
            END_OF(table_type, version)                                                                                \
    }

static const struct table TABLES[] = {
    CASE(stsz, struct mp4_stsz_table, SIZES, NUMBERS, 4,
         "\0\0\0\x20stsz\xA9\xB1\xB2\xB3\0\0\0\0\0\0\0\3" NUMBERS_BYTES),
    CASE(stco, struct mp4_table, THREE, NUMBERS, 4, "\0\0\0\x1Cstco" HEAD NUMBERS_BYTES),
    CASE(co64, struct mp4_table, THREE, LONG_NUMBERS, 8,
         "\0\0\0\x28"
         "co64" HEAD
         "\x81\x82\x83\x84\x85\x86\x87\x88\x91\x92\x93\x94\x95\x96\x97\x98\xA1\xA2\xA3\xA4\xA5\xA6\xA7\xA8"),
    CASE(stss, struct mp4_table, THREE, NUMBERS, 4, "\0\0\0\x1Cstss" HEAD NUMBERS_BYTES),
    CASE(stts, struct mp4_table, THREE, DURATIONS, 8,
         "\0\0\0\x28stts" HEAD
         "\x81\x82\x83\x84\x85\x86\x87\x88\x91\x92\x93\x94\x95\x96\x97\x98\xA1\xA2\xA3\xA4\xA5\xA6\xA7\xA8"),
    CASE(ctts, struct mp4_table, THREE, COMPOSITIONS, 8,
         "\0\0\0\x28"
         "ctts" HEAD "\x81\x82\x83\x84\xFF\xFF\xFF\xFE\x91\x92\x93\x94\x15\x96\x97\x98\xA1\xA2\xA3\xA4\x80\0\0\1"),
    CASE(stsc, struct mp4_table, THREE, CHUNKS, 16,
         "\0\0\0\x34stsc" HEAD
         "\0\0\0\1\0\0\0\1\x81\x82\x83\x84\0\0\0\2\0\0\0\2\x91\x92\x93\x94\0\0\0\5\xA1\xA2\xA3\xA4\xA5\xA6\xA7\xA8"),
    CASE(elst, struct mp4_table, LONG_EDITS, EDITS, 20,
         "\0\0\0\x4C"
         "elst\1\xB1\xB2\xB3\0\0\0\3\x81\x82\x83\x84\x85\x86\x87\x88\x89\x8A\x8B\x8C\x8D\x8E\x8F\x80\xC1\xC2\xC3\xC4"
         "\x91\x92\x93\x94\x95\x96\x97\x98\xFF\xFF\xFF\xFF\xFF\xFF\xFF\xFF\xD1\xD2\xD3\xD4"
         "\xA1\xA2\xA3\xA4\xA5\xA6\xA7\xA8\xA9\xAA\xAB\xAC\xAD\xAE\xAF\xA0\xE1\xE2\xE3\xE4"),
    CASE(elst, struct mp4_table, SHORT_EDITS, OLD_EDITS, 20,
         "\0\0\0\x34"
         "elst\0\xB1\xB2\xB3\0\0\0\3\x81\x82\x83\x84\x85\x86\x87\x88\xC1\xC2\xC3\xC4"
         "\x91\x92\x93\x94\xFF\xFF\xFF\xFF\xD1\xD2\xD3\xD4\xA1\xA2\xA3\xA4\xA5\xA6\xA7\xA8\xE1\xE2\xE3\xE4"),
    CASE(trun, struct mp4_trun_table, RUN, SAMPLES, 16,
         "\0\0\0\x48trun\1\0\x0F\5\0\0\0\3\xFF\xFF\xFF\xF0\xC1\xC2\xC3\xC4"
         "\x81\x82\x83\x84\x85\x86\x87\x88\x89\x8A\x8B\x8C\x8D\x8E\x8F\x80\x91\x92\x93\x94\x95\x96\x97\x98\x99\x9A\x9B"
         "\x9C\x9D\x9E\x9F\x90"
         "\xA1\xA2\xA3\xA4\xA5\xA6\xA7\xA8\xA9\xAA\xAB\xAC\xAD\xAE\xAF\xA0"),
    CASE(trun, struct mp4_trun_table, SIZES_OF_RUN, SAMPLE_SIZES, 16,
         "\0\0\0\x1Ctrun\xA9\0\2\0\0\0\0\3\x85\x86\x87\x88\x95\x96\x97\x98\xA5\xA6\xA7\xA8"),
};

static void try_writing(void) {
    struct subject s = {tried->name,  tried->writes,     1,     sizeof(size_t), are_bytes, is_length, tried->length,
                        tried->table, tried->table_size, {0, 0}};
    row_count = 3;
    refuse_each(&s);
    EXPECT(call_with(&s, s.bytes, s.length, s.count + 3) == MP4_OK);
    EXPECT(call_with(&s, s.bytes, s.length, s.count - 1) == MP4_NO_ROOM);
    EXPECT(call_with(&s, s.bytes, s.length, 0) == MP4_NO_ROOM);
}

/* Checks that written rows are read again as the same rows and the same table. */
static void try_reading(void) {
    uint8_t *rows = at_page_end(3 * tried->row_size), *table = at_page_end(tried->table_size);
    EXPECT(tried->reads(tried->bytes, tried->length, rows, 3, table) == MP4_OK);
    EXPECT(are_rows(rows, 3) && is_table(table));
    give_back(rows, 3 * tried->row_size);
    give_back(table, tried->table_size);
}

/* Checks that nothing is written for a table that can't be written. */
#define REFUSED(name, table_value, rows, count)                                                                        \
    do {                                                                                                               \
        uint8_t bytes[128];                                                                                            \
        size_t length = 77;                                                                                            \
        subject = #name;                                                                                               \
        memset(bytes, FILLER, sizeof bytes);                                                                           \
        EXPECT(mp4_write_##name(&table_value, rows, count, bytes, sizeof bytes, &length) == MP4_INVALID_DATA);         \
        EXPECT(length == 77 && is_filler(bytes, sizeof bytes) && held == 0);                                           \
    } while (0)

static void try_refused(void) {
    static const struct mp4_table FLAGGED = {3, 0x1000000, 0};
    static const struct mp4_stsz_table SIZES_FLAGGED = {3, 0x1000000, 0, 3, 0}, ONE_SIZE = {3, 0, 1, 3, 0};
    static const struct mp4_trun_table RUN_FLAGGED = {3, 0x1000F05, 3, 0, 0, 0};
    static const struct mp4_stsc_row BACK[] = {{2, 1, 1, 0}, {1, 1, 1, 0}};
    static const struct mp4_stsc_row FAR[] = {{1, 0x80000000, 1, 0}, {3, 1, 1, 0}};
    static const struct mp4_elst_row LONG_DURATION = {0x100000000, 0, 1, 0}, LONG_TIME = {0, 0x100000000, 1, 0};
    REFUSED(stsz, SIZES_FLAGGED, NUMBERS, 3);
    REFUSED(stco, FLAGGED, NUMBERS, 3);
    REFUSED(co64, FLAGGED, LONG_NUMBERS, 3);
    REFUSED(stss, FLAGGED, NUMBERS, 3);
    REFUSED(stts, FLAGGED, DURATIONS, 3);
    REFUSED(ctts, FLAGGED, COMPOSITIONS, 3);
    REFUSED(stsc, FLAGGED, CHUNKS, 3);
    REFUSED(elst, FLAGGED, EDITS, 3);
    REFUSED(trun, RUN_FLAGGED, SAMPLES, 3);
    REFUSED(stsz, SIZES, NUMBERS, 2);
    REFUSED(stsz, SIZES, NULL, 0);
    REFUSED(stsz, ONE_SIZE, NUMBERS, 3);
    REFUSED(stsc, THREE, BACK, 2);
    REFUSED(stsc, THREE, FAR, 2);
    REFUSED(elst, SHORT_EDITS, &LONG_DURATION, 1);
    REFUSED(elst, SHORT_EDITS, &LONG_TIME, 1);
    REFUSED(trun, RUN, SAMPLES, 2);
    REFUSED(trun, RUN, NULL, 0);
}

/* Checks tables without rows, whose array may be NULL, and an array of no places. */
static void try_empty(void) {
    static const struct mp4_table TABLE_0 = {99, 0xB1B2B3, 0xA9};
    static const struct mp4_stsz_table ONE_SIZE = {0, 0xB1B2B3, 0x81828384, 0x91929394, 0xA9};
    static const struct mp4_trun_table NO_LISTS = {0, 0, 0xFFFFFFFF, 1, 1, 0xA9};
    static const uint8_t STSZ[] = "\0\0\0\x14stsz\xA9\xB1\xB2\xB3\x81\x82\x83\x84\x91\x92\x93\x94";
    static const uint8_t STSC[] = "\0\0\0\x10stsc\xA9\xB1\xB2\xB3\0\0\0\0";
    static const uint8_t TRUN[] = "\0\0\0\x10trun\xA9\0\0\0\xFF\xFF\xFF\xFF";
    struct mp4_table read;
    uint8_t bytes[20];
    size_t length = 0;
    subject = "tables without rows";
    EXPECT(mp4_write_stsz(&ONE_SIZE, NULL, 0, NULL, 0, &length) == MP4_NO_ROOM && length == 20);
    EXPECT(mp4_write_stsz(&ONE_SIZE, NULL, 0, bytes, 20, &length) == MP4_OK && memcmp(bytes, STSZ, 20) == 0);
    EXPECT(mp4_write_stsc(&TABLE_0, NULL, 0, bytes, 20, &length) == MP4_OK && length == 16 &&
           memcmp(bytes, STSC, 16) == 0);
    EXPECT(mp4_stsc(bytes, length, NULL, 0, &read) == MP4_OK && read.count == 0 && read.flags == 0xB1B2B3 &&
           read.version == 0xA9);
    EXPECT(mp4_write_trun(&NO_LISTS, SAMPLES, 3, bytes, 20, &length) == MP4_OK && length == 16 &&
           memcmp(bytes, TRUN, 16) == 0);
    EXPECT(mp4_write_elst(&TABLE_0, NULL, 0, NULL, 0, &length) == MP4_NO_ROOM && length == 16);
}

/* Checks a table of a million rows, in memory of malloc. */
static void try_large(void) {
    size_t count = 1000000, i, wrong = 0, length = 0;
    struct mp4_table table = {0, 1, 0};
    struct mp4_stts_row *rows = malloc(count * sizeof *rows), *read = malloc(count * sizeof *rows);
    uint8_t *bytes = malloc(16 + 8 * count);
    subject = "a large table";
    EXPECT(rows != NULL && read != NULL && bytes != NULL);
    for (i = 0; i < count; i++) {
        rows[i].sample_count = (uint32_t)(i * 4294);
        rows[i].sample_delta = (uint32_t)(i ^ 0xA5A5A5A5);
    }
    EXPECT(mp4_write_stts(&table, rows, count, bytes, 16 + 8 * count, &length) == MP4_OK && length == 16 + 8 * count);
    EXPECT(mp4_stts(bytes, length, read, count, &table) == MP4_OK && table.count == count && table.flags == 1);
    for (i = 0; i < count; i++)
        wrong += rows[i].sample_count != read[i].sample_count || rows[i].sample_delta != read[i].sample_delta;
    EXPECT(wrong == 0 && held == 3);
    free(rows);
    free(read);
    free(bytes);
}

int main(void) {
    size_t i;
    for (i = 0; i < sizeof TABLES / sizeof TABLES[0]; i++) {
        tried = &TABLES[i];
        subject = tried->name;
        try_writing();
        try_reading();
    }
    try_refused();
    try_empty();
    try_large();
    printf("writing: %ld calls of 9 functions, %ld checks\n", calls, checks);
    return 0;
}

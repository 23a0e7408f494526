/*
 * Calls the functions of include/mp4_box_codec.h for lists and single boxes: with arrays that are long enough and too
 * short, with bytes that have each fault, with bytes that are cut anywhere, and with memory that is refused. Bytes and
 * rows were worked out from docs/LAYOUT.md. samples.c calls the others.
 */
#include "checks.h"

/* Checks calls that succeed, arrays that are too short, each refused request and each cut. */
static void try_subject(const struct subject *s) {
    size_t cut;
    refuse_each(s);
    EXPECT(call_with(s, s->bytes, s->length, s->count + 3) == MP4_OK);
    EXPECT(call_with(s, s->bytes, s->length, 0) == MP4_NO_ROOM);
    EXPECT(call_with(s, s->bytes, s->length, s->count - 1) == MP4_NO_ROOM);
    for (cut = 1; cut < s->length; cut++)
        if (cut != s->borders[0] && cut != s->borders[1])
            EXPECT(call_with(s, s->bytes, cut, s->count) == MP4_END_OF_INPUT);
}

/* Checks the faults of a table: those of its header, and a count that is too large. */
static void try_table(const struct subject *s, size_t count_at) {
    uint8_t bytes[128];
    try_subject(s);
    try_header(s);
    memcpy(bytes, s->bytes, s->length);
    bytes[count_at + 3] += 1;
    EXPECT(call_with(s, bytes, s->length, s->count) == MP4_INVALID_DATA);
}

/* mp4_list. */

static const char STREAM[] = "\0\0\0\1ftyp\0\0\0\0\0\0\0\x20isom\0\0\2\0isommp41" /* 32 bytes, 16 of them the header */
                             "\0\0\0\x0A\251nam|!"
                             "\0\0\0\x14stco\0\0\0\0\0\0\0\1\0\0\1\x0B";

static int are_spans(const void *rows, size_t count) {
    const struct mp4_span *spans = rows;
    return count == 3 && spans[0].position == 0 && spans[0].length == 32 && spans[0].header_length == 16 &&
           spans[0].code == 0x66747970 && spans[1].position == 32 && spans[1].length == 10 &&
           spans[1].header_length == 8 && spans[1].code == 0xA96E616D && spans[2].position == 42 &&
           spans[2].length == 20 && spans[2].header_length == 8 && spans[2].code == 0x7374636F;
}

static int is_three(const void *told) { return *(const size_t *)told == 3; }

AS_CALL(list, struct mp4_span, size_t)

/* mp4_normal: the header of 16 bytes is written as 8 bytes, and everything else is unchanged. */

static const char NORMAL[] = "\0\0\0\x18"
                             "ftypisom\0\0\2\0isommp41"
                             "\0\0\0\x0A\251nam|!"
                             "\0\0\0\x14stco\0\0\0\0\0\0\0\1\0\0\1\x0B";

static int is_normal(const void *rows, size_t count) {
    return count == sizeof NORMAL - 1 && memcmp(rows, NORMAL, count) == 0;
}

static int is_normal_long(const void *told) { return *(const size_t *)told == sizeof NORMAL - 1; }

AS_CALL(normal, uint8_t, size_t)

/* The tables. */

static int is_table(const void *told, size_t count, uint8_t version, uint32_t flags) {
    const struct mp4_table *table = told;
    return table->count == count && table->version == version && table->flags == flags;
}

static int are_sizes(const void *rows, size_t count) {
    const uint32_t *sizes = rows;
    return count == 2 && sizes[0] == 0x81828384 && sizes[1] == 0x91929394;
}

static int is_stsz(const void *told) {
    const struct mp4_stsz_table *table = told;
    return table->count == 2 && table->version == 0x85 && table->flags == 0x868788 && table->sample_size == 0 &&
           table->sample_count == 2;
}

AS_CALL(stsz, uint32_t, struct mp4_stsz_table)

static int is_two(const void *told) { return is_table(told, 2, 0x85, 0x868788); }

AS_CALL(stco, uint32_t, struct mp4_table)
AS_CALL(stss, uint32_t, struct mp4_table)

static int are_long_offsets(const void *rows, size_t count) {
    const uint64_t *offsets = rows;
    return count == 2 && offsets[0] == 0x8182838485868788 && offsets[1] == 0x9192939495969798;
}

AS_CALL(co64, uint64_t, struct mp4_table)

static int are_durations(const void *rows, size_t count) {
    const struct mp4_stts_row *row = rows;
    return count == 2 && row[0].sample_count == 0x81828384 && row[0].sample_delta == 0x85868788 &&
           row[1].sample_count == 0x91929394 && row[1].sample_delta == 0x95969798;
}

AS_CALL(stts, struct mp4_stts_row, struct mp4_table)

static int are_compositions(const void *rows, size_t count) {
    const struct mp4_ctts_row *row = rows;
    return count == 2 && row[0].sample_count == 0x81828384 && row[0].sample_offset == -2 &&
           row[1].sample_count == 0x91929394 && row[1].sample_offset == 0x15969798;
}

AS_CALL(ctts, struct mp4_ctts_row, struct mp4_table)

static int are_chunks(const void *rows, size_t count) {
    const struct mp4_stsc_row *row = rows;
    return count == 2 && row[0].first_chunk == 1 && row[0].samples_per_chunk == 3 &&
           row[0].sample_description_index == 0x81828384 && row[0].first_sample == 1 && row[1].first_chunk == 5 &&
           row[1].samples_per_chunk == 0x91929394 && row[1].sample_description_index == 2 && row[1].first_sample == 13;
}

AS_CALL(stsc, struct mp4_stsc_row, struct mp4_table)

static int are_edits(const void *rows, size_t count) {
    const struct mp4_elst_row *row = rows;
    return count == 2 && row[0].segment_duration == 0x8182838485868788 && row[0].media_time == UINT64_MAX &&
           row[0].media_rate == 0x898A && row[0].media_rate_fraction == 0x8B8C && row[1].segment_duration == 7 &&
           row[1].media_time == 0x9192939495969798 && row[1].media_rate == 1 && row[1].media_rate_fraction == 0;
}

static int are_two_edits(const void *told) { return is_table(told, 2, 1, 0x868788); }

AS_CALL(elst, struct mp4_elst_row, struct mp4_table)

static int are_samples(const void *rows, size_t count) {
    const struct mp4_trun_row *row = rows;
    return count == 2 && row[0].duration == 0x81828384 && row[0].size == 0 && row[0].flags == 0x85868788 &&
           row[0].composition_offset == 0xFFFFFFFE && row[1].duration == 0x91929394 && row[1].size == 0 &&
           row[1].flags == 0x95969798 && row[1].composition_offset == 3;
}

static int is_run(const void *told) {
    const struct mp4_trun_table *table = told;
    return table->count == 2 && table->version == 1 && table->flags == 0xD05 && table->sample_count == 2 &&
           table->data_offset == -16 && table->first_sample_flags == 0x01020304;
}

AS_CALL(trun, struct mp4_trun_row, struct mp4_trun_table)

static const struct {
    struct subject subject;
    size_t count_at; /* the offset of the number of rows */
} TABLES[] = {
    {{"mp4_stsz",
      call_stsz,
      4,
      sizeof(struct mp4_stsz_table),
      are_sizes,
      is_stsz,
      2,
      BYTES("\0\0\0\x1Cstsz\x85\x86\x87\x88\0\0\0\0\0\0\0\2\x81\x82\x83\x84\x91\x92\x93\x94"),
      {0, 0}},
     16},
    {{"mp4_stco",
      call_stco,
      4,
      sizeof(struct mp4_table),
      are_sizes,
      is_two,
      2,
      BYTES("\0\0\0\x18stco\x85\x86\x87\x88\0\0\0\2\x81\x82\x83\x84\x91\x92\x93\x94"),
      {0, 0}},
     12},
    {{"mp4_stss",
      call_stss,
      4,
      sizeof(struct mp4_table),
      are_sizes,
      is_two,
      2,
      BYTES("\0\0\0\x18stss\x85\x86\x87\x88\0\0\0\2\x81\x82\x83\x84\x91\x92\x93\x94"),
      {0, 0}},
     12},
    {{"mp4_co64",
      call_co64,
      8,
      sizeof(struct mp4_table),
      are_long_offsets,
      is_two,
      2,
      BYTES("\0\0\0\x20"
            "co64\x85\x86\x87\x88\0\0\0\2\x81\x82\x83\x84\x85\x86\x87\x88\x91\x92\x93\x94\x95\x96\x97\x98"),
      {0, 0}},
     12},
    {{"mp4_stts",
      call_stts,
      sizeof(struct mp4_stts_row),
      sizeof(struct mp4_table),
      are_durations,
      is_two,
      2,
      BYTES("\0\0\0\x20stts\x85\x86\x87\x88\0\0\0\2\x81\x82\x83\x84\x85\x86\x87\x88\x91\x92\x93\x94\x95\x96\x97\x98"),
      {0, 0}},
     12},
    {{"mp4_ctts",
      call_ctts,
      sizeof(struct mp4_ctts_row),
      sizeof(struct mp4_table),
      are_compositions,
      is_two,
      2,
      BYTES("\0\0\0\x20"
            "ctts\x85\x86\x87\x88\0\0\0\2\x81\x82\x83\x84\xFF\xFF\xFF\xFE\x91\x92\x93\x94\x15\x96\x97\x98"),
      {0, 0}},
     12},
    {{"mp4_stsc",
      call_stsc,
      sizeof(struct mp4_stsc_row),
      sizeof(struct mp4_table),
      are_chunks,
      is_two,
      2,
      BYTES("\0\0\0\x28stsc\x85\x86\x87\x88\0\0\0\2\0\0\0\1\0\0\0\3\x81\x82\x83\x84\0\0\0\5\x91\x92\x93\x94\0\0\0\2"),
      {0, 0}},
     12},
    {{"mp4_elst",
      call_elst,
      sizeof(struct mp4_elst_row),
      sizeof(struct mp4_table),
      are_edits,
      are_two_edits,
      2,
      BYTES("\0\0\0\x38"
            "elst\1\x86\x87\x88\0\0\0\2\x81\x82\x83\x84\x85\x86\x87\x88\xFF\xFF\xFF\xFF\xFF\xFF\xFF\xFF\x89\x8A\x8B\x8C"
            "\0\0\0\0\0\0\0\7\x91\x92\x93\x94\x95\x96\x97\x98\0\1\0\0"),
      {0, 0}},
     12},
    {{"mp4_trun",
      call_trun,
      sizeof(struct mp4_trun_row),
      sizeof(struct mp4_trun_table),
      are_samples,
      is_run,
      2,
      BYTES("\0\0\0\x30trun\1\0\x0D\5\0\0\0\2\xFF\xFF\xFF\xF0\1\2\3\4\x81\x82\x83\x84\x85\x86\x87\x88\xFF\xFF\xFF\xFE"
            "\x91\x92\x93\x94\x95\x96\x97\x98\0\0\0\3"),
      {0, 0}},
     12},
};

/* Checks tables without rows. */
static void try_empty_tables(void) {
    struct mp4_stsz_table stsz = {0, 0, 0, 0, 0};
    struct mp4_trun_table trun = {0, 0, 0, 0, 0, 0};
    struct mp4_table table = {9, 9, 9};
    struct mp4_trun_row row = {1, 2, 3, 4};
    uint32_t number = 5;
    subject = "tables without rows";
    EXPECT(mp4_stsz((const uint8_t *)"\0\0\0\x14stsz\0\0\0\0\0\0\1\0\0\1\0\0", 20, &number, 0, &stsz) == MP4_OK);
    EXPECT(stsz.count == 0 && stsz.sample_size == 0x100 && stsz.sample_count == 0x10000 && number == 5);
    EXPECT(mp4_trun((const uint8_t *)"\0\0\0\x10trun\0\0\0\0\xFF\xFF\xFF\xFF", 16, &row, 1, &trun) == MP4_OK);
    EXPECT(trun.count == 0 && trun.sample_count == UINT32_MAX && trun.flags == 0 && row.duration == 1);
    EXPECT(mp4_stco((const uint8_t *)"\0\0\0\x10stco\0\0\0\0\0\0\0\0", 16, &number, 0, &table) == MP4_OK);
    EXPECT(table.count == 0 && table.flags == 0 && table.version == 0 && number == 5);
}

/* Checks NULL for no bytes and for no places. */
static void try_null(void) {
    struct mp4_table table = {9, 9, 9};
    size_t count = 7;
    subject = "NULL";
    EXPECT(mp4_check(NULL, 0) == MP4_OK);
    EXPECT(mp4_list(NULL, 0, NULL, 0, &count) == MP4_OK && count == 0);
    EXPECT(mp4_list((const uint8_t *)STREAM, sizeof STREAM - 1, NULL, 0, &count) == MP4_NO_ROOM && count == 3);
    EXPECT(mp4_normal((const uint8_t *)STREAM, sizeof STREAM - 1, NULL, 0, &count) == MP4_NO_ROOM);
    EXPECT(count == sizeof NORMAL - 1);
    EXPECT(mp4_stco(NULL, 0, NULL, 0, &table) == MP4_END_OF_INPUT && table.count == 9);
    EXPECT(mp4_stco((const uint8_t *)"\0\0\0\x14stco\0\0\0\0\0\0\0\1\0\0\0\1", 20, NULL, 0, &table) == MP4_NO_ROOM);
    EXPECT(table.count == 1 && held == 0);
}

/* Calls mp4_check with a copy of `text` that ends at the end of a page. */
static uint32_t check(const char *text, size_t length) {
    uint8_t *bytes = at_page_end(length);
    uint32_t status;
    memcpy(bytes, text, length);
    calls += 1;
    status = mp4_check(bytes, length);
    EXPECT(held == 0);
    give_back(bytes, length);
    return status;
}

static void try_check(void) {
    size_t cut;
    long request, most;
    subject = "mp4_check";
    EXPECT(check("", 0) == MP4_OK);
    EXPECT(check("\0\0\0\2free", 8) == MP4_INVALID_DATA);
    EXPECT(check("\0\0\0\x08"
                 "dinf",
                 8) == MP4_BOX_NOT_FOUND);
    for (cut = 1; cut < sizeof STREAM - 1; cut++)
        EXPECT(check(STREAM, cut) == (cut == 32 || cut == 42 ? MP4_OK : MP4_END_OF_INPUT));
    refuse(0, 0);
    EXPECT(check(STREAM, sizeof STREAM - 1) == MP4_OK);
    most = asked;
    EXPECT(most > 0);
    for (request = 1; request <= most; request++) {
        uint32_t status;
        refuse(request, 0);
        status = check(STREAM, sizeof STREAM - 1);
        EXPECT(status == MP4_OUT_OF_MEMORY || status == MP4_OK);
        refuse(request, 1);
        EXPECT(check(STREAM, sizeof STREAM - 1) == MP4_OUT_OF_MEMORY);
    }
    refuse(0, 0);
}

/* Checks mp4_list and mp4_normal, with each fault, and with no bytes. */
static void try_streams(void) {
    struct subject list = {"mp4_list", call_list, sizeof(struct mp4_span), sizeof(size_t), are_spans,
                           is_three,   3,         BYTES(STREAM),           {32, 42}};
    struct subject normal = {"mp4_normal",      call_normal,   1,       sizeof(size_t), is_normal, is_normal_long,
                             sizeof NORMAL - 1, BYTES(STREAM), {32, 42}};
    size_t count = 7;
    struct mp4_span span = {1, 2, 3, 4};
    uint8_t byte = 4;
    try_subject(&list);
    EXPECT(call_with(&list, (const uint8_t *)"\0\0\0\2free", 8, 3) == MP4_INVALID_DATA);
    EXPECT(mp4_list((const uint8_t *)"", 0, &span, 0, &count) == MP4_OK);
    EXPECT(count == 0 && span.position == 1);
    try_subject(&normal);
    EXPECT(call_with(&normal, (const uint8_t *)"\0\0\0\2free", 8, 99) == MP4_INVALID_DATA);
    EXPECT(call_with(&normal,
                     (const uint8_t *)"\0\0\0\x08"
                                      "dinf",
                     8, 99) == MP4_BOX_NOT_FOUND);
    count = 7;
    EXPECT(mp4_normal((const uint8_t *)"", 0, &byte, 1, &count) == MP4_OK);
    EXPECT(count == 0 && byte == 4);
}

static void put_number(uint8_t *bytes, size_t number) {
    int i;
    for (i = 3; i >= 0; i--, number >>= 8)
        bytes[i] = (uint8_t)number;
}

/* Checks a table of a million rows, and 100,000 boxes. */
static void try_large(void) {
    size_t rows = 1000000, boxes = 100000, i, wrong = 0, count = 0;
    uint8_t *bytes = at_page_end(16 + 4 * rows), *out = at_page_end(8 * boxes);
    uint32_t *offsets = at_page_end(4 * rows);
    struct mp4_span *spans = at_page_end(boxes * sizeof *spans);
    struct mp4_table table = {0, 0, 0};
    subject = "large inputs";
    put_number(bytes, 16 + 4 * rows);
    memcpy(bytes + 4, "stco\1\2\3\4", 8);
    put_number(bytes + 12, rows);
    for (i = 0; i < rows; i++)
        put_number(bytes + 16 + 4 * i, i * 4294);
    EXPECT(mp4_stco(bytes, 16 + 4 * rows, offsets, rows, &table) == MP4_OK);
    EXPECT(table.count == rows && table.flags == 0x020304 && table.version == 1);
    for (i = 0; i < rows; i++)
        wrong += offsets[i] != i * 4294;
    EXPECT(wrong == 0);
    for (i = 0; i < boxes; i++)
        memcpy(bytes + 8 * i,
               "\0\0\0\x08"
               "free",
               8);
    EXPECT(mp4_check(bytes, 8 * boxes) == MP4_OK);
    EXPECT(mp4_list(bytes, 8 * boxes, spans, boxes, &count) == MP4_OK && count == boxes);
    for (i = 0; i < boxes; i++)
        wrong += spans[i].position != 8 * i || spans[i].length != 8 || spans[i].code != 0x66726565;
    EXPECT(wrong == 0);
    EXPECT(mp4_normal(bytes, 8 * boxes, out, 8 * boxes, &count) == MP4_OK && count == 8 * boxes);
    EXPECT(memcmp(bytes, out, 8 * boxes) == 0);
    EXPECT(held == 0);
    give_back(bytes, 16 + 4 * rows);
    give_back(out, 8 * boxes);
    give_back(offsets, 4 * rows);
    give_back(spans, boxes * sizeof *spans);
}

/* Converts codes, and numbers in bytes, by the inline functions of the header. */
static void try_conversions(void) {
    static const uint8_t bytes[5] = {0x81, 0x82, 0x83, 0x84, 0x85};
    uint8_t written[6] = {7, 7, 7, 7, 7, 7};
    char text[6] = "123456";
    EXPECT(MP4_CODE('m', 'o', 'o', 'v') == 0x6D6F6F76 && MP4_CODE('\xA9', 'n', 'a', 'm') == 0xA96E616D);
    EXPECT(mp4_code_text(0xA96E616D, text) == text && memcmp(text,
                                                             "\xA9nam\0"
                                                             "6",
                                                             6) == 0);
    EXPECT(mp4_number(bytes, 0) == 0 && mp4_number(bytes, 1) == 0x81 && mp4_number(bytes, 2) == 0x8182);
    EXPECT(mp4_number(bytes, 3) == 0x818283 && mp4_number(bytes, 4) == 0x81828384);
    mp4_put_number(0x91929394, written + 1);
    EXPECT(memcmp(written, "\x07\x91\x92\x93\x94\x07", 6) == 0);
}

int main(void) {
    size_t i;
    try_conversions();
    try_check();
    try_streams();
    for (i = 0; i < sizeof TABLES / sizeof TABLES[0]; i++)
        try_table(&TABLES[i].subject, TABLES[i].count_at);
    try_empty_tables();
    try_null();
    try_large();
    printf("caller: %ld calls of 12 functions, %ld checks\n", calls, checks);
    return 0;
}

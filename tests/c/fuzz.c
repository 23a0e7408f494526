/*
 * Calls the functions of include/mp4_box_codec.h over many inputs, and checks the promises of the header for each call:
 * the number of elements, arrays that fit and that are too short, and memory that is not written. Each input is a
 * separate block, so that a sanitizer sees a read past its end.
 *
 * LLVMFuzzerTestOneInput is for libFuzzer, with -DNO_MAIN. The program is its own driver:
 *
 *     fuzz CORPUS INPUTS SEED EVERY
 *
 * The inputs are boxes of the file CORPUS, cut, joined and changed. The file has the length of each box in 32 bits, and
 * its bytes. The same seed gives the same inputs. For each EVERY-th input the program writes its bytes and the results
 * of each function, which tests/c/test_fuzz.py compares.
 */
#include <inttypes.h>
#include <stdio.h>
#include <stdlib.h>
#include <string.h>
#include "mp4_box_codec.h"

enum { MOST = 4096, PATTERN = 0xA5 };

/* Reports a promise that a call has broken, and stops. */
static void fail(const char *function, const char *what, const uint8_t *bytes, size_t length) {
    size_t i;
    fprintf(stderr, "fuzz: %s: %s, over ", function, what);
    for (i = 0; i < length; i++)
        fprintf(stderr, "%02x", bytes[i]);
    fprintf(stderr, "\n");
    abort();
}

/* A function that fills an array, with pointers without a type. Each letter in the layouts of a row and of the result,
   which begins with the count, is a number: b and h of 8 and 16 bits, u of 32, i of 32 with a sign, q of 64. */
struct function {
    const char *name;
    uint32_t (*call)(const uint8_t *, size_t, void *, size_t, void *);
    size_t row_size, found_size;
    const char *row, *found;
    size_t least; /* the number of bytes of the input that each element needs */
};

#define CALL(name, row_type, found_type)                                                                               \
    static uint32_t call_##name(const uint8_t *bytes, size_t length, void *rows, size_t places, void *found) {         \
        return name(bytes, length, (row_type *)rows, places, (found_type *)found);                                     \
    }
#define FUNCTION(name, row_type, found_type, row, found, least)                                                        \
    { #name, call_##name, sizeof(row_type), sizeof(found_type), row, found, least }

CALL(mp4_list, struct mp4_span, size_t)
CALL(mp4_normal, uint8_t, size_t)
CALL(mp4_stsz, uint32_t, struct mp4_stsz_table)
CALL(mp4_stco, uint32_t, struct mp4_table)
CALL(mp4_co64, uint64_t, struct mp4_table)
CALL(mp4_stss, uint32_t, struct mp4_table)
CALL(mp4_stts, struct mp4_stts_row, struct mp4_table)
CALL(mp4_ctts, struct mp4_ctts_row, struct mp4_table)
CALL(mp4_stsc, struct mp4_stsc_row, struct mp4_table)
CALL(mp4_elst, struct mp4_elst_row, struct mp4_table)
CALL(mp4_trun, struct mp4_trun_row, struct mp4_trun_table)

static uint32_t call_mp4_samples(const uint8_t *bytes, size_t length, void *rows, size_t places, void *found) {
    return mp4_samples(bytes, length, 1, (struct mp4_sample *)rows, places, (size_t *)found);
}

static const struct function FUNCTIONS[] = {
    FUNCTION(mp4_samples, struct mp4_sample, size_t, "", "q", 0),
    FUNCTION(mp4_list, struct mp4_span, size_t, "qqqu", "q", 8),
    FUNCTION(mp4_normal, uint8_t, size_t, "b", "q", 0),
    FUNCTION(mp4_stsz, uint32_t, struct mp4_stsz_table, "u", "quuub", 4),
    FUNCTION(mp4_stco, uint32_t, struct mp4_table, "u", "qub", 4),
    FUNCTION(mp4_co64, uint64_t, struct mp4_table, "q", "qub", 8),
    FUNCTION(mp4_stss, uint32_t, struct mp4_table, "u", "qub", 4),
    FUNCTION(mp4_stts, struct mp4_stts_row, struct mp4_table, "uu", "qub", 8),
    FUNCTION(mp4_ctts, struct mp4_ctts_row, struct mp4_table, "ui", "qub", 8),
    FUNCTION(mp4_stsc, struct mp4_stsc_row, struct mp4_table, "uuuu", "qub", 12),
    FUNCTION(mp4_elst, struct mp4_elst_row, struct mp4_table, "qqhh", "qub", 12),
    FUNCTION(mp4_trun, struct mp4_trun_row, struct mp4_trun_table, "uuuu", "quuiub", 4),
};

enum { COUNT = sizeof FUNCTIONS / sizeof *FUNCTIONS };

CALL(mp4_ftyp, uint32_t, struct mp4_ftyp_box)
CALL(mp4_hdlr, uint8_t, struct mp4_hdlr_box)
CALL(mp4_data, uint8_t, struct mp4_data_box)
CALL(mp4_url, uint8_t, struct mp4_url_box)
CALL(mp4_dref, uint8_t, struct mp4_dref_box)
CALL(mp4_dinf, uint8_t, struct mp4_dref_box)
CALL(mp4_fields, uint8_t, size_t)

/* Functions whose values are not compared with the slow reader. Only their promises about arrays are checked. */
static const struct function TEXTS[] = {
    FUNCTION(mp4_ftyp, uint32_t, struct mp4_ftyp_box, "", "", 0),
    FUNCTION(mp4_hdlr, uint8_t, struct mp4_hdlr_box, "", "", 0),
    FUNCTION(mp4_data, uint8_t, struct mp4_data_box, "", "", 0),
    FUNCTION(mp4_url, uint8_t, struct mp4_url_box, "", "", 0),
    FUNCTION(mp4_dref, uint8_t, struct mp4_dref_box, "", "", 0),
    FUNCTION(mp4_dinf, uint8_t, struct mp4_dref_box, "", "", 0),
    FUNCTION(mp4_fields, uint8_t, size_t, "", "", 0),
};

enum { TEXT_COUNT = sizeof TEXTS / sizeof *TEXTS };

/* A function that reads a box into a struct, and one that writes the struct, if there is one. */
struct boxed {
    const char *name;
    uint32_t (*read)(const uint8_t *, size_t, void *);
    uint32_t (*write)(const void *, uint8_t *, size_t, size_t *);
};

#define READ(name)                                                                                                     \
    static uint32_t read_##name(const uint8_t *bytes, size_t length, void *box) {                                      \
        return mp4_##name(bytes, length, (struct mp4_##name##_box *)box);                                              \
    }
#define READ_AND_WRITE(name)                                                                                           \
    READ(name)                                                                                                         \
    static uint32_t write_##name(const void *box, uint8_t *bytes, size_t places, size_t *length) {                     \
        return mp4_write_##name((const struct mp4_##name##_box *)box, bytes, places, length);                          \
    }

READ_AND_WRITE(mvhd)
READ_AND_WRITE(tkhd)
READ_AND_WRITE(mdhd)
READ_AND_WRITE(mehd)
READ_AND_WRITE(mfhd)
READ_AND_WRITE(smhd)
READ_AND_WRITE(vmhd)
READ_AND_WRITE(trex)
READ_AND_WRITE(tfdt)
READ_AND_WRITE(tfhd)
READ(hvcc)
READ(hev1)
READ(vpcc)
READ(vp09)
READ(tx3g)
READ(esds)
READ(mp4a)

static const struct boxed BOXES[] = {
    {"mvhd", read_mvhd, write_mvhd}, {"tkhd", read_tkhd, write_tkhd}, {"mdhd", read_mdhd, write_mdhd},
    {"mehd", read_mehd, write_mehd}, {"mfhd", read_mfhd, write_mfhd}, {"smhd", read_smhd, write_smhd},
    {"vmhd", read_vmhd, write_vmhd}, {"trex", read_trex, write_trex}, {"tfdt", read_tfdt, write_tfdt},
    {"tfhd", read_tfhd, write_tfhd}, {"hvcc", read_hvcc, NULL},       {"hev1", read_hev1, NULL},
    {"vpcc", read_vpcc, NULL},       {"vp09", read_vp09, NULL},       {"tx3g", read_tx3g, NULL},
    {"esds", read_esds, NULL},       {"mp4a", read_mp4a, NULL},
};

enum { BOX_COUNT = sizeof BOXES / sizeof *BOXES };

/* The number of boxes that were read into each struct. */
static unsigned long read_of[BOX_COUNT];

/* The number of calls of each function that returned elements. */
static unsigned long found_of[COUNT];

/* Writes the numbers at `at`, which have the layout `layout`. */
static void tell(FILE *out, const char *layout, const uint8_t *at) {
    const uint8_t *front = at;
    for (; *layout != 0; layout++) {
        size_t width = *layout == 'b' ? 1 : *layout == 'h' ? 2 : *layout == 'q' ? 8 : 4;
        uint64_t number = 0;
        at += (width - (size_t)(at - front) % width) % width;
        memcpy(&number, at, width); /* the lowest byte is the first one */
        at += width;
        if (*layout == 'i')
            fprintf(out, " %" PRId32, (int32_t)(uint32_t)number);
        else
            fprintf(out, " %" PRIu64, number);
    }
}

/* Returns a new block of `size` bytes with the value PATTERN, or of one byte if `size` is 0. */
static uint8_t *block(size_t size) {
    uint8_t *made = malloc(size == 0 ? 1 : size);
    if (made == NULL)
        abort();
    memset(made, PATTERN, size == 0 ? 1 : size);
    return made;
}

/* Returns whether all bytes still have the value from block(). */
static int as_they_were(const uint8_t *bytes, size_t size) {
    size_t i;
    for (i = 0; i < size; i++)
        if (bytes[i] != PATTERN)
            return 0;
    return 1;
}

/* Calls `it` without places, with enough, and with one too few. Returns the status, and fills `rows_out` with a block
   of elements and `count_out` with their number. */
static uint32_t tried(const struct function *it, const uint8_t *bytes, size_t length, FILE *out, uint8_t **rows_out,
                      size_t *count_out) {
    uint8_t asked[64], found[64], *rows = block(0);
    size_t count = 0, size, i;
    uint32_t status;
    memset(asked, PATTERN, sizeof asked);
    status = it->call(bytes, length, rows, 0, asked);
    if (status == MP4_OK || status == MP4_NO_ROOM) {
        memcpy(&count, asked, sizeof count);
        if (!as_they_were(asked + it->found_size, sizeof asked - it->found_size))
            fail(it->name, "more is written than is returned", bytes, length);
        if ((count == 0) != (status == MP4_OK) || count * it->least > length)
            fail(it->name, "another number of elements than there can be", bytes, length);
    } else if (!as_they_were(asked, sizeof asked)) {
        fail(it->name, "something is written after a fault", bytes, length);
    } else if (status != MP4_END_OF_INPUT && status != MP4_INVALID_DATA && status != MP4_BOX_NOT_FOUND &&
               (it->call != call_mp4_samples || status < MP4_NO_TRACK || status > MP4_OFFSETS_DISAGREE) &&
               (it->call != call_mp4_fields || status != MP4_UNKNOWN_BOX)) {
        fail(it->name, "a status that can't be", bytes, length);
    }
    if (status == MP4_NO_ROOM) {
        free(rows);
        size = count * it->row_size;
        rows = block(size + it->row_size);
        memset(found, PATTERN, sizeof found);
        if (it->call(bytes, length, rows, count - 1, found) != MP4_NO_ROOM ||
            !as_they_were(rows, size + it->row_size) || memcmp(found, asked, sizeof found) != 0)
            fail(it->name, "an array that is too short by one", bytes, length);
        memset(found, PATTERN, sizeof found);
        status = it->call(bytes, length, rows, count, found);
        if (status != MP4_OK || memcmp(found, asked, sizeof found) != 0)
            fail(it->name, "an array that fits", bytes, length);
        if (!as_they_were(rows + size, it->row_size))
            fail(it->name, "a place after the elements is written", bytes, length);
        if (it >= FUNCTIONS && it < FUNCTIONS + COUNT)
            found_of[it - FUNCTIONS]++;
    }
    if (out != NULL && it->least > 0) {
        fprintf(out, "%s %" PRIu32, it->name + strlen("mp4_"), status);
        if (status == MP4_OK) {
            tell(out, it->found, asked);
            for (i = 0; i < count; i++)
                tell(out, it->row, rows + i * it->row_size);
        }
        fprintf(out, "\n");
    }
    *rows_out = rows;
    *count_out = count;
    return status;
}

/* Checks that the boxes of a list are one after the other, from the front to the end. */
static void look_at_spans(const uint8_t *rows, size_t count, const uint8_t *bytes, size_t length) {
    const struct mp4_span *spans = (const struct mp4_span *)(const void *)rows;
    uint64_t end = 0;
    size_t i;
    for (i = 0; i < count; i++) {
        if (spans[i].position != end || spans[i].length < 8 || spans[i].length > length - end)
            fail("mp4_list", "a box at another place", bytes, length);
        end += spans[i].length;
    }
    if (end != length)
        fail("mp4_list", "the boxes end before the bytes do", bytes, length);
}

/* Checks that a normal form is read, and is its own normal form. */
static void look_at_normal(const uint8_t *made, size_t size, const uint8_t *bytes, size_t length) {
    uint8_t *again = block(size);
    size_t count = 0;
    if (mp4_check(made, size) != MP4_OK)
        fail("mp4_check", "a normal form is not read", bytes, length);
    if (mp4_normal(made, size, again, size, &count) != MP4_OK || count != size || memcmp(made, again, size) != 0)
        fail("mp4_normal", "a normal form has another one", bytes, length);
    free(again);
}

/* Checks that the text of a box's fields is an object, and that its characters can be printed. */
static void look_at_text(const uint8_t *text, size_t count, const uint8_t *bytes, size_t length) {
    size_t i;
    if (count < 2 || text[0] != '{' || text[count - 1] != '}')
        fail("mp4_fields", "no object", bytes, length);
    for (i = 0; i < count; i++)
        if (text[i] < ' ')
            fail("mp4_fields", "a character that JSON doesn't allow", bytes, length);
}

/* Returns the big-endian number in the `width` bytes at the front of `bytes`. */
static uint64_t number_of(const uint8_t *bytes, size_t width) {
    uint64_t number = 0;
    for (; width > 0; width--)
        number = number << 8 | *bytes++;
    return number;
}

/* Returns whether `place` has the fields of the header at its position. A whole box with a size of 0 goes up to the
   end. */
static int is_stated(const struct mp4_place *place, const uint8_t *bytes, size_t length) {
    const uint8_t *head = bytes + place->position;
    uint64_t size, header_length;
    if (place->position > length || length - place->position < 8)
        return 0;
    size = number_of(head, 4);
    header_length = size == 1 ? 16 : 8;
    if (length - place->position < header_length)
        return 0;
    if (size == 1)
        size = number_of(head + 8, 8);
    if (size == 0 && place->is_whole)
        size = length - place->position;
    return place->length == size && place->header_length == header_length && place->code == number_of(head + 4, 4);
}

/* Checks that the box at a path has the fields of its header, which is in the bytes. If the box is whole it ends in the
   bytes. */
static void look_at_path(const uint8_t *path, size_t path_length, const uint8_t *bytes, size_t length) {
    struct mp4_place place = {0, 0, 0, 0, 0};
    uint32_t status = mp4_find(bytes, length, path, path_length, &place);
    if (status == MP4_OK
            ? !is_stated(&place, bytes, length) ||
                  place.is_whole > (place.length >= place.header_length && place.length <= length - place.position)
            : status != MP4_BOX_NOT_FOUND && status != MP4_INVALID_DATA)
        fail("mp4_find", "a box at another place, or a status that can't be", bytes, length);
}

/* Reads a box into a struct, writes the struct, and reads and writes the written box. Checks that the bytes are the
   same. */
static void look_at_box(const struct boxed *it, const uint8_t *bytes, size_t length) {
    uint8_t box[512], again[512], *out, *second;
    size_t size = 0, more = 0;
    uint32_t status;
    memset(box, PATTERN, sizeof box);
    status = it->read(bytes, length, box);
    if (status != MP4_OK) {
        if (!as_they_were(box, sizeof box))
            fail(it->name, "something is written after a fault", bytes, length);
        if (status != MP4_END_OF_INPUT && status != MP4_INVALID_DATA && status != MP4_BOX_NOT_FOUND)
            fail(it->name, "a status that can't be", bytes, length);
        return;
    }
    read_of[it - BOXES]++;
    if (it->write == NULL)
        return;
    status = it->write(box, NULL, 0, &size);
    if (status == MP4_INVALID_DATA)
        return;
    out = block(size + 1);
    second = block(size + 1);
    if (status != MP4_NO_ROOM || it->write(box, out, size - 1, &more) != MP4_NO_ROOM || !as_they_were(out, size + 1))
        fail(it->name, "an array that is too short by one", bytes, length);
    if (it->write(box, out, size, &more) != MP4_OK || more != size || !as_they_were(out + size, 1))
        fail(it->name, "an array that fits", bytes, length);
    if (it->read(out, size, again) != MP4_OK || it->write(again, second, size, &more) != MP4_OK ||
        memcmp(out, second, size) != 0)
        fail(it->name, "what was written is read as another box", bytes, length);
    free(out);
    free(second);
}

/* Checks the sets of a configuration: asks for the counts first, and then for the sets with arrays that fit. */
static void look_at_sets(const uint8_t *bytes, size_t length) {
    struct mp4_avcc_box box, again;
    size_t *lengths, count, all = 0, i;
    uint8_t *sets;
    if (mp4_avcc(bytes, length, NULL, 0, NULL, 0, &box) != MP4_NO_ROOM)
        return;
    count = box.sequence_count + box.picture_count;
    lengths = (size_t *)block(count * sizeof *lengths);
    sets = block(box.set_bytes + 1);
    if (mp4_avcc(bytes, length, lengths, count, sets, box.set_bytes, &again) != MP4_OK ||
        !as_they_were(sets + box.set_bytes, 1))
        fail("mp4_avcc", "arrays that fit", bytes, length);
    for (i = 0; i < count; i++)
        all += lengths[i];
    if (all != box.set_bytes)
        fail("mp4_avcc", "lengths of other sets", bytes, length);
    free(lengths);
    free(sets);
}

/* Returns the end of a part of a text, which has to begin at `at`. */
static size_t end_of(const struct mp4_text_part *part, size_t at, const char *function, const uint8_t *bytes,
                     size_t length) {
    if (part->position != at)
        fail(function, "a text at another place", bytes, length);
    return at + part->length;
}

/* Checks the faults of a file: both arrays are filled or none, and their texts come one after the other. */
static void look_at_faults(const uint8_t *bytes, size_t length) {
    struct mp4_fault_table table, again;
    struct mp4_fault *faults;
    uint8_t *rows, *text, name[64];
    size_t size, at = 0, i, count = 0;
    uint32_t status = mp4_check_file(bytes, length, NULL, 0, NULL, 0, &table);
    if (status != (table.count == 0 ? MP4_OK : MP4_NO_ROOM))
        fail("mp4_check_file", "a status that can't be", bytes, length);
    size = table.count * sizeof *faults;
    rows = block(size + sizeof *faults);
    text = block(table.text_bytes + 1);
    faults = (struct mp4_fault *)(void *)rows;
    if (table.count > 0 &&
        (mp4_check_file(bytes, length, faults, table.count - 1, text, table.text_bytes, &again) != MP4_NO_ROOM ||
         mp4_check_file(bytes, length, faults, table.count, text, table.text_bytes - 1, &again) != MP4_NO_ROOM ||
         !as_they_were(rows, size) || !as_they_were(text, table.text_bytes)))
        fail("mp4_check_file", "an array that is too short by one", bytes, length);
    status = mp4_check_file(bytes, length, faults, table.count + 1, text, table.text_bytes + 1, &again);
    if (status != MP4_OK || again.count != table.count || again.text_bytes != table.text_bytes)
        fail("mp4_check_file", "arrays that fit", bytes, length);
    if (!as_they_were(rows + size, sizeof *faults) || !as_they_were(text + table.text_bytes, 1))
        fail("mp4_check_file", "a place after the elements is written", bytes, length);
    for (i = 0; i < table.count; i++) {
        at = end_of(&faults[i].path, at, "mp4_check_file", bytes, length);
        at = end_of(&faults[i].text, at, "mp4_check_file", bytes, length);
        if (faults[i].position > length || faults[i].text.length == 0 || faults[i].severity < MP4_ERROR ||
            faults[i].severity > MP4_WARNING)
            fail("mp4_check_file", "a fault that can't be", bytes, length);
        if (mp4_fault_name(faults[i].code, name, sizeof name, &count) != MP4_OK || count == 0)
            fail("mp4_fault_name", "a code without a word", bytes, length);
    }
    if (at != table.text_bytes)
        fail("mp4_check_file", "texts that end elsewhere", bytes, length);
    free(rows);
    free(text);
}

/* Plans a new file by one of six calls. */
static uint32_t plan(int kind, const uint8_t *bytes, size_t length, struct mp4_piece *pieces, size_t places,
                     uint8_t *made, size_t byte_places, uint8_t *text, size_t text_places, struct mp4_new_file *file) {
    static const struct mp4_change CHANGES[] = {{{0, 9}, {9, 8}, MP4_LAST, MP4_CHANGE_INSERT, 0, 0},
                                                {{0, 0}, {0, 0}, 0, MP4_CHANGE_DROP_TRACK, 1, 0}};
    const uint8_t *data = (const uint8_t *)"moov/trak\0\0\0\x08"
                                           "free";
    struct mp4_fragment_options options = {1000000, 1, 1, 1};
    switch (kind) {
    case 0:
        return mp4_faststart(bytes, length, pieces, places, made, byte_places, text, text_places, file);
    case 1:
    case 2:
        return mp4_edit(bytes, length, &CHANGES[kind - 1], 1, data, 17, pieces, places, made, byte_places, text,
                        text_places, file);
    case 3:
        return mp4_fragment(bytes, length, &options, pieces, places, made, byte_places, text, text_places, file);
    case 4:
        return mp4_defragment(bytes, length, pieces, places, made, byte_places, text, text_places, file);
    default:
        return mp4_cut(bytes, length, 1000, 1000000000, pieces, places, made, byte_places, text, text_places, file);
    }
}

/* Checks the pieces of a new file, or the reason why there is none: all arrays are filled or none, and each piece is
   present. */
static void look_at_plan(int kind, const uint8_t *bytes, size_t length) {
    struct mp4_new_file file, again;
    struct mp4_piece *pieces;
    uint8_t *rows, *made, *text;
    size_t size, i;
    uint64_t sum = 0;
    uint32_t status = plan(kind, bytes, length, NULL, 0, NULL, 0, NULL, 0, &file), wanted;
    wanted = file.text_bytes > 0 ? MP4_REFUSED : MP4_OK;
    if (status != (file.piece_count + file.text_bytes == 0 ? MP4_OK : MP4_NO_ROOM) ||
        (file.text_bytes > 0 && file.piece_count + file.new_bytes + file.length > 0))
        fail("a new file", "a status that can't be", bytes, length);
    size = file.piece_count * sizeof *pieces;
    rows = block(size + sizeof *pieces);
    made = block(file.new_bytes + 1);
    text = block(file.text_bytes + 1);
    pieces = (struct mp4_piece *)(void *)rows;
    if ((file.piece_count > 0 && plan(kind, bytes, length, pieces, file.piece_count - 1, made, file.new_bytes, text,
                                      file.text_bytes, &again) != MP4_NO_ROOM) ||
        (file.new_bytes > 0 && plan(kind, bytes, length, pieces, file.piece_count, made, file.new_bytes - 1, text,
                                    file.text_bytes, &again) != MP4_NO_ROOM) ||
        (file.text_bytes > 0 && plan(kind, bytes, length, pieces, file.piece_count, made, file.new_bytes, text,
                                     file.text_bytes - 1, &again) != MP4_NO_ROOM) ||
        !as_they_were(rows, size) || !as_they_were(made, file.new_bytes) || !as_they_were(text, file.text_bytes))
        fail("a new file", "an array that is too short by one", bytes, length);
    status = plan(kind, bytes, length, pieces, file.piece_count + 1, made, file.new_bytes + 1, text,
                  file.text_bytes + 1, &again);
    if (status != wanted || memcmp(&file, &again, sizeof file) != 0)
        fail("a new file", "arrays that fit", bytes, length);
    if (!as_they_were(rows + size, sizeof *pieces) || !as_they_were(made + file.new_bytes, 1) ||
        !as_they_were(text + file.text_bytes, 1))
        fail("a new file", "a place after the elements is written", bytes, length);
    for (i = 0; i < file.piece_count; i++) {
        size_t present = pieces[i].is_new ? file.new_bytes : length;
        if (pieces[i].is_new > 1 || pieces[i].position > present || pieces[i].length > present - pieces[i].position)
            fail("a new file", "a piece that is not present", bytes, length);
        sum += pieces[i].length;
    }
    if (sum != file.length)
        fail("a new file", "pieces of another length", bytes, length);
    free(rows);
    free(made);
    free(text);
}

/* Checks what is known of a file: the three arrays are filled or none, and the texts come one after the other. */
static void look_at_info(const uint8_t *bytes, size_t length) {
    struct mp4_file_info file, again;
    struct mp4_track_info *tracks;
    uint8_t *brands, *rows, *text;
    size_t size, at = 0, i;
    uint32_t status = mp4_info(bytes, length, NULL, 0, NULL, 0, NULL, 0, &file);
    if (status != (file.brand_count + file.track_count == 0 ? MP4_OK : MP4_NO_ROOM) || file.length != length)
        fail("mp4_info", "a status that can't be", bytes, length);
    size = file.track_count * sizeof *tracks;
    brands = block((file.brand_count + 1) * 4);
    rows = block(size + sizeof *tracks);
    text = block(file.text_bytes + 1);
    tracks = (struct mp4_track_info *)(void *)rows;
    if ((file.brand_count > 0 && mp4_info(bytes, length, (uint32_t *)(void *)brands, file.brand_count - 1, tracks,
                                          file.track_count, text, file.text_bytes, &again) != MP4_NO_ROOM) ||
        (file.track_count > 0 && mp4_info(bytes, length, (uint32_t *)(void *)brands, file.brand_count, tracks,
                                          file.track_count - 1, text, file.text_bytes, &again) != MP4_NO_ROOM) ||
        (file.text_bytes > 0 && mp4_info(bytes, length, (uint32_t *)(void *)brands, file.brand_count, tracks,
                                         file.track_count, text, file.text_bytes - 1, &again) != MP4_NO_ROOM) ||
        !as_they_were(brands, file.brand_count * 4) || !as_they_were(rows, size) ||
        !as_they_were(text, file.text_bytes))
        fail("mp4_info", "an array that is too short by one", bytes, length);
    status = mp4_info(bytes, length, (uint32_t *)(void *)brands, file.brand_count + 1, tracks, file.track_count + 1,
                      text, file.text_bytes + 1, &again);
    if (status != MP4_OK || again.brand_count != file.brand_count || again.track_count != file.track_count ||
        again.text_bytes != file.text_bytes)
        fail("mp4_info", "arrays that fit", bytes, length);
    if (!as_they_were(brands + file.brand_count * 4, 4) || !as_they_were(rows + size, sizeof *tracks) ||
        !as_they_were(text + file.text_bytes, 1))
        fail("mp4_info", "a place after the elements is written", bytes, length);
    for (i = 0; i < file.track_count; i++) {
        at = end_of(&tracks[i].kind, at, "mp4_info", bytes, length);
        at = end_of(&tracks[i].codec, at, "mp4_info", bytes, length);
        at = end_of(&tracks[i].language, at, "mp4_info", bytes, length);
        if (tracks[i].picture.rotation % 90 != 0 || tracks[i].has_picture > 1 || tracks[i].has_samples > 1)
            fail("mp4_info", "a track that can't be", bytes, length);
    }
    if (at != file.text_bytes)
        fail("mp4_info", "texts that end elsewhere", bytes, length);
    free(brands);
    free(rows);
    free(text);
}

static void look_at(const uint8_t *bytes, size_t length, FILE *out) {
    size_t i, count;
    uint32_t checked = mp4_check(bytes, length), status;
    uint8_t *rows;
    if (out != NULL) {
        fprintf(out, "input ");
        for (i = 0; i < length; i++)
            fprintf(out, "%02x", bytes[i]);
        fprintf(out, "\ncheck %" PRIu32 "\n", checked);
    }
    look_at_path(MP4_TEXT("moov/trak[1]/mdia/minf/stbl/stts"), bytes, length);
    look_at_path(MP4_TEXT("moov/trak"), bytes, length);
    look_at_path(bytes, length < 12 ? length : 12, bytes, length);
    if (length >= 8)
        look_at_path(bytes + 4, 4, bytes, length);
    for (i = 0; i < COUNT; i++) {
        status = tried(&FUNCTIONS[i], bytes, length, out, &rows, &count);
        if (status == MP4_OK && FUNCTIONS[i].call == call_mp4_list)
            look_at_spans(rows, count, bytes, length);
        else if (checked == MP4_OK && FUNCTIONS[i].call == call_mp4_list)
            fail("mp4_list", "a fault where all boxes are read", bytes, length);
        if (status == MP4_OK && FUNCTIONS[i].call == call_mp4_normal)
            look_at_normal(rows, count, bytes, length);
        if (FUNCTIONS[i].call == call_mp4_normal && (status == MP4_OK) != (checked == MP4_OK))
            fail("mp4_normal", "not written although all boxes are read, or written although not", bytes, length);
        free(rows);
    }
    for (i = 0; i < TEXT_COUNT; i++) {
        status = tried(&TEXTS[i], bytes, length, NULL, &rows, &count);
        if (status == MP4_OK && TEXTS[i].call == call_mp4_fields)
            look_at_text(rows, count, bytes, length);
        free(rows);
    }
    for (i = 0; i < BOX_COUNT; i++)
        look_at_box(&BOXES[i], bytes, length);
    look_at_sets(bytes, length);
    look_at_faults(bytes, length);
    look_at_info(bytes, length);
    look_at_plan((int)(length % 6), bytes, length);
}

int LLVMFuzzerTestOneInput(const uint8_t *bytes, size_t length) {
    uint8_t *own = block(length);
    if (length > 0)
        memcpy(own, bytes, length);
    look_at(own, length, NULL);
    free(own);
    return 0;
}

#ifndef NO_MAIN

static uint64_t state;

/* Returns a number below `limit`, from Marsaglia's generator xorshift64*. */
static uint32_t below(uint32_t limit) {
    state ^= state >> 12;
    state ^= state << 25;
    state ^= state >> 27;
    return (uint32_t)((state * UINT64_C(0x2545F4914F6CDD1D)) >> 32) % limit;
}

/* The boxes of the corpus. */
static uint8_t *corpus;
static size_t *offsets, boxes;

static void read_corpus(const char *path) {
    FILE *file = fopen(path, "rb");
    size_t size, at;
    if (file == NULL)
        exit(2);
    corpus = malloc(1 << 24);
    size = fread(corpus, 1, 1 << 24, file);
    fclose(file);
    offsets = malloc((size / 4 + 1) * sizeof *offsets);
    for (at = 0; at + 4 <= size; at += 4 + (corpus[at + 2] << 8 | corpus[at + 3]))
        offsets[boxes++] = at;
}

struct input {
    uint8_t bytes[2 * MOST];
    size_t length;
};

/* Inserts `count` bytes at the offset `at`, unless the input would become longer than MOST. */
static void insert(struct input *it, size_t at, const uint8_t *bytes, size_t count) {
    if (it->length + count <= MOST) {
        memmove(it->bytes + at + count, it->bytes + at, it->length - at);
        memcpy(it->bytes + at, bytes, count);
        it->length += count;
    }
}

static void append_box(struct input *it) {
    size_t at = offsets[below((uint32_t)boxes)];
    insert(it, it->length, corpus + at + 4, (size_t)(corpus[at + 2] << 8 | corpus[at + 3]));
}

static void put(struct input *it, size_t at, uint32_t number) {
    size_t i;
    for (i = 0; i < 4 && at + i < it->length; i++)
        it->bytes[at + i] = (uint8_t)(number >> (24 - 8 * i));
}

static const uint32_t NUMBERS[] = {
    0,  1,     2,       3,          4,          7,          8,          9,          15,         16,         17,
    20, 0x100, 0x10000, 0x10000000, 0x1FFFFFFF, 0x20000000, 0x20000001, 0x40000000, 0x7FFFFFFF, 0x80000000, 0xFFFFFFFF};
static const char CODES[] = "stszstcoco64stsssttscttsstscelsttrunfreemoov";

/* Returns a number that often makes a difference. */
static uint32_t some(void) {
    return below(4) != 0 ? NUMBERS[below(sizeof NUMBERS / sizeof *NUMBERS)] : below(UINT32_MAX);
}

/* Makes one change. */
static void change(struct input *it) {
    size_t at = below((uint32_t)it->length + 1), count;
    uint8_t bytes[8];
    uint32_t i;
    switch (below(12)) {
    case 0:
        it->length = at;
        break;
    case 1:
        append_box(it);
        break;
    case 2:
        count = 1 + below(8);
        for (i = 0; i < count; i++)
            bytes[i] = (uint8_t)some();
        insert(it, at, bytes, count);
        break;
    case 3:
        count = 1 + below(16);
        if (at + count <= it->length) {
            memmove(it->bytes + at, it->bytes + at + count, it->length - at - count);
            it->length -= count;
        }
        break;
    case 4:
    case 5:
        if (at < it->length)
            it->bytes[at] = (uint8_t)(below(2) ? some() : it->bytes[at] ^ 1u << below(8));
        break;
    case 6:
        put(it, 0, (uint32_t)it->length + below(3) - 1);
        break;
    case 7:
        put(it, 0, some());
        break;
    case 8:
        put(it, 8, (below(2) ? below(3) << 24 : 0) | below(0x1000));
        break;
    case 9:
        put(it, 12 + 4 * below(3), below(2) ? some() : below(8));
        break;
    case 10:
        if (it->length >= 8)
            memcpy(it->bytes + 4, CODES + 4 * below(sizeof CODES / 4), 4);
        break;
    default:
        if (it->length >= 8) {
            memset(bytes, 0, 8);
            insert(it, 8, bytes, 8);
            put(it, 0, 1);
            put(it, 12, below(4) ? (uint32_t)it->length : some());
        }
    }
}

int main(int arguments, char **argument) {
    unsigned long inputs, every, number;
    struct input *it = calloc(1, sizeof *it);
    uint32_t changes;
    size_t i;
    if (arguments != 5 || it == NULL)
        return 2;
    read_corpus(argument[1]);
    inputs = strtoul(argument[2], NULL, 10);
    state = (strtoul(argument[3], NULL, 10) + 1) * UINT64_C(0x9E3779B97F4A7C15);
    every = strtoul(argument[4], NULL, 10);
    for (number = 0; number < inputs; number++) {
        uint8_t *own;
        it->length = 0;
        append_box(it);
        for (changes = below(5); changes > 0; changes--)
            change(it);
        if (below(2))
            put(it, 0, (uint32_t)it->length);
        own = block(it->length);
        memcpy(own, it->bytes, it->length);
        look_at(own, it->length, every > 0 && number % every == 0 ? stdout : NULL);
        free(own);
    }
    fprintf(stderr, "%lu", inputs);
    for (i = 0; i < COUNT; i++)
        fprintf(stderr, " %lu", found_of[i]);
    for (i = 0; i < BOX_COUNT; i++)
        fprintf(stderr, " %lu", read_of[i]);
    fprintf(stderr, "\n");
    free(corpus);
    free(offsets);
    free(it);
    return 0;
}

#endif

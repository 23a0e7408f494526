/*
 * Rewrites a file by a call of the library for C, for test_rewriting.py: rewriting COMMAND IN OUT [WORD ..]. Prints
 * what was done, or `refused` and the reason. Arrays that are too short, and places after the elements, have to stay as
 * they are.
 *
 * The words are those of the call: nothing, the numbers of the options, two times, or the changes, each as
 * KIND,TRACK_ID,VALUE,NUMBER,PATH,BYTES with the last two in hexadecimal digits.
 */
#include <inttypes.h>
#include <stdio.h>
#include <stdlib.h>
#include <string.h>
#include "mp4_box_codec.h"

#define FILLER 0xA5
#define SPARE 3

static void fail(const char *what) {
    fprintf(stderr, "%s\n", what);
    exit(2);
}

static void *filled(size_t size) {
    void *memory = malloc(size + 1);
    if (memory == NULL)
        fail("out of memory");
    return memset(memory, FILLER, size + 1);
}

static int is_filled(const void *memory, size_t size) {
    const uint8_t *bytes = memory;
    while (size > 0)
        if (bytes[--size] != FILLER)
            return 0;
    return 1;
}

static uint8_t *load(const char *path, size_t *length) {
    FILE *file = fopen(path, "rb");
    uint8_t *bytes;
    if (file == NULL || fseek(file, 0, SEEK_END) != 0)
        fail(path);
    *length = (size_t)ftell(file);
    bytes = filled(*length);
    rewind(file);
    if (fread(bytes, 1, *length, file) != *length)
        fail(path);
    fclose(file);
    return bytes;
}

struct asked {
    const char *command;
    struct mp4_change *changes;
    size_t count, data_length;
    uint8_t *data;
    uint64_t numbers[4];
};

struct arrays {
    struct mp4_piece *pieces;
    uint8_t *bytes, *text;
    size_t piece_places, byte_places, text_places;
};

static uint32_t call(const struct asked *it, const uint8_t *file, size_t length, const struct arrays *a,
                     struct mp4_new_file *found) {
    struct mp4_fragment_options options = {0, 0, 0, 0};
    if (strcmp(it->command, "faststart") == 0)
        return mp4_faststart(file, length, a->pieces, a->piece_places, a->bytes, a->byte_places, a->text,
                             a->text_places, found);
    if (strcmp(it->command, "defragment") == 0)
        return mp4_defragment(file, length, a->pieces, a->piece_places, a->bytes, a->byte_places, a->text,
                              a->text_places, found);
    if (strcmp(it->command, "cut") == 0)
        return mp4_cut(file, length, it->numbers[0], it->numbers[1], a->pieces, a->piece_places, a->bytes,
                       a->byte_places, a->text, a->text_places, found);
    if (strcmp(it->command, "edit") == 0)
        return mp4_edit(file, length, it->changes, it->count, it->data, it->data_length, a->pieces, a->piece_places,
                        a->bytes, a->byte_places, a->text, a->text_places, found);
    options.least = it->numbers[0];
    options.has_sidx = (uint8_t)it->numbers[1];
    options.has_mfra = (uint8_t)it->numbers[2];
    options.has_styp = (uint8_t)it->numbers[3];
    return mp4_fragment(file, length, &options, a->pieces, a->piece_places, a->bytes, a->byte_places, a->text,
                        a->text_places, found);
}

/* Appends the bytes of hexadecimal digits up to the next comma to the data. */
static struct mp4_text_part part(struct asked *it, const char **word) {
    struct mp4_text_part found = {it->data_length, 0};
    unsigned byte;
    for (; sscanf(*word, "%2x", &byte) == 1; *word += 2) {
        it->data[it->data_length++] = (uint8_t)byte;
        found.length++;
    }
    *word += **word == ',';
    return found;
}

static void add_change(struct asked *it, const char *word) {
    struct mp4_change *change = &it->changes[it->count++];
    int read = 0;
    if (sscanf(word, "%" SCNu32 ",%" SCNu32 ",%" SCNu32 ",%" SCNu64 ",%n", &change->kind, &change->track_id,
               &change->value, &change->number, &read) != 4)
        fail("a change is wrong");
    word += read;
    change->path = part(it, &word);
    change->bytes = part(it, &word);
}

/* Calls with arrays of these numbers of places, and fails unless they stay as they are. */
static void try_short(const struct asked *it, const uint8_t *file, size_t length, size_t pieces, size_t bytes,
                      size_t text) {
    struct arrays a = {filled(pieces * sizeof *a.pieces), filled(bytes), filled(text), pieces, bytes, text};
    struct mp4_new_file found;
    if (call(it, file, length, &a, &found) != MP4_NO_ROOM || !is_filled(a.pieces, pieces * sizeof *a.pieces) ||
        !is_filled(a.bytes, bytes) || !is_filled(a.text, text))
        fail("an array that is too short is changed");
    free(a.pieces);
    free(a.bytes);
    free(a.text);
}

int main(int count, char **words) {
    struct asked it = {NULL, NULL, 0, 0, NULL, {0, 0, 0, 0}};
    struct arrays none = {NULL, NULL, NULL, 0, 0, 0}, a;
    struct mp4_new_file found, again;
    size_t length, i, size = 1;
    uint64_t written = 0;
    uint8_t *file;
    uint32_t status;
    FILE *out;
    if (count < 4)
        fail("usage: rewriting COMMAND IN OUT [WORD ..]");
    it.command = words[1];
    file = load(words[2], &length);
    for (i = 4; i < (size_t)count; i++)
        size += strlen(words[i]);
    it.data = filled(size);
    it.changes = filled((size_t)count * sizeof *it.changes);
    for (i = 4; i < (size_t)count; i++)
        if (strcmp(it.command, "edit") == 0)
            add_change(&it, words[i]);
        else
            it.numbers[i - 4] = strtoull(words[i], NULL, 10);
    status = call(&it, file, length, &none, &found);
    if (status == MP4_NO_ROOM) {
        if (found.piece_count > 0)
            try_short(&it, file, length, found.piece_count - 1, found.new_bytes, found.text_bytes);
        if (found.new_bytes > 0)
            try_short(&it, file, length, found.piece_count, found.new_bytes - 1, found.text_bytes);
        if (found.text_bytes > 0)
            try_short(&it, file, length, found.piece_count, found.new_bytes, found.text_bytes - 1);
    }
    a.piece_places = found.piece_count + SPARE;
    a.byte_places = found.new_bytes + SPARE;
    a.text_places = found.text_bytes + SPARE;
    a.pieces = filled(a.piece_places * sizeof *a.pieces);
    a.bytes = filled(a.byte_places);
    a.text = filled(a.text_places);
    status = call(&it, file, length, &a, &again);
    if (memcmp(&found, &again, sizeof found) != 0)
        fail("the second call counts other elements");
    if (!is_filled(a.pieces + found.piece_count, SPARE * sizeof *a.pieces) ||
        !is_filled(a.bytes + found.new_bytes, SPARE) || !is_filled(a.text + found.text_bytes, SPARE))
        fail("a place after the elements is changed");
    if (status == MP4_REFUSED) {
        if (found.piece_count != 0 || found.new_bytes != 0 || found.length != 0 || found.text_bytes == 0)
            fail("a refused file has elements");
        printf("refused %.*s\n", (int)found.text_bytes, (const char *)a.text);
    } else if (status == MP4_OK) {
        if (found.text_bytes != 0 || (out = fopen(words[3], "wb")) == NULL)
            fail(words[3]);
        for (i = 0; i < found.piece_count; i++) {
            const struct mp4_piece *piece = &a.pieces[i];
            size_t present = piece->is_new ? found.new_bytes : length;
            if (piece->is_new > 1 || piece->length == 0 || piece->position > present ||
                piece->length > present - piece->position)
                fail("a piece is not present");
            written += piece->length;
            if (fwrite(mp4_piece_bytes(piece, file, a.bytes), 1, piece->length, out) != piece->length)
                fail(words[3]);
        }
        if (fclose(out) != 0 || written != found.length)
            fail("the length is not that of the pieces");
        printf("done %" PRIu64 " %" PRIu64 " %" PRIu64 " %" PRIu64 "\n", found.fragments, found.samples,
               found.moved_from, found.moved_to);
    } else
        printf("status %" PRIu32 "\n", status);
    free(file);
    free(it.data);
    free(it.changes);
    free(a.pieces);
    free(a.bytes);
    free(a.text);
    return 0;
}

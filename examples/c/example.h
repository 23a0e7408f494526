/* Helpers that the five programs share: files, statuses, and the boxes of a track. */
#include <stdio.h>
#include <stdlib.h>
#include <string.h>
#include "mp4_box_codec.h"

/* Ends the program with a message. */
static inline void fail(const char *what) {
    fprintf(stderr, "%s\n", what);
    exit(1);
}

/* Ends the program with the meaning of `status`, unless it is MP4_OK. */
static inline void ensure(uint32_t status, const char *what) {
    uint8_t text[200];
    size_t length = 0;
    if (status == MP4_OK)
        return;
    mp4_status_text(status, text, sizeof text, &length);
    fprintf(stderr, "%s: %.*s\n", what, (int)length, (const char *)text);
    exit(1);
}

/* Returns memory for `count` elements of `size` bytes. */
static inline void *room(size_t count, size_t size) {
    void *memory = calloc(count + 1, size);
    if (memory == NULL)
        fail("out of memory");
    return memory;
}

/* Returns the bytes of a file, and writes their number to `length`. */
static inline uint8_t *load(const char *path, size_t *length) {
    FILE *file = fopen(path, "rb");
    long end = file != NULL && fseek(file, 0, SEEK_END) == 0 ? ftell(file) : -1;
    uint8_t *bytes = room(end < 0 ? 0 : (size_t)end, 1);
    if (end < 0 || fseek(file, 0, SEEK_SET) != 0 || fread(bytes, 1, (size_t)end, file) != (size_t)end)
        fail("the file can't be read");
    fclose(file);
    *length = (size_t)end;
    return bytes;
}

/* Writes bytes to a new file. */
static inline void save(const char *path, const uint8_t *bytes, size_t length) {
    FILE *file = fopen(path, "wb");
    if (file == NULL || fwrite(bytes, 1, length, file) != length || fclose(file) != 0)
        fail("the file can't be written");
}

/* Returns the box at `path` in track `index` and writes its length to `size`. Without such a box it returns NULL. */
static inline uint8_t *part(uint8_t *file, size_t length, unsigned index, const char *path, size_t *size) {
    char whole[100];
    struct mp4_place place;
    int count = snprintf(whole, sizeof whole, "moov/trak[%u]%s", index, path);
    uint32_t status = mp4_find(file, length, (const uint8_t *)whole, (size_t)count, &place);
    if (status != MP4_OK || !place.is_whole)
        return NULL;
    *size = place.length;
    return file + place.position;
}

/* Returns the index of the track with a track_ID. */
static inline unsigned track_of(uint8_t *file, size_t length, uint32_t track_id) {
    unsigned index = 0;
    size_t size;
    struct mp4_tkhd_box tkhd;
    for (; part(file, length, index, "", &size) != NULL; index++) {
        const uint8_t *bytes = part(file, length, index, "/tkhd", &size);
        if (bytes != NULL && mp4_tkhd(bytes, size, &tkhd) == MP4_OK && tkhd.track_id == track_id)
            return index;
    }
    fail("no track has the track_ID");
    return 0;
}

/* Returns the samples of a track, over its tables and then over the fragments, and writes their number to `count`. */
static inline struct mp4_sample *samples_of(const uint8_t *file, size_t length, uint32_t track_id, size_t *count) {
    size_t tables = 0, fragments = 0;
    struct mp4_sample *samples;
    uint32_t status = mp4_samples(file, length, track_id, NULL, 0, &tables);
    ensure(status == MP4_NO_ROOM ? MP4_OK : status, "the tables");
    status = mp4_fragment_samples(file, length, track_id, NULL, 0, &fragments);
    ensure(status == MP4_NO_ROOM ? MP4_OK : status, "the fragments");
    samples = room(tables + fragments, sizeof *samples);
    ensure(mp4_samples(file, length, track_id, samples, tables, &tables), "the tables");
    ensure(mp4_fragment_samples(file, length, track_id, samples + tables, fragments, &fragments), "the fragments");
    *count = tables + fragments;
    return samples;
}

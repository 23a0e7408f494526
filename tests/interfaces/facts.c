/*
 * Writes the faults of a file and what is known of it, for `test_one_answer.py`: facts FILE. Each line has a word and
 * values with spaces between them. Texts are hexadecimal digits after a point, and '-' is what isn't known.
 */
#include <inttypes.h>
#include <stdio.h>
#include <stdlib.h>
#include "mp4_box_codec.h"

static void hexadecimal(const uint8_t *bytes, size_t length) {
    for (; length > 0; length--)
        printf("%02x", *bytes++);
}

static void text(const uint8_t *texts, struct mp4_text_part part) {
    printf(" .");
    hexadecimal(texts + part.position, part.length);
}

/* Writes a duration in nanoseconds. */
static void duration(uint64_t ticks, uint64_t scale) {
    if (scale == 0)
        printf(" -");
    else
        printf(" %" PRIu64 ".%09" PRIu64, ticks / scale,
               (uint64_t)((unsigned __int128)(ticks % scale) * 1000000000 / scale));
}

static uint32_t faults(const uint8_t *bytes, size_t length) {
    struct mp4_fault_table table = {0, 0};
    struct mp4_fault *rows;
    uint8_t *texts, name[64];
    size_t i, count = 0;
    uint32_t status = mp4_check_file(bytes, length, NULL, 0, NULL, 0, &table);
    rows = malloc((table.count + 1) * sizeof *rows);
    texts = malloc(table.text_bytes + 1);
    if (rows == NULL || texts == NULL)
        return MP4_OUT_OF_MEMORY;
    if (status == MP4_NO_ROOM)
        status = mp4_check_file(bytes, length, rows, table.count, texts, table.text_bytes, &table);
    for (i = 0; status == MP4_OK && i < table.count; i++) {
        status = mp4_fault_name(rows[i].code, name, sizeof name, &count);
        printf("fault %" PRIu64 " %.*s %s", rows[i].position, (int)count, (const char *)name,
               rows[i].severity == MP4_WARNING ? "warning" : "error");
        text(texts, rows[i].path);
        text(texts, rows[i].text);
        printf("\n");
    }
    free(rows);
    free(texts);
    return status;
}

static void samples(const struct mp4_track_info *it) {
    const struct mp4_track_samples *s = &it->samples;
    if (!it->has_samples) {
        printf(" -");
        return;
    }
    printf(" %" PRIu64 "/%" PRIu64 "/%" PRIu64 "/%" PRIu64, s->sample_count, s->key_frames, s->bytes, s->bit_rate);
    if (it->timescale > 0)
        printf("/%" PRIu64 "/%" PRIu32, s->end, it->timescale);
}

static void picture(const struct mp4_track_info *it) {
    const struct mp4_track_picture *p = &it->picture;
    if (!it->has_picture) {
        printf(" -");
        return;
    }
    printf(" %ux%u/%" PRIu32 ":%" PRIu32 "/", p->width, p->height, p->h_spacing, p->v_spacing);
    if (p->has_rotation)
        printf("%u", p->rotation);
    if (it->samples.frame_units > 0)
        printf("/%" PRIu64 "/%" PRIu64 "/%u", it->samples.frames, it->samples.frame_units, it->samples.is_constant);
}

static void track(const struct mp4_track_info *it, const uint8_t *texts) {
    printf("track %" PRIu32 " %08" PRIx32 " %08" PRIx32, it->track_id, it->handler, it->entry);
    text(texts, it->kind);
    text(texts, it->codec);
    text(texts, it->language);
    duration(it->duration, it->duration_scale);
    samples(it);
    picture(it);
    if (it->has_sound)
        printf(" %" PRIu64 "/%" PRIu32 "/%" PRIu32, it->sound.sample_rate, it->sound.channels, it->sound.low_channels);
    else
        printf(" -");
    if (it->protection.is_encrypted) {
        printf(" %08" PRIx32 "/%08" PRIx32 "/", it->protection.original == it->entry ? 0 : it->protection.original,
               it->protection.scheme);
        hexadecimal(it->protection.kid, it->protection.has_kid ? 16 : 0);
    } else {
        printf(" -");
    }
    printf("\n");
}

static uint32_t info(const uint8_t *bytes, size_t length) {
    struct mp4_file_info file;
    struct mp4_track_info *tracks;
    uint32_t *brands, status = mp4_info(bytes, length, NULL, 0, NULL, 0, NULL, 0, &file);
    uint8_t *texts;
    size_t i;
    if (status != MP4_OK && status != MP4_NO_ROOM)
        return status;
    brands = malloc((file.brand_count + 1) * sizeof *brands);
    tracks = malloc((file.track_count + 1) * sizeof *tracks);
    texts = malloc(file.text_bytes + 1);
    if (brands == NULL || tracks == NULL || texts == NULL)
        return MP4_OUT_OF_MEMORY;
    status = mp4_info(bytes, length, brands, file.brand_count, tracks, file.track_count, texts, file.text_bytes, &file);
    printf("file %" PRIu64 " %" PRIu64 " %u %u", file.length, file.milliseconds, file.is_fragmented, file.order);
    for (i = 0; i < file.brand_count; i++)
        printf(" %08" PRIx32, brands[i]);
    printf("\n");
    for (i = 0; i < file.track_count; i++)
        track(&tracks[i], texts);
    free(brands);
    free(tracks);
    free(texts);
    return status;
}

int main(int arguments, char **argument) {
    FILE *file = arguments < 2 ? NULL : fopen(argument[1], "rb");
    uint8_t *bytes;
    size_t length;
    if (file == NULL || fseek(file, 0, SEEK_END) != 0)
        return 2;
    length = (size_t)ftell(file);
    rewind(file);
    bytes = malloc(length + 1);
    if (bytes == NULL || fread(bytes, 1, length, file) != length)
        return 2;
    fclose(file);
    length = faults(bytes, length) != MP4_OK || info(bytes, length) != MP4_OK;
    free(bytes);
    return (int)length;
}

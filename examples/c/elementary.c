/* Writes the AVC video of a track as a stream with start codes: elementary FILE TRACK_ID OUT. */
#include "example.h"

static FILE *out;

/* Writes a unit after a start code. */
static void put(const uint8_t *unit, size_t length) {
    static const uint8_t start[4] = {0, 0, 0, 1};
    if (fwrite(start, 1, sizeof start, out) != sizeof start || fwrite(unit, 1, length, out) != length)
        fail("the stream can't be written");
}

/* Writes the units of a sample. The length of each is a number of `width` bytes before it. */
static void put_sample(const uint8_t *sample, size_t length, size_t width) {
    while (length > 0) {
        size_t unit = length < width ? 0 : mp4_number(sample, width);
        if (length < width || unit > length - width)
            fail("a unit ends after its sample");
        put(sample + width, unit);
        sample += width + unit;
        length -= width + unit;
    }
}

int main(int arguments, char **argument) {
    size_t length, size, i, count, at = 0;
    uint8_t *file, *stsd, *sets;
    size_t *lengths;
    uint32_t track_id = arguments == 4 ? (uint32_t)strtoul(argument[2], NULL, 10) : 0;
    struct mp4_stsd_box box;
    struct mp4_sample *samples;
    if (arguments != 4 || (out = fopen(argument[3], "wb")) == NULL)
        fail("usage: elementary FILE TRACK_ID OUT");
    file = load(argument[1], &length);
    stsd = part(file, length, track_of(file, length, track_id), "/mdia/minf/stbl/stsd", &size);
    if (stsd == NULL || mp4_stsd(stsd, size, NULL, 0, NULL, 0, &box) != MP4_NO_ROOM)
        fail("the track is not AVC video"); /* only AVC video has parameter sets */
    count = box.avc1.avcc.sequence_count + box.avc1.avcc.picture_count;
    lengths = room(count, sizeof *lengths);
    sets = room(box.avc1.avcc.set_bytes, 1);
    ensure(mp4_stsd(stsd, size, lengths, count, sets, box.avc1.avcc.set_bytes, &box), "stsd");
    for (i = 0; i < count; at += lengths[i++])
        put(sets + at, lengths[i]);
    samples = samples_of(file, length, track_id, &count);
    for (i = 0; i < count; i++) {
        if (samples[i].offset > length || samples[i].size > length - samples[i].offset)
            fail("a sample is not in the file");
        put_sample(file + samples[i].offset, samples[i].size, box.avc1.avcc.length_size_minus_one + (size_t)1);
    }
    free(samples);
    free(lengths);
    free(sets);
    free(file);
    return fclose(out) != 0;
}

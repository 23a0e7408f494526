/* Writes the key frame at a time: key_frame TRACK_ID TIME < FILE. The time is in the timescale of the media. */
#include <stdio.h>
#include <stdlib.h>
#include "mp4_box_codec.h"

static int fails(uint32_t status) {
    uint8_t text[100];
    size_t length = 0;
    mp4_status_text(status, text, sizeof text, &length);
    fprintf(stderr, "key_frame: %.*s\n", (int)length, (char *)text);
    return 1;
}

int main(int arguments, char **argument) {
    static uint8_t bytes[1 << 24];
    size_t length = fread(bytes, 1, sizeof bytes, stdin), count = 0, i;
    uint32_t track = arguments < 3 ? 1 : (uint32_t)strtoul(argument[1], NULL, 10);
    uint64_t time = arguments < 3 ? 0 : strtoul(argument[2], NULL, 10);
    struct mp4_sample *samples, *key = NULL;
    uint32_t status = mp4_samples(bytes, length, track, NULL, 0, &count); /* asks how many there are */
    if (status != MP4_NO_ROOM)
        return status == MP4_OK ? 1 : fails(status); /* there is no sample, or no such track */
    samples = malloc(count * sizeof *samples);
    status = samples == NULL ? MP4_OUT_OF_MEMORY : mp4_samples(bytes, length, track, samples, count, &count);
    for (i = 0; status == MP4_OK && i < count && samples[i].decode_time <= time; i++)
        if (samples[i].sync)
            key = &samples[i];
    if (status == MP4_OK && key != NULL && key->offset <= length && key->size <= length - key->offset)
        fwrite(bytes + key->offset, 1, key->size, stdout);
    free(samples);
    return status == MP4_OK ? key == NULL : fails(status);
}

/* Writes a playlist (HLS, RFC 8216) whose segments are the fragments of a file: playlist FILE TRACK_ID. */
#include <math.h>
#include "example.h"

int main(int arguments, char **argument) {
    size_t length, size, count = 0, segments = 0, i, at = 0;
    uint32_t track_id = arguments == 3 ? (uint32_t)strtoul(argument[2], NULL, 10) : 0;
    uint8_t *file, *bytes;
    const char *name;
    struct mp4_mdhd_box mdhd;
    struct mp4_span *boxes;
    struct mp4_sample *samples;
    uint64_t *begins, front = 0;
    double *seconds, longest = 0;
    if (arguments != 3)
        fail("usage: playlist FILE TRACK_ID");
    name = strrchr(argument[1], '/') == NULL ? argument[1] : strrchr(argument[1], '/') + 1;
    file = load(argument[1], &length);
    bytes = part(file, length, track_of(file, length, track_id), "/mdia/mdhd", &size);
    ensure(bytes == NULL ? MP4_BOX_NOT_FOUND : mp4_mdhd(bytes, size, &mdhd), "mdhd");

    mp4_list(file, length, NULL, 0, &count);
    boxes = room(count, sizeof *boxes);
    ensure(mp4_list(file, length, boxes, count, &count), "the file");
    begins = room(count + 1, sizeof *begins);
    for (i = 0; i < count; i++) {
        if (boxes[i].code == MP4_CODE('m', 'o', 'o', 'v'))
            front = boxes[i].position + boxes[i].length;
        if (boxes[i].code == MP4_CODE('m', 'o', 'o', 'f'))
            begins[segments++] = boxes[i].position;
    }
    begins[segments] = length; /* a segment ends where the next one begins */
    if (mp4_fragment_samples(file, length, track_id, NULL, 0, &count) != MP4_NO_ROOM)
        fail("the track has no samples in fragments");
    samples = room(count, sizeof *samples);
    ensure(mp4_fragment_samples(file, length, track_id, samples, count, &count), "the fragments");
    seconds = room(segments, sizeof *seconds);
    for (i = 0; i < count; i++) {
        while (at + 1 < segments && samples[i].offset >= begins[at + 1])
            at++;
        seconds[at] += (double)samples[i].duration / mdhd.timescale;
    }
    for (i = 0; i < segments; i++)
        longest = fmax(longest, ceil(seconds[i]));
    printf("#EXTM3U\n#EXT-X-VERSION:7\n#EXT-X-TARGETDURATION:%.0f\n#EXT-X-PLAYLIST-TYPE:VOD\n", longest);
    printf("#EXT-X-MAP:URI=\"%s\",BYTERANGE=\"%lu@0\"\n", name, (unsigned long)front);
    for (i = 0; i < segments; i++)
        printf("#EXTINF:%.6f,\n#EXT-X-BYTERANGE:%lu@%lu\n%s\n", seconds[i], (unsigned long)(begins[i + 1] - begins[i]),
               (unsigned long)begins[i], name);
    printf("#EXT-X-ENDLIST\n");
    free(samples);
    free(seconds);
    free(begins);
    free(boxes);
    free(file);
    return 0;
}

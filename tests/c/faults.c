/* Prints the faults of a file and the codecs of its tracks: faults FILE. It reads 16 MiB at most. */
#include <inttypes.h>
#include <stdio.h>
#include "mp4_box_codec.h"

static uint8_t bytes[1 << 24], text[1 << 16];

static void print(struct mp4_text_part part, const char *after) {
    printf("%.*s%s", (int)part.length, (const char *)text + part.position, after);
}

int main(int arguments, char **argument) {
    FILE *file = arguments < 2 ? NULL : fopen(argument[1], "rb");
    size_t length = file == NULL ? 0 : fread(bytes, 1, sizeof bytes, file), i;
    static struct mp4_fault faults[1000];
    static struct mp4_track_info tracks[100];
    static uint32_t brands[100];
    struct mp4_fault_table table;
    struct mp4_file_info info;
    if (mp4_check_file(bytes, length, faults, 1000, text, sizeof text, &table) != MP4_OK)
        return 1;
    for (i = 0; i < table.count; i++) {
        printf("%" PRIu64 " ", faults[i].position);
        print(faults[i].path, faults[i].severity == MP4_WARNING ? ": warning: " : ": ");
        print(faults[i].text, "\n");
    }
    if (mp4_info(bytes, length, brands, 100, tracks, 100, text, sizeof text, &info) != MP4_OK)
        return 1;
    for (i = 0; i < info.track_count; i++) {
        print(tracks[i].kind, ", ");
        print(tracks[i].codec, ", ");
        printf("%" PRIu64 " samples\n", tracks[i].samples.sample_count);
    }
    return table.count > 0;
}

/* Lists the tracks of a file: tracks FILE. */
#include "example.h"

/* The texts of all tracks. */
static uint8_t *texts;

static void print(struct mp4_text_part part) {
    printf("%.*s, ", (int)part.length, (const char *)texts + part.position);
}

int main(int arguments, char **argument) {
    size_t length, i;
    uint8_t *file;
    uint32_t *brands;
    struct mp4_file_info info;
    struct mp4_track_info *tracks;
    if (arguments != 2)
        fail("usage: tracks FILE");
    file = load(argument[1], &length);
    mp4_info(file, length, NULL, 0, NULL, 0, NULL, 0, &info); /* asks how many there are */
    brands = room(info.brand_count, sizeof *brands);
    tracks = room(info.track_count, sizeof *tracks);
    texts = room(info.text_bytes, 1);
    ensure(mp4_info(file, length, brands, info.brand_count, tracks, info.track_count, texts, info.text_bytes, &info),
           "the file");
    for (i = 0; i < info.track_count; i++) {
        const struct mp4_track_info *it = &tracks[i];
        printf("track %u: ", (unsigned)it->track_id);
        print(it->kind);
        print(it->codec);
        print(it->language);
        printf("%u x %u, %.3f s, ", it->picture.width, it->picture.height,
               it->duration_scale == 0 ? 0.0 : (double)it->duration / (double)it->duration_scale);
        printf("%lu samples\n", (unsigned long)it->samples.sample_count);
    }
    free(brands);
    free(tracks);
    free(texts);
    free(file);
    return 0;
}

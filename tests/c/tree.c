/* Lists the boxes of a file, each and those in it, and reads no more of it than the walk wants: tree FILE. */
#include <stdio.h>
#include "mp4_box_codec.h"

int main(int arguments, char **argument) {
    FILE *file = arguments < 2 ? NULL : fopen(argument[1], "rb");
    struct mp4_walk walk;
    struct mp4_box box;
    uint8_t bytes[28];
    char code[5];
    uint32_t status = MP4_END_OF_INPUT;
    if (file != NULL && fseek(file, 0, SEEK_END) == 0)
        status = mp4_walk_begin((uint64_t)ftell(file), &walk);
    while (status == MP4_OK && walk.wanted > 0) {
        if (fseek(file, (long)walk.position, SEEK_SET) != 0 || fread(bytes, 1, walk.wanted, file) != walk.wanted)
            return MP4_END_OF_INPUT;
        status = mp4_walk_next(bytes, walk.wanted, &walk, &box);
        printf("%*s%s @%lu +%lu\n", (int)box.depth * 2, "", mp4_code_text(box.code, code), (unsigned long)box.position,
               (unsigned long)box.length);
    }
    return (int)status;
}

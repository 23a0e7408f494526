/* Writes a movie of up to 16 MiB with the title Blue: title IN OUT. */
#include <stdio.h>
#include "mp4_box_codec.h"

static uint8_t file[1 << 24], new_bytes[1 << 24], reason[1000];
static struct mp4_piece pieces[100];

int main(int arguments, char **argument) {
    struct mp4_change title = {{0, 0}, {0, 4}, 0, MP4_CHANGE_TAG, 0, MP4_TITLE}; /* no path; the bytes 0 to 3 */
    struct mp4_new_file new_file;
    FILE *in = arguments == 3 ? fopen(argument[1], "rb") : NULL, *out = in != NULL ? fopen(argument[2], "wb") : NULL;
    size_t i, length = out != NULL ? fread(file, 1, sizeof file, in) : 0;
    uint32_t status;
    if (out == NULL)
        return 2;
    status = mp4_edit(file, length, &title, 1, (const uint8_t *)"Blue", 4, pieces, 100, new_bytes, sizeof new_bytes,
                      reason, sizeof reason, &new_file);
    for (i = 0; status == MP4_OK && i < new_file.piece_count; i++)
        fwrite(mp4_piece_bytes(&pieces[i], file, new_bytes), 1, pieces[i].length, out);
    if (status == MP4_REFUSED)
        fprintf(stderr, "%.*s\n", (int)new_file.text_bytes, (const char *)reason);
    return fclose(out) != 0 || status != MP4_OK;
}

/* Changes the language of a track: edit IN TRACK_ID LANGUAGE OUT. The new file is pieces of the old one and new bytes,
   so that the samples are copied from the file itself. */
#include "example.h"

int main(int arguments, char **argument) {
    struct mp4_change change = {{0, 0}, {0, 0}, 0, MP4_CHANGE_LANGUAGE, 0, 0};
    struct mp4_new_file found = {0, 0, 0, 0, 0, 0, 0, 0};
    struct mp4_piece *pieces = NULL;
    uint8_t *bytes = NULL, *reason = NULL, *file;
    const uint8_t *letters;
    size_t length, round, i;
    uint32_t status = MP4_NO_ROOM;
    FILE *out;
    if (arguments != 5)
        fail("usage: edit IN TRACK_ID LANGUAGE OUT");
    file = load(argument[1], &length);
    letters = (const uint8_t *)argument[3];
    change.bytes.length = strlen(argument[3]);
    change.track_id = (uint32_t)strtoul(argument[2], NULL, 10);
    for (round = 0; round < 2 && status == MP4_NO_ROOM; round++) {
        if (round == 1) { /* the first call has counted the elements */
            pieces = room(found.piece_count, sizeof *pieces);
            bytes = room(found.new_bytes, 1);
            reason = room(found.text_bytes, 1);
        }
        status = mp4_edit(file, length, &change, 1, letters, change.bytes.length, pieces, found.piece_count, bytes,
                          found.new_bytes, reason, found.text_bytes, &found);
    }
    if (status == MP4_REFUSED)
        fail((const char *)reason);
    ensure(status, "the new file");
    out = fopen(argument[4], "wb");
    for (i = 0; out != NULL && i < found.piece_count; i++)
        fwrite(mp4_piece_bytes(&pieces[i], file, bytes), 1, pieces[i].length, out);
    if (out == NULL || ferror(out) || fclose(out) != 0)
        fail("the file can't be written");
    free(pieces);
    free(bytes);
    free(reason);
    free(file);
    return 0;
}

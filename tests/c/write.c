/* Writes the header of a media and the durations of its samples to standard output, one box after the other. */
#include <stdio.h>
#include "mp4_box_codec.h"

int main(void) {
    struct mp4_mdhd_box mdhd = {0, 0, 90000, 0, 30000, "eng", 0};
    struct mp4_stts_row rows[] = {{90, 1000}};
    struct mp4_table stts = {0, 0, 0};
    uint8_t bytes[100];
    size_t first = 0, second = 0;
    uint32_t status = mp4_write_mdhd(&mdhd, bytes, sizeof bytes, &first);
    if (status == MP4_OK)
        status = mp4_write_stts(&stts, rows, 1, bytes + first, sizeof bytes - first, &second);
    if (status == MP4_OK)
        fwrite(bytes, 1, first + second, stdout);
    return (int)status;
}

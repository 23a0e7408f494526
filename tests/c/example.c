/* Lists the boxes of standard input, of which it reads 16 MiB at most. */
#include <inttypes.h>
#include <stdio.h>
#include <stdlib.h>
#include "mp4_box_codec.h"

int main(void) {
    static uint8_t bytes[1 << 24];
    size_t i, count = 0, length = fread(bytes, 1, sizeof bytes, stdin);
    struct mp4_span *spans;
    uint32_t status = mp4_list(bytes, length, NULL, 0, &count); /* asks how many there are */
    if (status != MP4_NO_ROOM)
        return (int)status; /* there are none, or their headers have a fault */
    spans = malloc(count * sizeof *spans);
    status = spans == NULL ? MP4_OUT_OF_MEMORY : mp4_list(bytes, length, spans, count, &count);
    for (i = 0; status == MP4_OK && i < count; i++)
        printf("%" PRIu64 " %" PRIu64 " 0x%08" PRIx32 "\n", spans[i].position, spans[i].length, spans[i].code);
    free(spans);
    return (int)status;
}

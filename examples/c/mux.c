/* Puts a stream of AVC video with start codes into a file: mux IN WIDTH HEIGHT PICTURES_PER_SECOND OUT. */
#include "example.h"

#define MATRIX {0x10000, 0, 0, 0, 0x10000, 0, 0, 0, 0x40000000}
/* The place for the next box, for the functions that write one. */
#define HERE out + length, places - length, &count

/* The bytes of the new file, the length of the last box, and the positions of the boxes that aren't ended. */
static uint8_t *out;
static size_t length, places, count, begun[8], depth;

/* Takes a box that was written to HERE. */
static void put(uint32_t status) {
    ensure(status, "a box");
    length += count;
}

/* Begins a box that holds what is written next. */
static void begin(uint32_t code) {
    mp4_put_number(code, out + length + 4);
    begun[depth++] = length;
    length += 8;
}

/* Ends the last `boxes` boxes that were begun. */
static void end(size_t boxes) {
    for (; boxes > 0; boxes--, depth--)
        mp4_put_number((uint32_t)(length - begun[depth - 1]), out + begun[depth - 1]);
}

/* Returns the position of the first start code at `at` or after it, or the end of the stream. */
static size_t start_code(const uint8_t *in, size_t size, size_t at) {
    for (; at + 3 <= size; at++)
        if (in[at] == 0 && in[at + 1] == 0 && in[at + 2] == 1)
            return at;
    return size;
}

int main(int arguments, char **argument) {
    size_t size, at, next, n, lengths[2] = {0, 0};
    uint32_t *sizes, *keys, pictures = 0, key_count = 0, brand = MP4_CODE('a', 'v', 'c', '1'), offset, rate;
    uint8_t *sets;
    const uint8_t *in, *unit, *found[2] = {NULL, NULL};
    struct mp4_ftyp_box ftyp = {.major_brand = MP4_CODE('i', 's', 'o', 'm'), .minor_version = 512};
    struct mp4_mvhd_box mvhd = {.rate = 0x10000, .volume = 0x100, .next_track_id = 2, .matrix = MATRIX};
    struct mp4_tkhd_box tkhd = {.flags = 3, .track_id = 1, .matrix = MATRIX};
    struct mp4_mdhd_box mdhd = {.language = "und"};
    struct mp4_hdlr_box hdlr = {.handler_type = MP4_CODE('v', 'i', 'd', 'e')};
    struct mp4_vmhd_box vmhd = {.flags = 1};
    struct mp4_dref_box dref = {.url = {.flags = 1}, .has_url = 1};
    struct mp4_stsd_box stsd = {.entry = MP4_CODE('a', 'v', 'c', '1'), .avc1.avcc = {1, 1, 0, 1, 0, 0, 0, 3},
                                .avc1.visual = {0x480000, 0x480000, 1, 0, 0, 1, 24}};
    struct mp4_stts_row durations = {0, 1};
    struct mp4_stsc_row chunk = {1, 0, 1, 1};
    struct mp4_table table = {0, 0, 0};
    struct mp4_stsz_table stsz = {0, 0, 0, 0, 0};
    if (arguments != 6 || (rate = (uint32_t)strtoul(argument[4], NULL, 10)) == 0)
        fail("usage: mux IN WIDTH HEIGHT PICTURES_PER_SECOND OUT");
    in = load(argument[1], &size);
    out = room(places = 4 * size + 65536, 1); /* more than the units, and 8 bytes for each picture */
    sizes = room(size, 2 * sizeof *sizes);
    keys = sizes + size;
    put(mp4_write_ftyp(&ftyp, &brand, 1, HERE));
    begin(MP4_CODE('m', 'd', 'a', 't'));
    for (offset = (uint32_t)length, at = start_code(in, size, 0); at < size; at = next) {
        unit = in + at + 3;
        next = start_code(in, size, at + 3);
        for (n = next - at - 3; n > 0 && unit[n - 1] == 0; n--)
            ;
        if (n > 1 && (unit[0] % 32 == 7 || unit[0] % 32 == 8)) {
            found[unit[0] % 32 - 7] = unit;
            lengths[unit[0] % 32 - 7] = n;
        } else if (n > 1 && (unit[0] % 32 == 1 || unit[0] % 32 == 5) && (pictures > 0 || unit[1] >= 0x80)) {
            if (unit[1] >= 0x80 && ++pictures > 0 && unit[0] % 32 == 5) /* the first slice of a picture */
                keys[key_count++] = pictures;
            mp4_put_number((uint32_t)n, out + length);
            memcpy(out + length + 4, unit, n);
            length += n + 4;
            sizes[pictures - 1] += (uint32_t)n + 4;
        }
    }
    end(1);
    if (lengths[0] < 4 || lengths[1] == 0)
        fail("a parameter set is missing");
    sets = room(lengths[0] + lengths[1], 1);
    memcpy(sets, found[0], lengths[0]);
    memcpy(sets + lengths[0], found[1], lengths[1]);
    stsd.avc1.avcc.avc_profile_indication = sets[1];
    stsd.avc1.avcc.profile_compatibility = sets[2];
    stsd.avc1.avcc.avc_level_indication = sets[3];
    stsd.avc1.visual.width = (uint16_t)strtoul(argument[2], NULL, 10);
    stsd.avc1.visual.height = (uint16_t)strtoul(argument[3], NULL, 10);
    tkhd.width = stsd.avc1.visual.width * (uint32_t)65536;
    tkhd.height = stsd.avc1.visual.height * (uint32_t)65536;
    mvhd.timescale = mdhd.timescale = rate;
    mvhd.duration = tkhd.duration = mdhd.duration = pictures;
    durations.sample_count = chunk.samples_per_chunk = stsz.sample_count = pictures;
    begin(MP4_CODE('m', 'o', 'o', 'v'));
    put(mp4_write_mvhd(&mvhd, HERE));
    begin(MP4_CODE('t', 'r', 'a', 'k'));
    put(mp4_write_tkhd(&tkhd, HERE));
    begin(MP4_CODE('m', 'd', 'i', 'a'));
    put(mp4_write_mdhd(&mdhd, HERE));
    put(mp4_write_hdlr(&hdlr, NULL, 0, HERE));
    begin(MP4_CODE('m', 'i', 'n', 'f'));
    put(mp4_write_vmhd(&vmhd, HERE));
    begin(MP4_CODE('d', 'i', 'n', 'f'));
    put(mp4_write_dref(&dref, NULL, 0, HERE));
    end(1);
    begin(MP4_CODE('s', 't', 'b', 'l'));
    put(mp4_write_stsd(&stsd, lengths, 2, sets, lengths[0] + lengths[1], HERE));
    put(mp4_write_stts(&table, &durations, 1, HERE));
    put(mp4_write_stss(&table, keys, key_count, HERE));
    put(mp4_write_stsz(&stsz, sizes, pictures, HERE));
    put(mp4_write_stsc(&table, &chunk, 1, HERE));
    put(mp4_write_stco(&table, &offset, 1, HERE));
    end(5);
    save(argument[5], out, length);
    return 0;
}

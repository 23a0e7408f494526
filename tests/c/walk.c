/*
 * Walks over the boxes of a file that isn't in memory, by the functions of include/mp4_box_codec.h. They get the bytes
 * that the walk wants, up to the end of a page. The boxes of the file were worked out by hand.
 */
#include "checks.h"

#define HDLR "\0\0\0\x21hdlr\0\0\0\0\0\0\0\0soun\0\0\0\0\0\0\0\0\0\0\0\0\0"
/* 109 bytes: the header of free has 16 bytes, and the mdat is cut after its header. */
static const char FILE_BYTES[] = "\0\0\0\x10"
                                 "ftypqt  \1\2\3\4"
                                 "\0\0\0\x41moov\0\0\0\x39trak\0\0\0\x31mdia" HDLR "\0\0\0\x08minf"
                                 "\0\0\0\1"
                                 "free\0\0\0\0\0\0\0\x14"
                                 "abcd"
                                 "\0\0\0\x64mdat";
#define LENGTH (sizeof FILE_BYTES - 1)

#define CODE(a, b, c, d) ((uint32_t)(a) << 24 | (uint32_t)(b) << 16 | (uint32_t)(c) << 8 | (uint32_t)(d))
#define SOUN CODE('s', 'o', 'u', 'n')
static const struct mp4_box BOXES[] = {
    {0, 16, 8, 0, 0, CODE('f', 't', 'y', 'p'), 0, 0, MP4_LEAF, 0},
    {16, 65, 8, 24, 0, CODE('m', 'o', 'o', 'v'), 0, 0, MP4_PARENT, 0},
    {24, 57, 8, 32, 1, CODE('t', 'r', 'a', 'k'), CODE('m', 'o', 'o', 'v'), 0, MP4_PARENT, 0},
    {32, 49, 8, 40, 2, CODE('m', 'd', 'i', 'a'), CODE('t', 'r', 'a', 'k'), 0, MP4_PARENT, 0},
    {40, 33, 8, 0, 3, CODE('h', 'd', 'l', 'r'), CODE('m', 'd', 'i', 'a'), 0, MP4_LEAF, 0},
    {73, 8, 8, 81, 3, CODE('m', 'i', 'n', 'f'), CODE('m', 'd', 'i', 'a'), SOUN, MP4_PARENT, 0},
    {81, 20, 16, 0, 0, CODE('f', 'r', 'e', 'e'), 0, 0, MP4_LEAF, 0},
    {101, 100, 8, 0, 0, CODE('m', 'd', 'a', 't'), 0, 0, MP4_CUT, 0},
};
#define COUNT (sizeof BOXES / sizeof BOXES[0])

static int are_same(const struct mp4_box *one, const struct mp4_box *other) {
    return one->position == other->position && one->length == other->length &&
           one->header_length == other->header_length && one->children == other->children &&
           one->depth == other->depth && one->code == other->code && one->parent == other->parent &&
           one->handler == other->handler && one->what == other->what && one->stsd_version == other->stsd_version;
}

/* Calls the walk with the bytes that it wants, or with fewer. They end with a page. */
static uint32_t walk_on(const char *file, struct mp4_walk *walk, size_t length, struct mp4_box *box) {
    uint8_t *bytes = at_page_end(length);
    uint32_t status;
    memcpy(bytes, file + walk->position, length);
    calls += 1;
    status = mp4_walk_next(bytes, length, walk, box);
    give_back(bytes, length);
    return status;
}

/* Returns the number of boxes of a file, and fills `boxes`. Before each box it makes a call with fewer bytes than the
 * walk wants, which changes nothing. */
static size_t walk_over(const char *file, size_t length, struct mp4_box *boxes, size_t places) {
    struct mp4_walk walk, before;
    size_t count = 0;
    refuse(1, 1);
    EXPECT(mp4_walk_begin(length, &walk) == MP4_OK);
    while (walk.wanted > 0) {
        EXPECT(walk.wanted <= 28 && walk.position < length && walk.wanted <= length - walk.position && count < places);
        memcpy(&before, &walk, sizeof walk);
        memset(&boxes[count], FILLER, sizeof boxes[count]);
        EXPECT(walk_on(file, &walk, walk.wanted - 1, &boxes[count]) == MP4_END_OF_INPUT);
        EXPECT(memcmp(&before, &walk, sizeof walk) == 0 && is_filler(&boxes[count], sizeof boxes[count]));
        EXPECT(walk_on(file, &walk, walk.wanted, &boxes[count]) == MP4_OK);
        count += 1;
    }
    EXPECT(mp4_walk_next((const uint8_t *)file, length, &walk, &boxes[0]) == MP4_BOX_NOT_FOUND);
    EXPECT(mp4_walk_next(NULL, 0, &walk, &boxes[0]) == MP4_BOX_NOT_FOUND);
    EXPECT(asked == 0);
    refuse(0, 0);
    return count;
}

int main(void) {
    struct mp4_box boxes[64];
    struct mp4_walk walk;
    char deep[8 * 40];
    size_t index, count;

    subject = "a file";
    EXPECT(LENGTH == 109);
    EXPECT(walk_over(FILE_BYTES, LENGTH, boxes, 64) == COUNT);
    for (index = 0; index < COUNT; index++)
        EXPECT(are_same(&boxes[index], &BOXES[index]));

    subject = "no file";
    EXPECT(walk_over(FILE_BYTES, 0, boxes, 64) == 0);

    subject = "what is no box";
    EXPECT(walk_over("\0\0\0\7free", 8, boxes, 64) == 1 && boxes[0].what == MP4_SMALL && boxes[0].length == 8);
    EXPECT(walk_over("\0\0\0\x08"
                     "fre",
                     7, boxes, 64) == 1 &&
           boxes[0].what == MP4_NO_HEADER && boxes[0].length == 7);

    /* 40 boxes, each in the one before it: the walk enters 32 of them. */
    subject = "deep boxes";
    for (index = 0; index < 40; index++) {
        size_t size = 8 * (40 - index);
        char head[] = {0, 0, (char)(size >> 8), (char)size, 'm', 'o', 'o', 'v'};
        memcpy(deep + 8 * index, head, 8);
    }
    count = walk_over(deep, sizeof deep, boxes, 64);
    EXPECT(count == 33 && boxes[31].what == MP4_PARENT && boxes[32].what == MP4_TOO_DEEP && boxes[32].depth == 32);

    /* No memory has this length: the position of the second box has more than 32 bits. */
    subject = "a long file";
    EXPECT(mp4_walk_begin(0x8182838485868788, &walk) == MP4_OK && walk.wanted == 28);
    EXPECT(mp4_walk_next((const uint8_t *)"\0\0\0\1mdat\x41\x42\x43\x44\x45\x46\x47\x48............", 28, &walk,
                         boxes) == MP4_OK);
    EXPECT(boxes[0].length == 0x4142434445464748 && boxes[0].header_length == 16 && boxes[0].what == MP4_LEAF);
    EXPECT(walk.position == 0x4142434445464748 && walk.wanted == 28);
    printf("%ld calls and %ld checks of walks passed\n", calls, checks);
    return 0;
}

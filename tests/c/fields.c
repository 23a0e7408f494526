/*
 * Calls mp4_fields over boxes that were worked out from the standards: a table of the codec, and boxes that no other
 * function reads.
 */
#include "checks.h"

/* The expected text. */
static const char *expected;

static int is_text(const void *rows, size_t count) {
    return count == strlen(expected) && memcmp(rows, expected, count) == 0;
}

static int is_long(const void *told) { return *(const size_t *)told == strlen(expected); }

AS_CALL(fields, uint8_t, size_t)

/* Checks any number of places, each cut, each refused request, and each form of the header. */
static void try_box(const char *text, const uint8_t *bytes, size_t length) {
    struct subject s = {"mp4_fields", call_fields, 1, sizeof(size_t), is_text, is_long, 0, 0, 0, {0, 0}};
    uint8_t other[128];
    size_t count = 0, places;
    expected = text;
    s.count = strlen(text);
    s.bytes = bytes;
    s.length = length;
    refuse_each(&s);
    for (places = 0; places < s.count; places++)
        EXPECT(call_with(&s, bytes, length, places) == MP4_NO_ROOM);
    for (; places < s.count + 3; places++)
        EXPECT(call_with(&s, bytes, length, places) == MP4_OK);
    for (places = 0; places < length; places++)
        EXPECT(call_with(&s, bytes, places, s.count) == MP4_END_OF_INPUT);
    EXPECT(mp4_fields(bytes, length, NULL, 0, &count) == MP4_NO_ROOM && count == s.count);
    /* There are bytes after the box. A size of 0 means up to the end of the bytes. */
    EXPECT(length + 8 <= sizeof other);
    memcpy(other, bytes, length);
    memset(other + length, 0xFF, 8);
    EXPECT(call_with(&s, other, length + 8, s.count) == MP4_OK);
    memset(other, 0, 4);
    EXPECT(call_with(&s, other, length, s.count) == MP4_OK);
    other[3] = 7;
    EXPECT(call_with(&s, other, length, s.count) == MP4_INVALID_DATA);
    /* The header has 16 bytes. */
    memcpy(other + 16, bytes + 8, length - 8);
    memcpy(other, "\0\0\0\1....\0\0\0\0\0\0\0", 15);
    memcpy(other + 4, bytes + 4, 4);
    other[15] = (uint8_t)(length + 8);
    EXPECT(call_with(&s, other, length + 8, s.count) == MP4_OK);
    other[15] = 15;
    EXPECT(call_with(&s, other, length + 8, s.count) == MP4_INVALID_DATA);
}

/* Checks that a box of another type is unknown, whatever its size is, if its header is present. */
static void try_unknown(void) {
    static const char *BOXES[] = {"\0\0\0\x08"
                                  "free",
                                  "\0\0\0\0moov",
                                  "\0\0\0\x07"
                                  "free",
                                  "\0\0\0\xFFmdat", "\0\0\0\x08\0\0\0\0"};
    struct subject s = {"mp4_fields", call_fields, 1, sizeof(size_t), is_text, is_long, 0, 0, 8, {0, 0}};
    size_t i, count = 9;
    uint8_t text = 7;
    subject = s.name;
    expected = "";
    for (i = 0; i < sizeof BOXES / sizeof *BOXES; i++) {
        EXPECT(call_with(&s, (const uint8_t *)BOXES[i], 8, 10) == MP4_UNKNOWN_BOX);
        EXPECT(call_with(&s, (const uint8_t *)BOXES[i], 7, 10) == MP4_END_OF_INPUT);
    }
    EXPECT(mp4_fields(NULL, 0, NULL, 0, &count) == MP4_END_OF_INPUT && count == 9);
    EXPECT(mp4_fields((const uint8_t *)BOXES[0], 8, &text, 1, &count) == MP4_UNKNOWN_BOX && count == 9 && text == 7);
}

/* Checks a version that isn't read, a child that is missing, and a count of more entries than the box has. */
static void try_faults(void) {
    struct subject s = {"mp4_fields", call_fields, 1, sizeof(size_t), is_text, is_long, 0, 0, 0, {0, 0}};
    EXPECT(call_with(&s,
                     BYTES("\0\0\0\x0C"
                           "nmhd\1\0\0\0"),
                     20) == MP4_INVALID_DATA);
    EXPECT(call_with(&s,
                     BYTES("\0\0\0\x08"
                           "dinf"),
                     20) == MP4_BOX_NOT_FOUND);
    EXPECT(call_with(&s, BYTES("\0\0\0\x10stco\0\0\0\0\0\0\0\1"), 20) == MP4_INVALID_DATA);
}

int main(void) {
    try_box("{\"version\":0,\"flags\":1,\"entries\":[{\"sample_count\":3,\"sample_delta\":4294967295}]}",
            BYTES("\0\0\0\x18stts\0\0\0\1\0\0\0\1\0\0\0\3\xFF\xFF\xFF\xFF"));
    try_box("{\"hSpacing\":4,\"vSpacing\":2164260867}", BYTES("\0\0\0\x10pasp\0\0\0\4\x81\0\0\3"));
    try_box("{\"data_format\":\"\xC3\xA9\\\"c\\u0001\"}", BYTES("\0\0\0\x0C"
                                                                "frma\xE9\"c\1"));
    try_box("{\"version\":0,\"flags\":0}", BYTES("\0\0\0\x0Cnmhd\0\0\0\0"));
    try_box("{\"version\":0,\"flags\":0,\"location\":\"a\\u007f\\u009b\\u202e\xEF\xBF\xBD\"}",
            BYTES("\0\0\0\x15url \0\0\0\0a\x7F\xC2\x9B\xE2\x80\xAE\xFF\0"));
    try_box("{\"data_type\":1,\"data_type_name\":\"text\",\"country\":\"US\",\"language\":\"eng\","
            "\"text\":\"b\xEF\xBF\xBD\",\"text_hex\":\"628e\"}",
            BYTES("\0\0\0\x12"
                  "data\0\0\0\1US\x15\xC7"
                  "b\x8E"));
    try_unknown();
    try_faults();
    printf("fields: %ld calls of 1 function, %ld checks\n", calls, checks);
    return 0;
}

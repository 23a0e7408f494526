/*
 * Calls mp4_box_from_json and mp4_check_json over texts whose boxes and faults were worked out from the standards and
 * from docs/FIELDS.md.
 */
#include "checks.h"

/* The code of the box, the expected bytes, and the expected fault. */
static uint32_t code;
static const uint8_t *wanted;
static size_t wanted_length;
static struct mp4_json_fault fault;

static int is_wanted(const void *rows, size_t count) {
    return count == wanted_length && memcmp(rows, wanted, count) == 0;
}

static int is_length(const void *told) { return *(const size_t *)told == wanted_length; }

static int is_part(struct mp4_text_part part, struct mp4_text_part other) {
    return part.position == other.position && part.length == other.length;
}

static int is_fault(const void *told) {
    struct mp4_json_fault found;
    memcpy(&found, told, sizeof found);
    return is_part(found.path, fault.path) && is_part(found.text, fault.text) && found.text_bytes == fault.text_bytes &&
           found.reason == fault.reason;
}

static uint32_t call_box(const uint8_t *json, size_t length, void *bytes, size_t places, void *told) {
    return mp4_box_from_json(code, json, length, bytes, places, told);
}

static uint32_t call_check(const uint8_t *json, size_t length, void *text, size_t places, void *told) {
    return mp4_check_json(code, json, length, text, places, told);
}

/* Checks any number of places, and each refused request. */
static void try_places(struct subject *s, const uint8_t *json, size_t length) {
    size_t places;
    s->count = wanted_length;
    s->bytes = json;
    s->length = length;
    refuse_each(s);
    for (places = 0; places < s->count; places++)
        EXPECT(call_with(s, json, length, places) == MP4_NO_ROOM);
    for (; places < s->count + 3; places++)
        EXPECT(call_with(s, json, length, places) == MP4_OK);
}

/* Checks that the box of a text has these bytes, and that the text has no fault. */
static void try_box(const uint8_t *json, size_t length, const uint8_t *bytes, size_t count) {
    struct subject s = {"mp4_box_from_json", call_box, 1, sizeof(size_t), is_wanted, is_length, 0, 0, 0, {0, 0}};
    struct subject checked = {
        "mp4_check_json", call_check, 1, sizeof(struct mp4_json_fault), is_wanted, is_fault, 0, 0, 0, {0, 0}};
    size_t found = 0, at;
    code = MP4_CODE(bytes[4], bytes[5], bytes[6], bytes[7]);
    wanted = bytes;
    wanted_length = count;
    try_places(&s, json, length);
    EXPECT(mp4_box_from_json(code, json, length, NULL, 0, &found) == MP4_NO_ROOM && found == count);
    for (at = 0; at < length; at++)
        EXPECT(call_with(&s, json, at, count) == MP4_INVALID_DATA);
    wanted_length = 0;
    memset(&fault, 0, sizeof fault);
    try_places(&checked, json, length);
    EXPECT(mp4_check_json(code, json, length, NULL, 0, &fault) == MP4_OK && fault.reason == 0);
}

/* Checks that a text is refused for a reason, with a path and words. */
static void try_fault(uint32_t of, const uint8_t *json, size_t length, uint32_t reason, const char *path,
                      const char *words) {
    struct subject s = {"mp4_box_from_json", call_box, 1, sizeof(size_t), is_wanted, is_length, 0, 0, 0, {0, 0}};
    struct subject checked = {
        "mp4_check_json", call_check, 1, sizeof(struct mp4_json_fault), is_wanted, is_fault, 0, 0, 0, {0, 0}};
    char texts[128];
    code = of;
    EXPECT(call_with(&s, json, length, 100) == MP4_INVALID_DATA);
    EXPECT(strlen(path) + strlen(words) < sizeof texts);
    strcpy(texts, path);
    strcat(texts, words);
    fault.path.position = 0;
    fault.path.length = strlen(path);
    fault.text.position = strlen(path);
    fault.text.length = strlen(words);
    fault.text_bytes = strlen(texts);
    fault.reason = reason;
    wanted = (const uint8_t *)texts;
    wanted_length = strlen(texts);
    try_places(&checked, json, length);
}

/* Checks that boxes of other types are unknown, whatever the text is. */
static void try_unknown(void) {
    static const uint32_t CODES[] = {MP4_CODE('m', 'o', 'o', 'v'), MP4_CODE('f', 'r', 'e', 'e'), 0, 0xFFFFFFFF};
    struct subject s = {"mp4_box_from_json", call_box, 1, sizeof(size_t), is_wanted, is_length, 0, 0, 0, {0, 0}};
    struct subject checked = {
        "mp4_check_json", call_check, 1, sizeof(struct mp4_json_fault), is_wanted, is_fault, 0, 0, 0, {0, 0}};
    size_t i;
    for (i = 0; i < sizeof CODES / sizeof *CODES; i++) {
        code = CODES[i];
        EXPECT(call_with(&s, BYTES("{}"), 10) == MP4_UNKNOWN_BOX);
        EXPECT(call_with(&checked, BYTES("{}"), 10) == MP4_UNKNOWN_BOX);
        EXPECT(call_with(&s, BYTES("{"), 10) == MP4_UNKNOWN_BOX);
    }
}

#define PASP MP4_CODE('p', 'a', 's', 'p')
#define FTYP MP4_CODE('f', 't', 'y', 'p')

int main(void) {
    size_t length = 9;
    try_box(BYTES("{\"hSpacing\":4,\"vSpacing\":2164260867}"), BYTES("\0\0\0\x10pasp\0\0\0\4\x81\0\0\3"));
    try_box(BYTES("{\"vSpacing\": 3, \"hSpacing\" : 4}"), BYTES("\0\0\0\x10pasp\0\0\0\4\0\0\0\3"));
    try_box(BYTES("{\"data_format\":\"\xC3\xA9\\\"c\\u0001\"}"), BYTES("\0\0\0\x0C"
                                                                       "frma\xE9\"c\1"));
    try_box(BYTES("{\"version\":0,\"flags\":1,\"entries\":[{\"sample_count\":3,\"sample_delta\":4294967295}]}"),
            BYTES("\0\0\0\x18stts\0\0\0\1\0\0\0\1\0\0\0\3\xFF\xFF\xFF\xFF"));
    try_box(BYTES("{\"major_brand\":\"isom\",\"minor_version\":512,\"compatible_brands\":[\"mp41\"]}"),
            BYTES("\0\0\0\x14"
                  "ftypisom\0\0\2\0mp41"));
    try_fault(PASP, BYTES("{"), MP4_JSON_NOT_JSON, "", "is not JSON");
    try_fault(PASP, BYTES("{\"hSpacing\":4,\"vSpacing\":3,\"a\":\"\xFF\"}"), MP4_JSON_NOT_JSON, "", "is not JSON");
    try_fault(PASP, BYTES("[4, 3]"), MP4_JSON_NOT_OBJECT, "", "is not an object");
    try_fault(PASP, BYTES("{\"hSpacing\":4294967296,\"vSpacing\":3}"), MP4_JSON_OUT_OF_RANGE, "hSpacing",
              "does not fit the field");
    try_fault(PASP, BYTES("{\"hSpacing\":4}"), MP4_JSON_MISSING, "vSpacing", "is missing");
    try_fault(PASP, BYTES("{\"hSpacing\":4,\"vSpacing\":3,\"wSpacing\":2}"), MP4_JSON_UNKNOWN, "wSpacing",
              "is not a field of this box");
    try_fault(FTYP, BYTES("{\"major_brand\":\"isom\",\"minor_version\":0,\"compatible_brands\":[\"mp41\",\"mp4\"]}"),
              MP4_JSON_NOT_CODE, "compatible_brands[1]", "is not a text of four characters below U+0100");
    try_unknown();
    EXPECT(mp4_box_from_json(PASP, NULL, 0, NULL, 0, &length) == MP4_INVALID_DATA && length == 9);
    EXPECT(mp4_check_json(PASP, NULL, 0, NULL, 0, &fault) == MP4_NO_ROOM && fault.reason == MP4_JSON_NOT_JSON);
    printf("from_json: %ld calls of 2 functions, %ld checks\n", calls, checks);
    return 0;
}

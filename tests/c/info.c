/*
 * Calls mp4_check_file, mp4_info and mp4_fault_name: over files that were worked out from ISO/IEC 14496-12, and over
 * the movies in the folder that is the argument. Arrays are long enough and too short, and memory is refused.
 */
#include "checks.h"

/* The memory that a call fills. Each array ends with its page. */
struct memory {
    uint32_t *brands;
    struct mp4_track_info *tracks;
    struct mp4_fault *faults;
    uint8_t *text;
    size_t brand_places, places, text_places;
};

static struct memory taken(size_t brand_places, size_t places, size_t text_places) {
    struct memory m;
    m.brand_places = brand_places;
    m.places = places;
    m.text_places = text_places;
    m.brands = at_page_end(4 * brand_places);
    m.tracks = at_page_end(places * sizeof *m.tracks);
    m.faults = at_page_end(places * sizeof *m.faults);
    m.text = at_page_end(text_places);
    return m;
}

static void drop(struct memory m) {
    give_back(m.brands, 4 * m.brand_places);
    give_back(m.tracks, m.places * sizeof *m.tracks);
    give_back(m.faults, m.places * sizeof *m.faults);
    give_back(m.text, m.text_places);
}

static int is_text(const struct memory *m, struct mp4_text_part part, const char *wanted) {
    return part.length == strlen(wanted) && memcmp(m->text + part.position, wanted, part.length) == 0;
}

/* mp4_check_file. */

static uint32_t check_file(const uint8_t *bytes, size_t length, const struct memory *m, struct mp4_fault_table *table) {
    calls += 1;
    return mp4_check_file(bytes, length, m->faults, m->places, m->text, m->text_places, table);
}

/* A moov without an mvhd, with a box that declares a byte more than the moov has left. */
static const char FAULTY[] = "\0\0\0\x10moov\0\0\0\x09trac";

/* Checks the two faults in `m`: 4 and 16 bytes of text, and 9 and 23. */
static void expect_faults(const struct memory *m) {
    const struct mp4_fault *f = m->faults;
    EXPECT(f[0].position == 0 && f[0].code == MP4_FAULT_BOX_MISSING && f[0].severity == MP4_ERROR);
    EXPECT(is_text(m, f[0].path, "moov") && is_text(m, f[0].text, "there is no mvhd"));
    EXPECT(f[1].position == 8 && f[1].code == MP4_FAULT_BOX_CUT && f[1].severity == MP4_ERROR);
    EXPECT(is_text(m, f[1].path, "moov/trac") && is_text(m, f[1].text, "unexpected end of input"));
    EXPECT(is_filler(f + 2, (m->places - 2) * sizeof *f) && is_filler(m->text + 52, m->text_places - 52));
}

static void try_faults(void) {
    size_t places, text_places;
    const uint8_t *bytes = (const uint8_t *)FAULTY;
    subject = "mp4_check_file";
    for (places = 0; places < 4; places++)
        for (text_places = 50; text_places < 55; text_places++) {
            struct memory m = taken(0, places, text_places);
            struct mp4_fault_table table = {7, 7};
            uint32_t status = check_file(bytes, 16, &m, &table);
            EXPECT(status == (places < 2 || text_places < 52 ? MP4_NO_ROOM : MP4_OK));
            EXPECT(table.count == 2 && table.text_bytes == 52 && held == 0);
            if (status == MP4_OK)
                expect_faults(&m);
            else
                EXPECT(is_filler(m.faults, places * sizeof *m.faults) && is_filler(m.text, text_places));
            drop(m);
        }
}

/* Checks the one fault of a file: its place, code and severity, and its texts. */
static void expect_fault(const uint8_t *bytes, size_t length, uint64_t position, const char *path, uint32_t code,
                         uint32_t severity, const char *text) {
    struct memory m = taken(0, 1, strlen(path) + strlen(text));
    struct mp4_fault_table table = {7, 7};
    EXPECT(check_file(bytes, length, &m, &table) == MP4_OK);
    EXPECT(table.count == 1 && table.text_bytes == m.text_places);
    EXPECT(m.faults->position == position && m.faults->code == code && m.faults->severity == severity);
    EXPECT(is_text(&m, m.faults->path, path) && is_text(&m, m.faults->text, text));
    drop(m);
}

static void try_single_faults(void) {
    struct mp4_fault_table table = {7, 7};
    expect_fault(mp4_from(NULL), 0, 0, "moov", MP4_FAULT_MOVIE_MISSING, MP4_ERROR,
                 "there is no moov, moof, meta or sidx");
    expect_fault(BYTES("\0\0\0\x10moof\0\0\0\x08mfhd"), 8, "moof/mfhd", MP4_FAULT_BOX_INVALID, MP4_ERROR,
                 "unexpected end of input");
    expect_fault(BYTES("\0\0\0\x28moof\0\0\0\x10mfhd\0\0\0\0\0\0\0\1\0\0\0\x10mfhd\0\0\0\0\0\0\0\1"), 24,
                 "moof/mfhd[1]", MP4_FAULT_BOX_REPEATED, MP4_WARNING,
                 "a moof may have only one mfhd, and there is one before this at 8");
    /* A file without faults needs no array. */
    EXPECT(mp4_check_file(BYTES("\0\0\0\x18moof\0\0\0\x10mfhd\0\0\0\0\0\0\0\1"), NULL, 0, NULL, 0, &table) == MP4_OK);
    EXPECT(table.count == 0 && table.text_bytes == 0);
    EXPECT(mp4_check_file(NULL, 0, NULL, 0, NULL, 0, &table) == MP4_NO_ROOM && table.count == 1);
}

/* mp4_info. */

static uint32_t info(const uint8_t *bytes, size_t length, const struct memory *m, struct mp4_file_info *file) {
    calls += 1;
    return mp4_info(bytes, length, m->brands, m->brand_places, m->tracks, m->places, m->text, m->text_places, file);
}

/* Two brands, and a movie of one track whose boxes are all missing. */
static const char BRANDS[] = "\0\0\0\x14"
                             "ftypisom\0\0\2\0avc1"
                             "\0\0\0\x10moov\0\0\0\x08trak"
                             "\0\0\0\x08mdat";

static void try_brands(void) {
    size_t brand_places, places;
    subject = "mp4_info";
    for (brand_places = 0; brand_places < 4; brand_places++)
        for (places = 0; places < 3; places++) {
            struct memory m = taken(brand_places, places, 1);
            struct mp4_file_info file;
            uint32_t status = info((const uint8_t *)BRANDS, 44, &m, &file);
            EXPECT(status == (brand_places < 2 || places < 1 ? MP4_NO_ROOM : MP4_OK));
            EXPECT(file.brand_count == 2 && file.track_count == 1 && file.text_bytes == 0 && file.length == 44);
            EXPECT(file.milliseconds == 0 && !file.is_fragmented && !file.has_movie && !file.has_items);
            EXPECT(file.order == MP4_MOOV_FIRST && held == 0);
            if (status == MP4_OK) {
                EXPECT(m.brands[0] == MP4_CODE('i', 's', 'o', 'm') && m.brands[1] == MP4_CODE('a', 'v', 'c', '1'));
                EXPECT(m.tracks->codec.length == 0 && m.tracks->track_id == 0 && m.tracks->duration_scale == 0);
                EXPECT(!m.tracks->has_picture && !m.tracks->has_sound && m.tracks->samples.sample_count == 0);
                EXPECT(is_filler(m.brands + 2, 4 * (brand_places - 2)));
                EXPECT(is_filler(m.tracks + 1, (places - 1) * sizeof *m.tracks));
            } else {
                EXPECT(is_filler(m.brands, 4 * brand_places) && is_filler(m.tracks, places * sizeof *m.tracks));
            }
            EXPECT(is_filler(m.text, 1));
            drop(m);
        }
}

/* Reads a movie of the folder. */
static uint8_t bytes[1 << 13];

static size_t movie(const char *folder, const char *name) {
    char path[4096];
    FILE *file;
    size_t length;
    snprintf(path, sizeof path, "%s/%s.mp4", folder, name);
    file = fopen(path, "rb");
    EXPECT(file != NULL);
    length = fread(bytes, 1, sizeof bytes, file);
    fclose(file);
    return length;
}

/* Asks for the numbers of elements, and then for the elements with arrays that fit. A text that is too short by a byte
   leaves all as it was. */
static struct memory known(size_t length, struct mp4_file_info *file) {
    struct memory short_ones, m;
    EXPECT(mp4_info(bytes, length, NULL, 0, NULL, 0, NULL, 0, file) == MP4_NO_ROOM && file->length == length);
    short_ones = taken(file->brand_count, file->track_count, file->text_bytes - 1);
    EXPECT(info(bytes, length, &short_ones, file) == MP4_NO_ROOM);
    EXPECT(is_filler(short_ones.brands, 4 * file->brand_count) && is_filler(short_ones.text, file->text_bytes - 1));
    EXPECT(is_filler(short_ones.tracks, file->track_count * sizeof *short_ones.tracks));
    drop(short_ones);
    m = taken(file->brand_count, file->track_count, file->text_bytes);
    EXPECT(info(bytes, length, &m, file) == MP4_OK);
    return m;
}

/* Checks the video of video.mp4 and fragments.mp4. The first has an edit, so its ticks are those of two timescales. */
static void expect_video(const struct memory *m, const struct mp4_track_info *t, uint64_t scale) {
    EXPECT(is_text(m, t->kind, "video") && is_text(m, t->codec, "avc1.64000a") && is_text(m, t->language, "deu"));
    EXPECT(t->track_id == 1 && t->handler == MP4_CODE('v', 'i', 'd', 'e') && t->timescale == 10240);
    EXPECT(t->entry == MP4_CODE('a', 'v', 'c', '1') && t->duration_scale == scale && t->duration == 2 * scale);
    EXPECT(t->has_samples && t->samples.sample_count == 20 && t->samples.key_frames == 2 && t->samples.bytes == 902);
    EXPECT(t->samples.end == 20480 && t->samples.bit_rate == 3608 && t->samples.is_constant == 1);
    EXPECT(t->samples.frames == 10240 && t->samples.frame_units == 1024);
    EXPECT(t->has_picture && !t->has_sound && t->picture.width == 32 && t->picture.height == 32);
    EXPECT(t->picture.h_spacing == 1 && t->picture.v_spacing == 1);
    EXPECT(t->picture.has_rotation && t->picture.rotation == 0);
    EXPECT(!t->protection.is_encrypted && t->protection.original == t->entry && !t->protection.has_kid);
}

/* Checks the sound of sound.mp4 and fragments.mp4. */
static void expect_sound(const struct memory *m, const struct mp4_track_info *t, uint32_t track_id, uint64_t end) {
    EXPECT(is_text(m, t->kind, "audio") && is_text(m, t->codec, "mp4a.40.2") && is_text(m, t->language, "und"));
    EXPECT(t->track_id == track_id && t->handler == MP4_CODE('s', 'o', 'u', 'n') && t->timescale == 8000);
    EXPECT(t->samples.sample_count == 9 && t->samples.key_frames == 9 && t->samples.bytes == 1315);
    EXPECT(t->samples.end == end && !t->has_picture && t->has_sound && t->sound.sample_rate == 8000);
    EXPECT(t->sound.channels == 1 && t->sound.low_channels == 0);
}

static void try_movies(const char *folder) {
    struct mp4_file_info file;
    struct mp4_fault_table table;
    size_t length = movie(folder, "video");
    struct memory m = known(length, &file);
    EXPECT(length == 1857 && file.brand_count == 5 && file.track_count == 1 && file.milliseconds == 2000);
    EXPECT(file.has_movie && !file.is_fragmented && !file.has_items && file.order == MP4_MOOV_LAST);
    EXPECT(m.brands[0] == MP4_CODE('i', 's', 'o', 'm') && m.brands[4] == MP4_CODE('m', 'p', '4', '1'));
    expect_video(&m, m.tracks, 10240000);
    drop(m);
    EXPECT(mp4_check_file(bytes, length, NULL, 0, NULL, 0, &table) == MP4_OK && table.count == 0);
    m = known(movie(folder, "sound"), &file);
    EXPECT(file.milliseconds == 1000 && m.tracks->duration == 8000000 && m.tracks->duration_scale == 8000000);
    expect_sound(&m, m.tracks, 1, 9024);
    drop(m);
    length = movie(folder, "fragments");
    m = known(length, &file);
    EXPECT(file.track_count == 2 && file.milliseconds == 2000 && file.is_fragmented && file.has_movie);
    EXPECT(file.order == MP4_MOOV_FIRST && m.brands[0] == MP4_CODE('i', 's', 'o', '5'));
    expect_video(&m, m.tracks, 10240);
    expect_sound(&m, m.tracks + 1, 2, 9600);
    EXPECT(m.tracks[1].duration == 9600 && m.tracks[1].duration_scale == 8000);
    drop(m);
    EXPECT(mp4_check_file(bytes, length, NULL, 0, NULL, 0, &table) == MP4_OK && table.count == 0);
}

/* Refuses each request for memory of both calls, over a movie. */
static void try_refused(const char *folder) {
    size_t length = movie(folder, "video");
    struct memory m = taken(5, 1, 64);
    struct mp4_file_info file;
    struct mp4_fault_table table;
    long request, most[2];
    refuse(0, 0);
    EXPECT(info(bytes, length, &m, &file) == MP4_OK);
    most[0] = asked;
    refuse(0, 0);
    EXPECT(check_file(bytes, length, &m, &table) == MP4_OK);
    most[1] = asked;
    EXPECT(most[0] > 0 && most[1] > 0);
    drop(m);
    for (request = 1; request <= most[0]; request++) {
        m = taken(5, 1, 64);
        memset(&file, FILLER, sizeof file);
        refuse(request, 1);
        EXPECT(info(bytes, length, &m, &file) == MP4_OUT_OF_MEMORY && held == 0);
        EXPECT(is_filler(&file, sizeof file) && is_filler(m.tracks, sizeof *m.tracks) && is_filler(m.text, 64));
        drop(m);
    }
    for (request = 1; request <= most[1]; request++) {
        m = taken(0, 1, 64);
        memset(&table, FILLER, sizeof table);
        refuse(request, 1);
        EXPECT(check_file(bytes, length, &m, &table) == MP4_OUT_OF_MEMORY && held == 0);
        EXPECT(is_filler(&table, sizeof table) && is_filler(m.faults, sizeof *m.faults));
        drop(m);
    }
    refuse(0, 0);
}

/* mp4_fault_name. */

static void try_names(void) {
    static const char *NAMES[] = {"",
                                  "not-mp4",
                                  "file-cut",
                                  "box-cut",
                                  "box-too-small",
                                  "box-invalid",
                                  "box-repeated",
                                  "box-missing",
                                  "sizes-unlisted",
                                  "avc-without-sets",
                                  "movie-missing",
                                  "track-id-zero",
                                  "track-id-repeated",
                                  "track-id-unknown",
                                  "tables-disagree",
                                  "chunk-outside-media",
                                  "chunks-overlap",
                                  "media-duration",
                                  "track-duration",
                                  "movie-duration",
                                  "run-outside-media",
                                  "decode-time-back",
                                  "index-sizes",
                                  "nal-units-misfit",
                                  "pcm-frames-cut",
                                  ""};
    uint32_t code;
    subject = "mp4_fault_name";
    for (code = 0; code < sizeof NAMES / sizeof *NAMES; code++) {
        uint8_t text[32];
        size_t count = 99, length = strlen(NAMES[code]);
        memset(text, FILLER, sizeof text);
        if (length > 0) {
            EXPECT(mp4_fault_name(code, NULL, 0, &count) == MP4_NO_ROOM && count == length);
            EXPECT(mp4_fault_name(code, text, length - 1, &count) == MP4_NO_ROOM && is_filler(text, sizeof text));
        }
        EXPECT(mp4_fault_name(code, text, length, &count) == MP4_OK && count == length);
        EXPECT(memcmp(text, NAMES[code], length) == 0 && is_filler(text + length, sizeof text - length));
        calls += 3;
    }
    EXPECT(MP4_FAULT_PCM_FRAMES_CUT == 24 && MP4_FAULT_MOVIE_MISSING == 10);
}

int main(int arguments, char **argument) {
    if (arguments != 2)
        return 2;
    try_faults();
    try_single_faults();
    try_brands();
    try_movies(argument[1]);
    try_refused(argument[1]);
    try_names();
    printf("info: %ld calls of 3 functions, %ld checks\n", calls, checks);
    return 0;
}

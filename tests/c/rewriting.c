/*
 * Calls mp4_faststart, mp4_edit, mp4_fragment, mp4_defragment and mp4_cut over the movies in the folder that is the
 * argument: arrays are long enough and too short, files are refused, and memory is refused.
 */
#include "checks.h"

/* The memory that a call fills. Each array ends with its page. */
struct memory {
    struct mp4_piece *pieces;
    uint8_t *bytes, *text;
    size_t places, byte_places, text_places;
};

static struct memory taken(size_t places, size_t byte_places, size_t text_places) {
    struct memory m;
    m.places = places;
    m.byte_places = byte_places;
    m.text_places = text_places;
    m.pieces = at_page_end(places * sizeof *m.pieces);
    m.bytes = at_page_end(byte_places);
    m.text = at_page_end(text_places);
    return m;
}

static void drop(struct memory m) {
    give_back(m.pieces, m.places * sizeof *m.pieces);
    give_back(m.bytes, m.byte_places);
    give_back(m.text, m.text_places);
}

static int is_kept(const struct memory *m) {
    return is_filler(m->pieces, m->places * sizeof *m->pieces) && is_filler(m->bytes, m->byte_places) &&
           is_filler(m->text, m->text_places);
}

/* A movie of the folder. */
static uint8_t file[1 << 13];
static size_t length;

static void movie(const char *folder, const char *name) {
    char path[4096];
    FILE *opened;
    snprintf(path, sizeof path, "%s/%s.mp4", folder, name);
    opened = fopen(path, "rb");
    EXPECT(opened != NULL);
    length = fread(file, 1, sizeof file, opened);
    fclose(opened);
}

typedef uint32_t plans(const struct memory *m, struct mp4_new_file *found);

static uint32_t faststart(const struct memory *m, struct mp4_new_file *found) {
    calls += 1;
    return mp4_faststart(file, length, m->pieces, m->places, m->bytes, m->byte_places, m->text, m->text_places, found);
}

/* Changes of each kind: a box in the movie is replaced, and so on. */
static const uint8_t DATA[] = "moov/udta"
                              "\0\0\0\x10udta\0\0\0\x08"
                              "abcd"
                              "/"
                              "\0\0\0\x08"
                              "free"
                              "deu"
                              "Blue"
                              "\xFF\xD8\xFFpicture"
                              "isomiso6"
                              "free";
static const struct mp4_change CHANGES[] = {
    {{0, 9}, {9, 16}, 0, MP4_CHANGE_REPLACE, 0, 0},        {{25, 1}, {26, 8}, 0, MP4_CHANGE_INSERT, 0, 0},
    {{25, 1}, {26, 8}, MP4_LAST, MP4_CHANGE_INSERT, 0, 0}, {{59, 4}, {0, 0}, 0, MP4_CHANGE_REMOVE, 0, 0},
    {{0, 0}, {51, 8}, 0, MP4_CHANGE_BRANDS, 0, 0},         {{0, 0}, {34, 3}, 0, MP4_CHANGE_LANGUAGE, 1, 0},
    {{0, 0}, {0, 0}, 0, MP4_CHANGE_ROTATE, 1, 180},        {{0, 0}, {0, 0}, 0, MP4_CHANGE_ENABLE, 1, 0},
};

static uint32_t edit(const struct memory *m, struct mp4_new_file *found) {
    calls += 1;
    return mp4_edit(file, length, CHANGES, sizeof CHANGES / sizeof *CHANGES, DATA, sizeof DATA - 1, m->pieces,
                    m->places, m->bytes, m->byte_places, m->text, m->text_places, found);
}

/* Changes of tags, which are in a box that CHANGES replaces. */
static const struct mp4_change TAGS[] = {
    {{0, 0}, {0, 0}, 0, MP4_CHANGE_NO_TAGS, 0, 0},
    {{0, 0}, {37, 4}, 0, MP4_CHANGE_TAG, 0, MP4_TITLE},
    {{0, 0}, {41, 10}, 0, MP4_CHANGE_COVER, 0, 0},
};

static uint32_t tag(const struct memory *m, struct mp4_new_file *found) {
    calls += 1;
    return mp4_edit(file, length, TAGS, sizeof TAGS / sizeof *TAGS, DATA, sizeof DATA - 1, m->pieces, m->places,
                    m->bytes, m->byte_places, m->text, m->text_places, found);
}

static uint32_t fragment(const struct memory *m, struct mp4_new_file *found) {
    struct mp4_fragment_options options = {500000000, 1, 1, 0};
    calls += 1;
    return mp4_fragment(file, length, &options, m->pieces, m->places, m->bytes, m->byte_places, m->text, m->text_places,
                        found);
}

static uint32_t defragment(const struct memory *m, struct mp4_new_file *found) {
    calls += 1;
    return mp4_defragment(file, length, m->pieces, m->places, m->bytes, m->byte_places, m->text, m->text_places, found);
}

static uint32_t cut(const struct memory *m, struct mp4_new_file *found) {
    calls += 1;
    return mp4_cut(file, length, 500000000, 1500000000, m->pieces, m->places, m->bytes, m->byte_places, m->text,
                   m->text_places, found);
}

/* Checks that the pieces are present, and that there are as many bytes as the file counts. */
static void expect_pieces(const struct memory *m, const struct mp4_new_file *found) {
    uint64_t sum = 0;
    size_t i, new_bytes = 0;
    for (i = 0; i < found->piece_count; i++) {
        const struct mp4_piece *it = &m->pieces[i];
        size_t present = it->is_new ? found->new_bytes : length;
        EXPECT(it->is_new <= 1 && it->length > 0 && it->position <= present && it->length <= present - it->position);
        EXPECT(!it->is_new || it->position == new_bytes);
        EXPECT(mp4_piece_bytes(it, file, m->bytes) == (it->is_new ? m->bytes : file) + it->position);
        new_bytes += it->is_new ? it->length : 0;
        sum += it->length;
    }
    EXPECT(sum == found->length && new_bytes == found->new_bytes);
}

/* Calls with arrays that fit, or that have some places more or fewer. Each array by itself is too short once. */
static void try_places(const char *name, plans *call) {
    struct memory none = {NULL, NULL, NULL, 0, 0, 0};
    struct mp4_new_file wanted, found;
    size_t pieces, bytes, text;
    subject = name;
    EXPECT(call(&none, &wanted) == MP4_NO_ROOM && held == 0);
    for (pieces = 0; pieces < 4; pieces++)
        for (bytes = 0; bytes < 4; bytes++)
            for (text = 0; text < 4; text++) {
                int is_short =
                    pieces == 0 || (bytes == 0 && wanted.new_bytes > 0) || (text == 0 && wanted.text_bytes > 0);
                struct memory m;
                uint32_t status;
                if (wanted.piece_count == 0 && pieces == 0)
                    continue;
                m = taken(wanted.piece_count + pieces - 1, wanted.new_bytes + bytes - (wanted.new_bytes > 0),
                          wanted.text_bytes + text - (wanted.text_bytes > 0));
                memset(&found, FILLER, sizeof found);
                status = call(&m, &found);
                EXPECT(status == (is_short ? MP4_NO_ROOM : wanted.text_bytes > 0 ? MP4_REFUSED : MP4_OK) && held == 0);
                EXPECT(memcmp(&found, &wanted, sizeof found) == 0);
                if (is_short)
                    EXPECT(is_kept(&m));
                else {
                    EXPECT(is_filler(m.pieces + found.piece_count, (m.places - found.piece_count) * sizeof *m.pieces));
                    EXPECT(is_filler(m.bytes + found.new_bytes, m.byte_places - found.new_bytes));
                    EXPECT(is_filler(m.text + found.text_bytes, m.text_places - found.text_bytes));
                    expect_pieces(&m, &found);
                }
                drop(m);
            }
}

/* Refuses requests for memory, each with all after it and by itself. */
static void try_refused(const char *name, plans *call) {
    struct memory none = {NULL, NULL, NULL, 0, 0, 0}, m;
    struct mp4_new_file wanted, found;
    long request, most;
    subject = name;
    EXPECT(call(&none, &wanted) == MP4_NO_ROOM);
    refuse(0, 0);
    EXPECT(call(&none, &wanted) == MP4_NO_ROOM);
    most = asked;
    EXPECT(most > 0);
    for (request = 1; request <= most; request++) {
        int later;
        for (later = 0; later < 2; later++) {
            uint32_t status;
            m = taken(wanted.piece_count, wanted.new_bytes, wanted.text_bytes);
            memset(&found, FILLER, sizeof found);
            refuse(request, later);
            status = call(&m, &found);
            refuse(0, 0);
            EXPECT(held == 0 && (status == MP4_OUT_OF_MEMORY || (!later && status == MP4_OK)));
            if (status == MP4_OUT_OF_MEMORY)
                EXPECT(is_kept(&m) && is_filler(&found, sizeof found));
            else
                EXPECT(memcmp(&found, &wanted, sizeof found) == 0);
            drop(m);
        }
    }
}

static void expect_reason(plans *call, const char *wanted) {
    struct memory m = taken(0, 0, strlen(wanted));
    struct mp4_new_file found;
    EXPECT(call(&m, &found) == MP4_REFUSED && found.text_bytes == strlen(wanted) && held == 0);
    EXPECT(memcmp(m.text, wanted, strlen(wanted)) == 0);
    drop(m);
}

/* Rows that are no change, by themselves: each has one thing wrong. */
static uint32_t edit_by(struct mp4_change change, const struct memory *m, struct mp4_new_file *found) {
    calls += 1;
    return mp4_edit(file, length, &change, 1, DATA, sizeof DATA - 1, m->pieces, m->places, m->bytes, m->byte_places,
                    m->text, m->text_places, found);
}

static void try_row(struct mp4_change change, const char *wanted) {
    struct memory m = taken(0, 0, strlen(wanted));
    struct mp4_new_file found;
    subject = wanted;
    EXPECT(edit_by(change, &m, &found) == MP4_REFUSED && found.text_bytes == strlen(wanted));
    EXPECT(memcmp(m.text, wanted, strlen(wanted)) == 0 && held == 0);
    drop(m);
}

static void try_rows(void) {
    struct mp4_change it = {{0, 0}, {0, 0}, 0, 0, 0, 0};
    try_row(it, "change 0: no kind of change has this number");
    it.kind = MP4_CHANGE_REMOVE;
    try_row(it, "change 0: this is not a path");
    it.path.position = sizeof DATA - 1;
    try_row(it, "change 0: this is not a path");
    it.path.position = sizeof DATA;
    try_row(it, "change 0: a part of the data ends after them");
    it.path.position = 1;
    it.path.length = sizeof DATA - 1;
    try_row(it, "change 0: a part of the data ends after them");
    it.path.length = (size_t)-1;
    try_row(it, "change 0: a part of the data ends after them");
}

/* The pieces of a file whose moov moves to the front, and what was done. */
static void try_done(const char *folder) {
    struct memory m = taken(16, sizeof file, 256);
    struct mp4_new_file found;
    movie(folder, "video");
    subject = "what was done";
    EXPECT(faststart(&m, &found) == MP4_OK && found.length == length);
    EXPECT(found.moved_to < found.moved_from && found.fragments == 0 && found.samples == 0 && found.text_bytes == 0);
    EXPECT(fragment(&m, &found) == MP4_OK && found.fragments == 2 && found.samples == 0 && found.moved_from == 0);
    EXPECT(cut(&m, &found) == MP4_OK && found.samples > 0 && found.fragments == 0);
    EXPECT(edit(&m, &found) == MP4_OK && found.fragments == 0 && found.samples == 0 && found.moved_to == 0);
    expect_reason(defragment, "the file is not fragmented");
    movie(folder, "fragments");
    drop(m);
    m = taken(64, sizeof file, 256);
    EXPECT(defragment(&m, &found) == MP4_OK && found.samples == 29 && found.fragments > 0);
    EXPECT(faststart(&m, &found) == MP4_OK && found.moved_from == 0 && found.moved_to == 0);
    EXPECT(found.piece_count == 1 && found.new_bytes == 0 && found.length == length);
    drop(m);
    length = 0;
    expect_reason(faststart, "there is no moov");
    movie(folder, "video");
}

int main(int arguments, char **argument) {
    if (arguments != 2)
        return 2;
    try_done(argument[1]);
    try_rows();
    movie(argument[1], "video");
    try_places("mp4_faststart", faststart);
    try_places("mp4_edit", edit);
    try_places("mp4_edit of tags", tag);
    try_places("mp4_fragment", fragment);
    try_places("mp4_cut", cut);
    try_places("mp4_defragment that is refused", defragment);
    try_refused("mp4_faststart", faststart);
    try_refused("mp4_edit", edit);
    try_refused("mp4_edit of tags", tag);
    try_refused("mp4_fragment", fragment);
    try_refused("mp4_cut", cut);
    movie(argument[1], "fragments");
    try_places("mp4_defragment", defragment);
    try_refused("mp4_defragment", defragment);
    printf("rewriting: %ld calls of 5 functions, %ld checks\n", calls, checks);
    return 0;
}

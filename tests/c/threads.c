/* Calls the library from 8 threads at once: each reads, lists and writes the same bytes again and again, and has to get
   what one thread gets. The bytes are those of a file on standard input. */
#include <pthread.h>
#include <stdio.h>
#include <stdlib.h>
#include <string.h>
#include "mp4_box_codec.h"

#define THREADS 8
#define ROUNDS 50

static uint8_t file[1 << 16];
static size_t length;

/* The results of the calls for the file: the samples of its track, the fields of its header, and that header again; its
   faults, what is known of it, and the pieces of a new file. */
struct answer {
    struct mp4_sample samples[64];
    uint8_t text[4096], written[256], words[4096], names[256];
    size_t count, fields, size;
    uint32_t statuses[8], brands[16];
    struct mp4_fault faults[16];
    struct mp4_fault_table faulty;
    struct mp4_track_info tracks[4];
    struct mp4_file_info info;
    struct mp4_piece pieces[16];
    struct mp4_new_file plan;
    uint8_t new_bytes[4096];
};

static struct answer expected;

/* A movie without tracks, which gets a title. */
static const uint8_t MOVIE[] = "\0\0\0\x08"
                               "free"
                               "\0\0\0\x08"
                               "moov";

static void ask(struct answer *to) {
    struct mp4_place place;
    struct mp4_mvhd_box mvhd;
    struct mp4_change title = {{0, 0}, {0, 4}, 0, MP4_CHANGE_TAG, 0, MP4_TITLE};
    memset(to, 0, sizeof *to);
    to->statuses[5] = mp4_check_file(file, length, to->faults, 16, to->words, sizeof to->words, &to->faulty);
    to->statuses[6] = mp4_info(file, length, to->brands, 16, to->tracks, 4, to->names, sizeof to->names, &to->info);
    to->statuses[7] = mp4_edit(MOVIE, 16, &title, 1, (const uint8_t *)"Blue", 4, to->pieces, 16, to->new_bytes,
                               sizeof to->new_bytes, NULL, 0, &to->plan);
    to->statuses[0] = mp4_samples(file, length, 1, to->samples, 64, &to->count);
    to->statuses[1] = mp4_find(file, length, MP4_TEXT("moov/mvhd"), &place);
    if (to->statuses[1] != MP4_OK)
        return;
    to->statuses[2] = mp4_fields(file + place.position, place.length, to->text, sizeof to->text, &to->fields);
    to->statuses[3] = mp4_mvhd(file + place.position, place.length, &mvhd);
    to->statuses[4] = mp4_write_mvhd(&mvhd, to->written, sizeof to->written, &to->size);
}

static void *run(void *wrong) {
    struct answer *found = malloc(sizeof *found);
    int round;
    for (round = 0; round < ROUNDS && found != NULL; round++) {
        ask(found);
        if (memcmp(found, &expected, sizeof expected) != 0)
            *(int *)wrong = 1;
    }
    if (found == NULL)
        *(int *)wrong = 1;
    free(found);
    return NULL;
}

int main(void) {
    pthread_t threads[THREADS];
    int wrong[THREADS] = {0}, i, failed = 0;
    length = fread(file, 1, sizeof file, stdin);
    ask(&expected);
    for (i = 0; i < 8; i++)
        failed |= expected.statuses[i] != MP4_OK;
    failed |= expected.count == 0 || expected.fields == 0 || expected.size == 0;
    failed |= expected.faulty.count == 0 || expected.info.track_count == 0 || expected.plan.new_bytes == 0;
    for (i = 0; i < THREADS; i++)
        if (pthread_create(&threads[i], NULL, run, &wrong[i]) != 0)
            return 2;
    for (i = 0; i < THREADS; i++) {
        pthread_join(threads[i], NULL);
        failed |= wrong[i];
    }
    printf("threads: %d threads asked %d times, and %s\n", THREADS, ROUNDS, failed ? "differ" : "agree");
    return failed;
}

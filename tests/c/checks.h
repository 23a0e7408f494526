/*
 * The common part of the callers in C: requests for memory that are counted and refused, memory that ends with its
 * page, and calls that are checked. A source that includes this file includes nothing before it.
 *
 * The bytes and the arrays end at the end of a page, and nothing behind this page may be read or written. The linker
 * replaces malloc, realloc and free by the functions below (--wrap), so that requests can be counted and refused.
 */
#define _DEFAULT_SOURCE
#include <stdio.h>
#include <stdlib.h>
#include <string.h>
#include <sys/mman.h>
#include <unistd.h>

#include "mp4_box_codec.h"

/* Requests for memory. */

static long asked;   /* requests since the last call of `refuse` */
static long refused; /* the request that is refused, counted from 1, or 0 for none */
static int later;    /* whether all requests after it are refused too */
static long held;    /* blocks that were allocated and not freed */

void *__real_malloc(size_t size);
void *__real_realloc(void *block, size_t size);
void __real_free(void *block);
void *__wrap_malloc(size_t size);
void *__wrap_realloc(void *block, size_t size);
void __wrap_free(void *block);

static int refuses(void) {
    asked += 1;
    return asked == refused || (later && refused != 0 && asked > refused);
}

void *__wrap_malloc(size_t size) {
    void *block = refuses() ? NULL : __real_malloc(size);
    held += block != NULL;
    return block;
}

void *__wrap_realloc(void *block, size_t size) {
    void *moved = refuses() ? NULL : __real_realloc(block, size);
    held += moved != NULL && block == NULL;
    return moved;
}

void __wrap_free(void *block) {
    held -= block != NULL;
    __real_free(block);
}

static void refuse(long request, int and_later) {
    asked = 0;
    refused = request;
    later = and_later;
}

/* Checks. */

static const char *subject;
static long checks, calls;

static void expect(int holds, const char *text, int line) {
    checks += 1;
    if (!holds) {
        printf("line %d: %s: %s\n", line, subject, text);
        exit(1);
    }
}

#define EXPECT(condition) expect((condition) != 0, #condition, __LINE__)

/* Memory that ends with its page. */

#define FILLER 0xA5

static size_t pages_for(size_t size) {
    size_t page = (size_t)sysconf(_SC_PAGESIZE);
    return (size / page + 1) * page;
}

static void *at_page_end(size_t size) {
    size_t page = (size_t)sysconf(_SC_PAGESIZE), whole = pages_for(size);
    uint8_t *front = mmap(NULL, whole + page, PROT_READ | PROT_WRITE, MAP_PRIVATE | MAP_ANONYMOUS, -1, 0);
    EXPECT(front != MAP_FAILED);
    EXPECT(mprotect(front + whole, page, PROT_NONE) == 0);
    memset(front, FILLER, whole);
    return front + whole - size;
}

static void give_back(void *memory, size_t size) {
    size_t page = (size_t)sysconf(_SC_PAGESIZE), whole = pages_for(size);
    EXPECT(munmap((uint8_t *)memory + size - whole, whole + page) == 0);
}

static int is_filler(const void *memory, size_t size) {
    const uint8_t *bytes = memory;
    while (size > 0)
        if (bytes[--size] != FILLER)
            return 0;
    return 1;
}

/* A function under test, in a form that all functions share: rows and results are any memory. */

typedef uint32_t call(const uint8_t *bytes, size_t length, void *rows, size_t places, void *told);

struct subject {
    const char *name;
    call *function;
    size_t row, told;                                /* sizes */
    int (*are_same)(const void *rows, size_t count); /* returns whether the rows are the expected ones */
    int (*is_told)(const void *told);                /* returns whether the result is the expected one */
    size_t count;                                    /* the number of rows */
    const uint8_t *bytes;
    size_t length;
    size_t borders[2]; /* the offsets at which a cut is between two boxes, and not a fault */
};

/* Calls the function of `s` with the first `length` of `bytes` and with `places` places. Checks the memory that the
 * call may not change. Returns the status. */
static uint32_t call_with(const struct subject *s, const uint8_t *bytes, size_t length, size_t places) {
    size_t size = places * s->row;
    uint8_t *input = at_page_end(length), *rows = at_page_end(size), *told = at_page_end(s->told);
    uint32_t status;
    memcpy(input, bytes, length);
    calls += 1;
    status = s->function(input, length, rows, places, told);
    EXPECT(held == 0);
    EXPECT(memcmp(input, bytes, length) == 0);
    EXPECT(is_filler(rows - (pages_for(size) - size), pages_for(size) - size));
    if (status == MP4_OK) {
        EXPECT(places >= s->count);
        EXPECT(s->are_same(rows, s->count));
        EXPECT(is_filler(rows + s->count * s->row, size - s->count * s->row));
    } else {
        EXPECT(is_filler(rows, size));
    }
    if (status == MP4_OK || status == MP4_NO_ROOM)
        EXPECT(s->is_told(told));
    else
        EXPECT(is_filler(told, s->told));
    give_back(input, length);
    give_back(rows, size);
    give_back(told, s->told);
    return status;
}

/* Refuses each request for memory of the function of `s` over its whole bytes: by itself, and with all after it. */
static inline void refuse_each(const struct subject *s) {
    long request, most;
    subject = s->name;
    refuse(0, 0);
    EXPECT(call_with(s, s->bytes, s->length, s->count) == MP4_OK);
    most = asked;
    EXPECT(most > 0);
    for (request = 1; request <= most; request++) {
        uint32_t status;
        refuse(request, 0);
        status = call_with(s, s->bytes, s->length, s->count);
        EXPECT(status == MP4_OUT_OF_MEMORY || status == MP4_OK);
        refuse(request, 1);
        EXPECT(call_with(s, s->bytes, s->length, s->count) == MP4_OUT_OF_MEMORY);
    }
    refuse(0, 0);
}

/* Checks the faults of the header of a box at the front: no bytes, another code, sizes that are too small and too
 * large. */
static inline void try_header(const struct subject *s) {
    uint8_t bytes[128];
    EXPECT(s->length + 8 <= sizeof bytes);
    EXPECT(call_with(s, s->bytes, 0, s->count) == MP4_END_OF_INPUT);
    memcpy(bytes, s->bytes, s->length);
    bytes[7] ^= 1;
    EXPECT(call_with(s, bytes, s->length, s->count) == MP4_INVALID_DATA);
    bytes[7] ^= 1;
    bytes[3] = 7;
    EXPECT(call_with(s, bytes, s->length, s->count) == MP4_INVALID_DATA);
    bytes[3] = (uint8_t)(s->length + 1);
    EXPECT(call_with(s, bytes, s->length, s->count) == MP4_END_OF_INPUT);
    /* A size of 0 means up to the end of the bytes. */
    bytes[3] = 0;
    EXPECT(call_with(s, bytes, s->length, s->count) == MP4_OK);
    /* Bytes after the box are not read. */
    bytes[3] = (uint8_t)s->length;
    memset(bytes + s->length, 0xFF, 8);
    EXPECT(call_with(s, bytes, s->length + 8, s->count) == MP4_OK);
    /* The header has 16 bytes. */
    memcpy(bytes + 16, s->bytes + 8, s->length - 8);
    memcpy(bytes, "\0\0\0\1....\0\0\0\0\0\0\0", 15);
    memcpy(bytes + 4, s->bytes + 4, 4);
    bytes[15] = (uint8_t)(s->length + 8);
    EXPECT(call_with(s, bytes, s->length + 8, s->count) == MP4_OK);
}

#define BYTES(text) (const uint8_t *)(text), sizeof(text) - 1

/* Declares the function under test in the form that all functions share. */
#define AS_CALL(name, row_type, told_type)                                                                             \
    static uint32_t call_##name(const uint8_t *bytes, size_t length, void *rows, size_t places, void *told) {          \
        return mp4_##name(bytes, length, (row_type *)rows, places, (told_type *)told);                                 \
    }

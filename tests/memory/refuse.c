/*
 * A preloaded allocator that refuses requests for memory. It refuses the Nth call of malloc, calloc or realloc, where N
 * is the number in the variable REFUSE. If there is no number or it is 0, it refuses nothing. If the variable AND_LATER
 * is set, it also refuses all calls after that one. When the program ends it writes the number of requests to the file
 * that the variable REQUESTS names.
 */
#define _GNU_SOURCE
#include <dlfcn.h>
#include <errno.h>
#include <stdio.h>
#include <stdlib.h>

static unsigned long requests;

static int refused(void) {
    const char *text = getenv("REFUSE");
    unsigned long nth = text == NULL ? 0 : strtoul(text, NULL, 10);
    requests += 1;
    if (nth != 0 && (nth == requests || (nth < requests && getenv("AND_LATER") != NULL))) {
        errno = ENOMEM;
        return 1;
    }
    return 0;
}

void *malloc(size_t size) {
    static void *(*next)(size_t);
    if (next == NULL)
        next = (void *(*)(size_t))dlsym(RTLD_NEXT, "malloc");
    return refused() ? NULL : next(size);
}

void *calloc(size_t count, size_t size) {
    static void *(*next)(size_t, size_t);
    if (next == NULL)
        next = (void *(*)(size_t, size_t))dlsym(RTLD_NEXT, "calloc");
    return refused() ? NULL : next(count, size);
}

void *realloc(void *block, size_t size) {
    static void *(*next)(void *, size_t);
    if (next == NULL)
        next = (void *(*)(void *, size_t))dlsym(RTLD_NEXT, "realloc");
    return refused() ? NULL : next(block, size);
}

__attribute__((destructor)) static void tell(void) {
    const char *path = getenv("REQUESTS");
    unsigned long total = requests;
    FILE *file = path == NULL ? NULL : fopen(path, "w");
    if (file != NULL) {
        fprintf(file, "%lu\n", total);
        fclose(file);
    }
}

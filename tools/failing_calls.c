/* Preloaded into a program under test: makes calls of the C library fail.
 * FAIL_ALLOCATION=N, FAIL_READ=N, FAIL_WRITE=N: the Nth such call fails, counted from 1.
 * FAIL_ALLOCATION=N.. : the Nth allocation fails, and so does each one after it.
 * COUNT_CALLS=FILE: at the end, FILE has how many calls there were of each of the three. */
#define _GNU_SOURCE
#include <dlfcn.h>
#include <errno.h>
#include <stdio.h>
#include <stdlib.h>
#include <string.h>
#include <unistd.h>

/* The first call that fails, and whether the later ones do too. */
struct wanted {
    long first;
    int later;
};

static struct wanted wanted(const char *name) {
    const char *text = getenv(name);
    char *end = "";
    struct wanted it = {text ? strtol(text, &end, 10) : 0, 0};
    it.later = strcmp(end, "..") == 0;
    return it;
}

static int fails(long *calls, const char *name) {
    struct wanted it = wanted(name);
    ++*calls;
    return it.first > 0 && (*calls == it.first || (it.later && *calls > it.first));
}
static long allocations, reads, writes;

#define NEXT(name) ((__typeof__(&name))dlsym(RTLD_NEXT, #name))

void *malloc(size_t size) {
    if (fails(&allocations, "FAIL_ALLOCATION")) {
        errno = ENOMEM;
        return NULL;
    }
    return NEXT(malloc)(size);
}

void *realloc(void *old, size_t size) {
    if (fails(&allocations, "FAIL_ALLOCATION")) {
        errno = ENOMEM;
        return NULL;
    }
    return NEXT(realloc)(old, size);
}

void *calloc(size_t count, size_t size) {
    if (fails(&allocations, "FAIL_ALLOCATION")) {
        errno = ENOMEM;
        return NULL;
    }
    return NEXT(calloc)(count, size);
}

void *aligned_alloc(size_t alignment, size_t size) {
    if (fails(&allocations, "FAIL_ALLOCATION")) {
        errno = ENOMEM;
        return NULL;
    }
    return NEXT(aligned_alloc)(alignment, size);
}

int posix_memalign(void **out, size_t alignment, size_t size) {
    if (fails(&allocations, "FAIL_ALLOCATION"))
        return ENOMEM;
    return NEXT(posix_memalign)(out, alignment, size);
}

ssize_t read(int fd, void *buf, size_t count) {
    if (fails(&reads, "FAIL_READ")) {
        errno = EIO;
        return -1;
    }
    return NEXT(read)(fd, buf, count);
}

ssize_t write(int fd, const void *buf, size_t count) {
    if (fails(&writes, "FAIL_WRITE")) {
        errno = EIO;
        return -1;
    }
    return NEXT(write)(fd, buf, count);
}

__attribute__((destructor)) static void tell_counts(void) {
    long counts[] = {allocations, reads, writes};
    const char *name = getenv("COUNT_CALLS");
    FILE *file = name ? fopen(name, "w") : NULL;
    if (file) {
        fprintf(file, "%ld %ld %ld\n", counts[0], counts[1], counts[2]);
        fclose(file);
    }
}

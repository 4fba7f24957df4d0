/* Stands before the C library's allocation, and refuses one call of it: the one of the number in FAIL_AT, counted from 1 over
   malloc, calloc, realloc and their like; none where that is 0. That it did so is a byte in the file that FAIL_TOLD names. */
#define _GNU_SOURCE
#include <dlfcn.h>
#include <errno.h>
#include <fcntl.h>
#include <stdlib.h>
#include <string.h>
#include <unistd.h>

static unsigned long count, fail_at;
static int ready;

/* The library's own function, or an end of the run: without it nothing here means anything. */
static void *next(const char *name) {
    void *found = dlsym(RTLD_NEXT, name);
    if (!found) _exit(127);
    return found;
}

__attribute__((constructor)) static void begin(void) {
    const char *number = getenv("FAIL_AT");
    fail_at = number ? strtoul(number, NULL, 10) : 0;
    ready = 1;
}

static int refuses(void) {
    const char *name;
    int file;
    if (!ready || ++count != fail_at) return 0;
    name = getenv("FAIL_TOLD");
    file = name ? open(name, O_WRONLY) : -1;
    if (file >= 0) {
        if (write(file, "1", 1) != 1) _exit(127);
        close(file);
    }
    errno = ENOMEM;
    return 1;
}

void *malloc(size_t size) {
    static void *(*real)(size_t);
    if (!real) real = (void *(*)(size_t))next("malloc");
    return refuses() ? NULL : real(size);
}

void *realloc(void *old, size_t size) {
    static void *(*real)(void *, size_t);
    if (!real) real = (void *(*)(void *, size_t))next("realloc");
    return refuses() ? NULL : real(old, size);
}

/* The search for the library's calloc may itself ask for zeroed memory, so this goes by malloc. */
void *calloc(size_t number, size_t size) {
    void *made;
    if (size && number > (size_t)-1 / size) return NULL;
    made = malloc(number * size);
    return made ? memset(made, 0, number * size) : NULL;
}

void *aligned_alloc(size_t align, size_t size) {
    static void *(*real)(size_t, size_t);
    if (!real) real = (void *(*)(size_t, size_t))next("aligned_alloc");
    return refuses() ? NULL : real(align, size);
}

void *memalign(size_t align, size_t size) {
    return aligned_alloc(align, size);
}

int posix_memalign(void **made, size_t align, size_t size) {
    void *found = aligned_alloc(align, size);
    if (!found) return ENOMEM;
    *made = found;
    return 0;
}

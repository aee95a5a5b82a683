/* A library to preload: counts a program's allocations, and makes those from REFUSE_FIRST to REFUSE_LAST fail (none if these are not set).
   It writes how many were made and how many failed to the file REFUSE_COUNTS, as two numbers of eight bytes; the file must exist with that size. */
#include <errno.h>
#include <fcntl.h>
#include <stddef.h>
#include <stdint.h>
#include <stdlib.h>
#include <sys/mman.h>
#include <unistd.h>

/* The C library's own calls, under the names that it keeps for such a purpose. */
extern void *__libc_malloc(size_t);
extern void *__libc_realloc(void *, size_t);

static struct { uint64_t made, refused; } none, *counts = &none;
static uint64_t first, last;
static int is_ready;

static uint64_t number(const char *name) {
    const char *text = getenv(name);
    return text ? strtoull(text, NULL, 10) : 0;
}

__attribute__((constructor)) static void begin(void) {
    const char *name = getenv("REFUSE_COUNTS");
    int file = name ? open(name, O_RDWR | O_CLOEXEC) : -1;
    if (file >= 0) {
        void *page = mmap(NULL, sizeof *counts, PROT_READ | PROT_WRITE, MAP_SHARED, file, 0);
        if (page != MAP_FAILED) counts = page;
        close(file);
    }
    first = number("REFUSE_FIRST");
    last = number("REFUSE_LAST");
    is_ready = 1;
}

static int is_refused(void) {
    if (!is_ready) return 0;
    counts->made++;
    if (counts->made < first || last < counts->made) return 0;
    counts->refused++;
    errno = ENOMEM;
    return 1;
}

void *malloc(size_t size) { return is_refused() ? NULL : __libc_malloc(size); }

void *realloc(void *block, size_t size) { return is_refused() ? NULL : __libc_realloc(block, size); }

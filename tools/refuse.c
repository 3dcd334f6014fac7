// Put in front of the C library's allocator by LD_PRELOAD, this library refuses one request for memory.
//
//   REFUSE_AT=N       the N-th request is refused, counted from 1; none where N is 0 or missing
//   REFUSE_ONWARDS=1  each later request is refused too
//   REFUSE_COUNT=FD   at the end the number of requests is written to the descriptor FD
//
// For the GNU C library and programs of one thread.
#include <errno.h>
#include <stddef.h>
#include <stdio.h>
#include <stdlib.h>
#include <unistd.h>

extern void *__libc_malloc(size_t size);
extern void *__libc_calloc(size_t count, size_t size);
extern void *__libc_realloc(void *block, size_t size);
extern void *__libc_memalign(size_t alignment, size_t size);

static unsigned long requests, refused_at;
static int onwards, ready;

static unsigned long number(const char *name) {
    const char *text = getenv(name);
    return text == NULL ? 0 : strtoul(text, NULL, 10);
}

// Counts a request, and says whether it is refused.
static int refuses(void) {
    if (!ready) {
        ready = 1;
        refused_at = number("REFUSE_AT");
        onwards = number("REFUSE_ONWARDS") != 0;
    }
    requests++;
    if (refused_at == 0 || requests < refused_at || (requests > refused_at && !onwards)) return 0;
    errno = ENOMEM;
    return 1;
}

void *malloc(size_t size) { return refuses() ? NULL : __libc_malloc(size); }

void *calloc(size_t count, size_t size) { return refuses() ? NULL : __libc_calloc(count, size); }

void *realloc(void *block, size_t size) { return refuses() ? NULL : __libc_realloc(block, size); }

void *aligned_alloc(size_t alignment, size_t size) { return refuses() ? NULL : __libc_memalign(alignment, size); }

int posix_memalign(void **block, size_t alignment, size_t size) {
    if (refuses()) return ENOMEM;
    *block = __libc_memalign(alignment, size);
    return *block == NULL ? ENOMEM : 0;
}

__attribute__((destructor)) static void tell(void) {
    unsigned long descriptor = number("REFUSE_COUNT");
    if (descriptor == 0) return;
    char text[32];
    int length = snprintf(text, sizeof text, "%lu\n", requests);
    if (write((int)descriptor, text, (size_t)length) != length) return;
}

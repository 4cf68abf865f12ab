/* Refuses requests for memory: loaded before the C library (LD_PRELOAD), it counts what the program asks for and gives none for some.

   REFUSE_COUNT  a file of 8 bytes, where the number of requests so far stands, in the order of this machine
   REFUSE_FROM   the first request that is refused, from 1 on; 0 or nothing for none
   REFUSE_MANY   how many are refused in a row
   REFUSE_SIZE   each request for so many bytes or more is refused; 0 or nothing for none

   A count in a file outlives a program that is ended in the middle. */

#include <errno.h>
#include <fcntl.h>
#include <stdatomic.h>
#include <stddef.h>
#include <stdlib.h>
#include <sys/mman.h>
#include <unistd.h>

/* The C library's own, below the names that stand here. */
void *__libc_malloc(size_t);
void *__libc_calloc(size_t, size_t);
void *__libc_realloc(void *, size_t);
void *__libc_memalign(size_t, size_t);

static atomic_long *count;
static long first, last;
static size_t largest;

static long number(const char *name) {
    const char *given = getenv(name);
    return given ? atol(given) : 0;
}

__attribute__((constructor)) static void begin(void) {
    const char *name = getenv("REFUSE_COUNT");
    int file = name ? open(name, O_RDWR | O_CLOEXEC) : -1;
    if (file < 0) return;
    void *shared = mmap(NULL, sizeof *count, PROT_READ | PROT_WRITE, MAP_SHARED, file, 0);
    close(file);
    if (shared == MAP_FAILED) return;
    first = number("REFUSE_FROM");
    last = first + number("REFUSE_MANY");
    largest = number("REFUSE_SIZE");
    count = shared;
}

/* Counts a request; whether it is refused. What is asked for before the program begins isn't counted. */
static int is_refused(size_t size) {
    if (!count) return 0;
    long now = atomic_fetch_add(count, 1) + 1;
    int is_in_row = first && now >= first && now < last, is_large = largest && size >= largest;
    if (!is_in_row && !is_large) return 0;
    errno = ENOMEM;
    return 1;
}

void *malloc(size_t size) { return is_refused(size) ? NULL : __libc_malloc(size); }

void *calloc(size_t many, size_t size) { return is_refused(many * size) ? NULL : __libc_calloc(many, size); }

void *realloc(void *old, size_t size) { return is_refused(size) ? NULL : __libc_realloc(old, size); }

void *memalign(size_t align, size_t size) { return is_refused(size) ? NULL : __libc_memalign(align, size); }

void *aligned_alloc(size_t align, size_t size) { return memalign(align, size); }

int posix_memalign(void **given, size_t align, size_t size) {
    void *found = memalign(align, size);
    if (!found) return ENOMEM;
    *given = found;
    return 0;
}

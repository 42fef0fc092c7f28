/* Refuses allocations of a program that is started with this library in LD_PRELOAD. tools/refuse.py builds and uses it.
 *
 * REFUSE_AT=N      the N-th allocation answers want of memory (counted from 1, over all threads)
 * REFUSE_FROM=N    the N-th and all behind it do
 * REFUSE_COUNT=F   the file F has the count in its first eight bytes at every moment, so also behind a signal
 *
 * Without the first two it only counts. What the loader takes before the library is set up is neither counted nor
 * refused. The library itself takes no memory from the allocator; it needs the C library of GNU.
 */

#include <errno.h>
#include <fcntl.h>
#include <stdatomic.h>
#include <stddef.h>
#include <stdint.h>
#include <stdlib.h>
#include <sys/mman.h>
#include <unistd.h>

extern void *__libc_malloc(size_t size);
extern void *__libc_calloc(size_t count, size_t size);
extern void *__libc_realloc(void *old, size_t size);
extern void *__libc_memalign(size_t align, size_t size);

enum { BAD_SETTINGS = 125 };

static _Atomic uint64_t own_count;
static _Atomic uint64_t *count = &own_count;
static uint64_t refused_at, refused_from;
static int is_set_up;

static uint64_t number(const char *name) {
    const char *text = getenv(name);
    return text ? strtoull(text, NULL, 10) : 0;
}

/* The counter is a page that the file shows. */
static void count_in(const char *name) {
    int file = open(name, O_RDWR | O_CREAT | O_TRUNC | O_CLOEXEC, 0600);
    if (file < 0 || ftruncate(file, sizeof *count) != 0)
        _exit(BAD_SETTINGS);
    void *page = mmap(NULL, sizeof *count, PROT_READ | PROT_WRITE, MAP_SHARED, file, 0);
    if (page == MAP_FAILED)
        _exit(BAD_SETTINGS);
    close(file);
    count = page;
}

__attribute__((constructor)) static void set_up(void) {
    refused_at = number("REFUSE_AT");
    refused_from = number("REFUSE_FROM");
    const char *name = getenv("REFUSE_COUNT");
    if (name)
        count_in(name);
    is_set_up = 1;
}

static int is_refused(void) {
    if (!is_set_up)
        return 0;
    uint64_t n = atomic_fetch_add(count, 1) + 1;
    if (n != refused_at && (refused_from == 0 || n < refused_from))
        return 0;
    errno = ENOMEM;
    return 1;
}

void *malloc(size_t size) {
    return is_refused() ? NULL : __libc_malloc(size);
}

void *calloc(size_t times, size_t size) {
    return is_refused() ? NULL : __libc_calloc(times, size);
}

void *realloc(void *old, size_t size) {
    return is_refused() ? NULL : __libc_realloc(old, size);
}

void *memalign(size_t align, size_t size) {
    return is_refused() ? NULL : __libc_memalign(align, size);
}

void *aligned_alloc(size_t align, size_t size) {
    return is_refused() ? NULL : __libc_memalign(align, size);
}

int posix_memalign(void **place, size_t align, size_t size) {
    int before = errno;
    void *got = is_refused() ? NULL : __libc_memalign(align, size);
    errno = before;
    if (got == NULL)
        return ENOMEM;
    *place = got;
    return 0;
}

/* Laid over the C library's malloc, calloc, realloc and the aligned calls by LD_PRELOAD: counts the calls, and lets some fail.

   FAILING_CALL=N makes the N-th call fail, from 1; FAILING_CALLS_ON=1 each call behind it too.
   CALLS_COUNTED=FILE names a file of 8 bytes that holds the count while the program runs and after it ended, however it did.
   A realloc to 0 bytes frees, so it is neither counted nor failed. free goes to the C library as it is. failing_malloc.py runs this. */

#define _GNU_SOURCE
#include <errno.h>
#include <fcntl.h>
#include <stdint.h>
#include <stdlib.h>
#include <sys/mman.h>
#include <unistd.h>

extern void *__libc_malloc(size_t size);
extern void *__libc_calloc(size_t count, size_t size);
extern void *__libc_realloc(void *old, size_t size);
extern void *__libc_memalign(size_t alignment, size_t size);

static uint64_t calls_here;
static uint64_t *calls = &calls_here;
static uint64_t failing_call;
static int later_calls_fail;

__attribute__((constructor)) static void begin(void) {
    const char *path = getenv("CALLS_COUNTED");
    if (path != NULL) {
        int file = open(path, O_RDWR);
        void *place = file < 0 ? MAP_FAILED : mmap(NULL, 8, PROT_READ | PROT_WRITE, MAP_SHARED, file, 0);
        if (place == MAP_FAILED)
            _exit(125);
        close(file);
        calls = place;
    }
    const char *number = getenv("FAILING_CALL");
    failing_call = number == NULL ? 0 : strtoull(number, NULL, 10);
    later_calls_fail = getenv("FAILING_CALLS_ON") != NULL;
    /* What the loader allocated before is not the program's. */
    *calls = 0;
}

/* Counts one call, and says whether it is to fail. */
static int fails(void) {
    uint64_t call = __atomic_add_fetch(calls, 1, __ATOMIC_RELAXED);
    if (failing_call == 0 || call < failing_call || (call > failing_call && !later_calls_fail))
        return 0;
    errno = ENOMEM;
    return 1;
}

void *malloc(size_t size) { return fails() ? NULL : __libc_malloc(size); }

void *calloc(size_t count, size_t size) { return fails() ? NULL : __libc_calloc(count, size); }

void *realloc(void *old, size_t size) {
    if (old != NULL && size == 0)
        return __libc_realloc(old, size);
    return fails() ? NULL : __libc_realloc(old, size);
}

void *memalign(size_t alignment, size_t size) { return fails() ? NULL : __libc_memalign(alignment, size); }

void *aligned_alloc(size_t alignment, size_t size) { return fails() ? NULL : __libc_memalign(alignment, size); }

int posix_memalign(void **place, size_t alignment, size_t size) {
    void *got = fails() ? NULL : __libc_memalign(alignment, size);
    if (got == NULL)
        return ENOMEM;
    *place = got;
    return 0;
}

/* Refuses one allocation of the program that it is loaded into, or all from one on.
 *
 *     cc -shared -fPIC -O1 -o refuse_memory.so refuse_memory.c
 *     REFUSE_AT=3 REFUSE_ALL=0 REFUSE_TOLD=/tmp/told LD_PRELOAD=./refuse_memory.so PROGRAM ..
 *
 * Allocations are counted from 1, from where the program's own code begins. At each refusal a byte is appended to the
 * file REFUSE_TOLD. Growing counts as an allocation, freeing is never refused.
 */
#include <errno.h>
#include <fcntl.h>
#include <stddef.h>
#include <stdlib.h>
#include <unistd.h>

extern void *__libc_malloc(size_t size);
extern void *__libc_calloc(size_t count, size_t size);
extern void *__libc_realloc(void *old, size_t size);
extern void *__libc_memalign(size_t align, size_t size);

static unsigned long at, all, count;
static const char *told;

__attribute__((constructor)) static void begin(void) {
    const char *word = getenv("REFUSE_AT");
    const char *more = getenv("REFUSE_ALL");
    told = getenv("REFUSE_TOLD");
    all = more != NULL && *more == '1';
    at = word == NULL ? 0 : strtoul(word, NULL, 10);
    count = 0;
}

/* Whether this allocation is refused. */
static int refused(void) {
    unsigned long number;
    if (at == 0) return 0;
    number = __atomic_add_fetch(&count, 1, __ATOMIC_RELAXED);
    if (number < at || (number > at && !all)) return 0;
    if (told != NULL) {
        int file = open(told, O_WRONLY | O_CREAT | O_APPEND, 0600);
        if (file >= 0) {
            ssize_t wrote = write(file, "x", 1);
            (void)wrote;
            close(file);
        }
    }
    errno = ENOMEM;
    return 1;
}

void *malloc(size_t size) { return refused() ? NULL : __libc_malloc(size); }

void *calloc(size_t n, size_t size) { return refused() ? NULL : __libc_calloc(n, size); }

void *realloc(void *old, size_t size) { return refused() ? NULL : __libc_realloc(old, size); }

void *memalign(size_t align, size_t size) { return refused() ? NULL : __libc_memalign(align, size); }

void *aligned_alloc(size_t align, size_t size) { return memalign(align, size); }

int posix_memalign(void **out, size_t align, size_t size) {
    void *got = memalign(align, size);
    if (got == NULL) return ENOMEM;
    *out = got;
    return 0;
}

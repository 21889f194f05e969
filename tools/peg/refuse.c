/* Loaded before the C library's own: counts requests for memory, and refuses those that REFUSE says: `at N`, `from N`, `each N`, or
   none by `none 0`. The first refusal is told by a byte on the descriptor 9. A run ends after a minute. */
#include <errno.h>
#include <stdlib.h>
#include <unistd.h>

void *__libc_malloc(size_t), *__libc_calloc(size_t, size_t);
void *__libc_realloc(void *, size_t), *__libc_memalign(size_t, size_t);

static unsigned long n, count, met;
static char kind;

static int refused(void) {
    if (!kind) {
        const char *says = getenv("REFUSE");
        kind = says[0];
        while (*says++ != ' ');
        n = strtoul(says, 0, 10);
        alarm(60);
    }
    count++;
    if (!(kind == 'a' ? count == n : kind == 'f' ? count >= n : kind == 'e' && count % n == 0)) return 0;
    if (!met++ && write(9, "r", 1) != 1) _exit(99);
    errno = ENOMEM;
    return 1;
}

void *malloc(size_t size) { return refused() ? 0 : __libc_malloc(size); }
void *calloc(size_t many, size_t size) { return refused() ? 0 : __libc_calloc(many, size); }
void *realloc(void *old, size_t size) { return refused() ? 0 : __libc_realloc(old, size); }
void *aligned_alloc(size_t align, size_t size) { return refused() ? 0 : __libc_memalign(align, size); }

int posix_memalign(void **to, size_t align, size_t size) {
    void *got = refused() ? 0 : __libc_memalign(align, size);
    if (got) *to = got;
    return got ? 0 : ENOMEM;
}

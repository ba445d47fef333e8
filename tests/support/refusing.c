/* Refuses allocations: with REFUSE_AT=n the n-th one, with REFUSE_FROM=n that one and all after it. At each refusal it
   writes a byte to the file descriptor REFUSED_TO. */
#define _GNU_SOURCE
#include <dlfcn.h>
#include <errno.h>
#include <stdatomic.h>
#include <stdlib.h>
#include <unistd.h>

static long at, from, to = -1;
static atomic_long made;

static long number(const char *name, long otherwise) {
    const char *text = getenv(name);
    return text ? atol(text) : otherwise;
}

static int refused(void) {
    if (to < 0) {
        at = number("REFUSE_AT", 0);
        from = number("REFUSE_FROM", 0);
        to = number("REFUSED_TO", 2);
    }
    long now = ++made;
    if (now != at && (!from || now < from)) return 0;
    (void)!write(to, "!", 1);
    errno = ENOMEM;
    return 1;
}

#define NEXT(name) static typeof(name) *next; if (!next) next = dlsym(RTLD_NEXT, #name)

void *malloc(size_t n) { NEXT(malloc); return refused() ? 0 : next(n); }
void *calloc(size_t n, size_t m) { NEXT(calloc); return refused() ? 0 : next(n, m); }
void *realloc(void *p, size_t n) { NEXT(realloc); return refused() ? 0 : next(p, n); }
void *aligned_alloc(size_t a, size_t n) { NEXT(aligned_alloc); return refused() ? 0 : next(a, n); }
int posix_memalign(void **p, size_t a, size_t n) { NEXT(posix_memalign); return refused() ? ENOMEM : next(p, a, n); }

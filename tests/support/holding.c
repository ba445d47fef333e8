/* Holds threads back: each but the first sleeps at one of four of its allocations, for up to 2 ms. At the first time it writes
   a byte to the file descriptor HELD_TO. */
#define _GNU_SOURCE
#include <dlfcn.h>
#include <errno.h>
#include <stdatomic.h>
#include <stdlib.h>
#include <time.h>
#include <unistd.h>

static atomic_ulong made;
static atomic_int told;

static void hold(void) {
    if (gettid() == getpid()) return;
    unsigned long drawn = (++made * 64 + gettid() % 64) * 6364136223846793005UL + 1442695040888963407UL;
    if (drawn >> 62) return;
    int was = errno;
    if (!told++) (void)!write(atoi(getenv("HELD_TO")), "!", 1);
    nanosleep(&(struct timespec){0, (drawn >> 32) % 2000000}, 0);
    errno = was;
}

#define NEXT(name) static typeof(name) *next; if (!next) next = dlsym(RTLD_NEXT, #name)

void *malloc(size_t n) { NEXT(malloc); hold(); return next(n); }
void *calloc(size_t n, size_t m) { NEXT(calloc); hold(); return next(n, m); }
void *realloc(void *p, size_t n) { NEXT(realloc); hold(); return next(p, n); }
void *aligned_alloc(size_t a, size_t n) { NEXT(aligned_alloc); hold(); return next(a, n); }
int posix_memalign(void **p, size_t a, size_t n) { NEXT(posix_memalign); hold(); return next(p, a, n); }

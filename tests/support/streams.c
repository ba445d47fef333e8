/* Changes what read of standard input and write to standard output answer. With STREAM=read or STREAM=write, call number AT
   (and with LASTING=1 each one after it) fails with the error number ERROR; with ERROR=0 it moves MOST bytes alone, or one. At each
   such call it writes a byte to the file descriptor MET_TO. Beside an error, each write that moves bytes after a failed one
   is told there as well, by a byte 'w'. */
#define _GNU_SOURCE
#include <dlfcn.h>
#include <errno.h>
#include <stdlib.h>
#include <string.h>
#include <unistd.h>

static long number(const char *name) {
    const char *text = getenv(name);
    return text ? atol(text) : 0;
}

static size_t most(size_t n) {
    size_t m = getenv("MOST") ? number("MOST") : 1;
    return n < m ? n : m;
}

static int is_met(const char *stream, long *made) {
    const char *wanted = getenv("STREAM");
    if (!wanted || strcmp(wanted, stream)) return 0;
    ++*made;
    return *made == number("AT") || (number("LASTING") && *made > number("AT"));
}

static ssize_t (*next_write)(int, const void *, size_t);

static void tell(char what) {
    if (!next_write) next_write = dlsym(RTLD_NEXT, "write");
    (void)!next_write(number("MET_TO"), &what, 1);
}

ssize_t read(int from, void *to, size_t n) {
    static ssize_t (*next)(int, void *, size_t);
    static long made;
    if (!next) next = dlsym(RTLD_NEXT, "read");
    if (from != 0 || !is_met("read", &made)) return next(from, to, n);
    tell('!');
    if (number("ERROR") == 0) return next(from, to, most(n));
    errno = number("ERROR");
    return -1;
}

ssize_t write(int to, const void *from, size_t n) {
    static long made;
    static int has_failed;
    if (!next_write) next_write = dlsym(RTLD_NEXT, "write");
    if (to != 1) return next_write(to, from, n);
    int is_here = is_met("write", &made);
    if (is_here) tell('!');
    if (is_here && number("ERROR") != 0) {
        has_failed = 1;
        errno = number("ERROR");
        return -1;
    }
    if (has_failed && n > 0) tell('w');
    return next_write(to, from, is_here ? most(n) : n);
}

/* (the toolchain's runtime may call it by this name) */
ssize_t __write(int to, const void *from, size_t n) { return write(to, from, n); }

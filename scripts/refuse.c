/* Makes one allocation of a program fail, and none of those that it starts: the one whose number, from 1, REFUSE names.
   Built by scripts/refusals.py and put before the C library by LD_PRELOAD. If that request comes, the file that REFUSED names
   is made; and if the program waits for a process that does not exist, as for one that it waited for before, that of MISSED.
   The file that STARTED names gets the number of requests before the first read of standard input. */
#define _GNU_SOURCE
#include <dlfcn.h>
#include <errno.h>
#include <fcntl.h>
#include <stdio.h>
#include <stdlib.h>
#include <sys/types.h>
#include <unistd.h>

static long requests = -1, refused;

__attribute__((constructor)) static void begin(void) {
    unsetenv("LD_PRELOAD"); /* what is started is left alone */
}

/* Makes the file that a variable names. */
static void mark(const char *name) {
    const char *file = getenv(name);
    if (file) close(open(file, O_CREAT | O_WRONLY, 0600));
}

static int is_refused(void) {
    if (requests < 0) {
        const char *number = getenv("REFUSE");
        refused = number ? atol(number) : 0;
        requests = 0;
    }
    if (++requests != refused) return 0;
    mark("REFUSED");
    errno = ENOMEM;
    return 1;
}

void *malloc(size_t size) {
    static void *(*next)(size_t);
    if (!next) next = dlsym(RTLD_NEXT, "malloc");
    return is_refused() ? NULL : next(size);
}

void *calloc(size_t count, size_t size) {
    static void *(*next)(size_t, size_t);
    static int is_sought;
    if (!next) {
        if (is_sought) return NULL; /* dlsym asks for memory itself, and can do without */
        is_sought = 1;
        next = dlsym(RTLD_NEXT, "calloc");
    }
    return is_refused() ? NULL : next(count, size);
}

void *realloc(void *at, size_t size) {
    static void *(*next)(void *, size_t);
    if (!next) next = dlsym(RTLD_NEXT, "realloc");
    return is_refused() ? NULL : next(at, size);
}

void *aligned_alloc(size_t alignment, size_t size) {
    static void *(*next)(size_t, size_t);
    if (!next) next = dlsym(RTLD_NEXT, "aligned_alloc");
    return is_refused() ? NULL : next(alignment, size);
}

int posix_memalign(void **at, size_t alignment, size_t size) {
    static int (*next)(void **, size_t, size_t);
    if (!next) next = dlsym(RTLD_NEXT, "posix_memalign");
    return is_refused() ? ENOMEM : next(at, alignment, size);
}

pid_t waitpid(pid_t child, int *status, int options) {
    static pid_t (*next)(pid_t, int *, int);
    if (!next) next = dlsym(RTLD_NEXT, "waitpid");
    pid_t ended = next(child, status, options);
    if (ended < 0 && errno == ECHILD) {
        mark("MISSED");
        errno = ECHILD;
    }
    return ended;
}

ssize_t read(int from, void *octets, size_t count) {
    static ssize_t (*next)(int, void *, size_t);
    static int is_started;
    if (!next) next = dlsym(RTLD_NEXT, "read");
    if (from == STDIN_FILENO && !is_started) {
        const char *file = getenv("STARTED");
        is_started = 1;
        int to = file ? open(file, O_CREAT | O_WRONLY | O_TRUNC, 0600) : -1;
        if (to >= 0) {
            dprintf(to, "%ld", requests < 0 ? 0 : requests);
            close(to);
        }
    }
    return next(from, octets, count);
}

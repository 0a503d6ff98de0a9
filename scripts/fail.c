/* Makes system calls fail in a program, or runs another program before them, but not in those that it starts. It is put before the
   C library by LD_PRELOAD. FAIL_CALL names the kind of the calls: `read`, of standard input; `write`, to standard output;
   `piece`, a read of a pipe that is not standard input; `wait`, for a process; `pipe`, the making of one; `start`, of a process;
   `open`, `rename`, `link`, `unlink` (of a folder too), `mkdir`, `mode`, `look`, of a path; `path`, any of these seven; `store`, a write to a
   file, and `sync`, which brings one to the disk: these are counted as calls of a path are.
   Of these the one whose number, from 1, FAIL_AT gives fails with the error FAIL_ERRNO, or if that is 0 moves no byte, and
   so does each after it if FAIL_ON is given; if it is made, the file FAIL_MARK is created. Calls of a path are counted only when there is
   the file FAIL_FROM, if that is given; and if FAIL_RUN is, they do not fail: before they are made this program runs to its end, with the kind and the path
   as its words. With FAIL_EMPTY, before it is run, each file is emptied that was written and neither brought to the disk since nor given
   the name of another file, as after a power cut. Each read or write of the kind moves at most FAIL_BYTES bytes, if that is
   given. A wait that fails has waited, unless it was interrupted. */
#define _GNU_SOURCE
#include <dlfcn.h>
#include <errno.h>
#include <fcntl.h>
#include <spawn.h>
#include <stdarg.h>
#include <stdlib.h>
#include <string.h>
#include <sys/resource.h>
#include <sys/stat.h>
#include <sys/uio.h>
#include <sys/wait.h>
#include <unistd.h>

static const char *failing;
static long calls, at;
static size_t most = (size_t)-1;
static int error, goes_on;

__attribute__((constructor)) static void begin(void) {
    const char *number = getenv("FAIL_AT"), *bytes = getenv("FAIL_BYTES"), *why = getenv("FAIL_ERRNO");
    failing = getenv("FAIL_CALL");
    if (number) at = atol(number);
    if (bytes) most = (size_t)atol(bytes);
    if (why) error = atoi(why);
    goes_on = getenv("FAIL_ON") != NULL;
    unsetenv("LD_PRELOAD"); /* what is started is left alone */
}

static int is_kind(const char *kind) { return failing && strcmp(kind, failing) == 0; }

/* Counts a call, and returns whether it is the one. */
static int is_met(void) {
    if (++calls < at || (calls > at && !goes_on)) return 0;
    const char *file = getenv("FAIL_MARK");
    if (file) close(creat(file, 0600));
    return 1;
}

/* Counts a call of this kind, and returns whether it is the one that fails. */
static int fails(const char *kind) {
    if (!is_kind(kind) || !is_met()) return 0;
    errno = error;
    return 1;
}

/* Whether a call of a file fails. */
static int file_fails(const char *kind, int file) {
    struct stat about;
    const char *from = getenv("FAIL_FROM");
    return is_kind(kind) && (!from || access(from, F_OK) == 0) && fstat(file, &about) == 0 && S_ISREG(about.st_mode) && fails(kind);
}

static size_t room(const char *kind, size_t count) { return is_kind(kind) && most < count ? most : count; }

/* Files that were written, and what a power cut leaves of them. */
static int unsynced[4096];
static size_t count_unsynced;

static int is_of(int file, const struct stat *about) {
    struct stat own;
    return fstat(file, &own) == 0 && own.st_dev == about->st_dev && own.st_ino == about->st_ino;
}

static void forget_written(const struct stat *about) {
    for (size_t i = count_unsynced; i-- > 0;)
        if (is_of(unsynced[i], about)) {
            close(unsynced[i]);
            unsynced[i] = unsynced[--count_unsynced];
        }
}

static void note_written(int file) {
    struct stat about;
    if (!getenv("FAIL_EMPTY") || fstat(file, &about) != 0 || !S_ISREG(about.st_mode)) return;
    forget_written(&about);
    int copy = fcntl(file, F_DUPFD_CLOEXEC, 2048);
    if (copy >= 0 && count_unsynced < sizeof unsynced / sizeof *unsynced) unsynced[count_unsynced++] = copy;
}

static void empty_unsynced(void) {
    for (size_t i = 0; i < count_unsynced; i++)
        if (ftruncate(unsynced[i], 0) != 0) _exit(99);
}

#define SYNC(name)                                        \
    int name(int file) {                                  \
        static int (*next)(int);                          \
        if (!next) next = dlsym(RTLD_NEXT, #name);        \
        struct stat about;                                \
        if (file_fails("sync", file)) return -1;          \
        if (fstat(file, &about) == 0) forget_written(&about); \
        return next(file);                                \
    }

SYNC(fsync)
SYNC(fdatasync)

/* The kind of a read. */
static const char *read_kind(int file) {
    struct stat about;
    if (file == STDIN_FILENO) return "read";
    return fstat(file, &about) == 0 && S_ISFIFO(about.st_mode) ? "piece" : "";
}

ssize_t read(int file, void *to, size_t count) {
    static ssize_t (*next)(int, void *, size_t);
    if (!next) next = dlsym(RTLD_NEXT, "read");
    const char *kind = read_kind(file);
    if (fails(kind)) return error ? -1 : 0;
    return next(file, to, room(kind, count));
}

ssize_t readv(int file, const struct iovec *parts, int count) {
    static ssize_t (*next)(int, const struct iovec *, int);
    if (!next) next = dlsym(RTLD_NEXT, "readv");
    const char *kind = read_kind(file);
    if (is_kind(kind) && count > 0) return read(file, parts[0].iov_base, parts[0].iov_len);
    return next(file, parts, count);
}

ssize_t write(int file, const void *from, size_t count) {
    static ssize_t (*next)(int, const void *, size_t);
    if (!next) next = dlsym(RTLD_NEXT, "write");
    if (file_fails("store", file)) return -1;
    if (file != STDOUT_FILENO) return note_written(file), next(file, from, count);
    if (fails("write")) return error ? -1 : 0;
    return next(file, from, room("write", count));
}

ssize_t writev(int file, const struct iovec *parts, int count) {
    static ssize_t (*next)(int, const struct iovec *, int);
    if (!next) next = dlsym(RTLD_NEXT, "writev");
    if (file == STDOUT_FILENO && count > 0) return write(file, parts[0].iov_base, parts[0].iov_len);
    return note_written(file), next(file, parts, count);
}

/* A wait, or its result if it fails. */
#define WAIT(wait)                         \
    if (fails("wait")) {                   \
        if (error != EINTR) (void)(wait);  \
        errno = error;                     \
        return -1;                         \
    }                                      \
    return wait

pid_t wait4(pid_t child, int *status, int options, struct rusage *used) {
    static pid_t (*next)(pid_t, int *, int, struct rusage *);
    if (!next) next = dlsym(RTLD_NEXT, "wait4");
    WAIT(next(child, status, options, used));
}

pid_t waitpid(pid_t child, int *status, int options) {
    static pid_t (*next)(pid_t, int *, int);
    if (!next) next = dlsym(RTLD_NEXT, "waitpid");
    WAIT(next(child, status, options));
}

int waitid(idtype_t kind, id_t child, siginfo_t *about, int options) {
    static int (*next)(idtype_t, id_t, siginfo_t *, int);
    if (!next) next = dlsym(RTLD_NEXT, "waitid");
    WAIT(next(kind, child, about, options));
}

int pipe2(int ends[2], int flags) {
    static int (*next)(int *, int);
    if (!next) next = dlsym(RTLD_NEXT, "pipe2");
    return fails("pipe") ? -1 : next(ends, flags);
}

#define START(name)                                                                                             \
    int name(pid_t *child, const char *path, const posix_spawn_file_actions_t *actions,                         \
             const posix_spawnattr_t *attributes, char *const words[], char *const variables[]) {               \
        static int (*next)(pid_t *, const char *, const posix_spawn_file_actions_t *, const posix_spawnattr_t *, \
                           char *const[], char *const[]);                                                       \
        if (!next) next = dlsym(RTLD_NEXT, #name);                                                              \
        return fails("start") ? error : next(child, path, actions, attributes, words, variables);               \
    }

START(posix_spawn)
START(posix_spawnp)

/* Runs FAIL_RUN before a call, and waits for its end. */
static void run_before(const char *run, const char *kind, const char *path) {
    int (*next)(pid_t *, const char *, const posix_spawn_file_actions_t *, const posix_spawnattr_t *, char *const[], char *const[]) =
        dlsym(RTLD_NEXT, "posix_spawn");
    pid_t (*wait_for)(pid_t, int *, int) = dlsym(RTLD_NEXT, "waitpid"), child;
    char *words[] = {(char *)run, (char *)kind, (char *)path, NULL};
    if (next(&child, run, NULL, NULL, words, environ) == 0) wait_for(child, NULL, 0);
}

/* Counts a call of a path, runs the program that comes before it, and returns whether it fails instead. */
static int path_fails(const char *kind, const char *path) {
    const char *from = getenv("FAIL_FROM"), *run = getenv("FAIL_RUN");
    int before = errno;
    if (!is_kind("path") && !is_kind(kind)) return 0;
    if (from && access(from, F_OK) != 0) return errno = before, 0;
    if (!is_met()) return 0;
    if (run) return empty_unsynced(), run_before(run, kind, path), errno = before, 0;
    errno = error;
    return 1;
}

#define PATH(name, kind, path, parameters, words)          \
    int name parameters {                                  \
        static int(*next) parameters;                      \
        if (!next) next = dlsym(RTLD_NEXT, #name);         \
        return path_fails(kind, path) ? -1 : next words;   \
    }

/* The mode of an open, which is only given if it makes a file. */
#define MODE(flags, mode)                                                   \
    mode_t mode = 0;                                                        \
    if (flags & (O_CREAT | __O_TMPFILE)) {                                  \
        va_list rest;                                                       \
        va_start(rest, flags);                                              \
        mode = va_arg(rest, mode_t);                                        \
        va_end(rest);                                                       \
    }

#define OPEN(name)                                                          \
    int name(const char *path, int flags, ...) {                            \
        static int (*next)(const char *, int, mode_t);                      \
        if (!next) next = dlsym(RTLD_NEXT, #name);                          \
        MODE(flags, mode)                                                   \
        return path_fails("open", path) ? -1 : next(path, flags, mode);     \
    }

#define OPEN_AT(name)                                                             \
    int name(int folder, const char *path, int flags, ...) {                      \
        static int (*next)(int, const char *, int, mode_t);                       \
        if (!next) next = dlsym(RTLD_NEXT, #name);                                \
        MODE(flags, mode)                                                         \
        return path_fails("open", path) ? -1 : next(folder, path, flags, mode);   \
    }

OPEN(open)
OPEN(open64)
OPEN_AT(openat)
OPEN_AT(openat64)

/* What takes the name of another file is brought to the disk by the file systems. */
static void settle(int from, const char *old, int to, const char *new) {
    struct stat about, other;
    if (fstatat(to, new, &other, 0) == 0 && fstatat(from, old, &about, 0) == 0) forget_written(&about);
}

#define RENAME(name, from, to, parameters, words)          \
    int name parameters {                                  \
        static int(*next) parameters;                      \
        if (!next) next = dlsym(RTLD_NEXT, #name);         \
        if (path_fails("rename", old)) return -1;          \
        settle(from, old, to, new);                        \
        return next words;                                 \
    }

RENAME(rename, AT_FDCWD, AT_FDCWD, (const char *old, const char *new), (old, new))
RENAME(renameat, from, to, (int from, const char *old, int to, const char *new), (from, old, to, new))
RENAME(renameat2, from, to, (int from, const char *old, int to, const char *new, unsigned flags), (from, old, to, new, flags))
PATH(link, "link", old, (const char *old, const char *new), (old, new))
PATH(linkat, "link", old, (int from, const char *old, int to, const char *new, int flags), (from, old, to, new, flags))
PATH(unlink, "unlink", path, (const char *path), (path))
PATH(unlinkat, "unlink", path, (int folder, const char *path, int flags), (folder, path, flags))
PATH(rmdir, "unlink", path, (const char *path), (path))
PATH(mkdir, "mkdir", path, (const char *path, mode_t mode), (path, mode))
PATH(mkdirat, "mkdir", path, (int folder, const char *path, mode_t mode), (folder, path, mode))
PATH(chmod, "mode", path, (const char *path, mode_t mode), (path, mode))
PATH(statx, "look", path, (int folder, const char *path, int flags, unsigned fields, struct statx *about), (folder, path, flags, fields, about))

/* malloc and realloc that refuse one request, number REFUSE_AT, and calls for files that fail once, number FAIL_AT, as a
   broken disk does; numbers count from 1, and 0 is none. When the one comes, its name is written to the file that
   REFUSE_SEEN names. Built as a shared object and preloaded by tools/checks/memory.sh, growth.sh and disk.sh. */
#define _GNU_SOURCE
#include <dlfcn.h>
#include <errno.h>
#include <fcntl.h>
#include <stdarg.h>
#include <stddef.h>
#include <stdlib.h>
#include <string.h>
#include <sys/stat.h>
#include <sys/syscall.h>
#include <unistd.h>

/* The requests or calls of a kind: the variable with the number of the one that is refused, and how many came. */
struct kind {
    const char *variable;
    long wanted;
    long came;
};

static struct kind memory = {"REFUSE_AT", -1, 0};
static struct kind files = {"FAIL_AT", -1, 0};

static int is_refused(struct kind *kind, int error, const char *name) {
    if (kind->wanted < 0) {
        const char *number = getenv(kind->variable);
        kind->wanted = number ? atol(number) : 0;
    }
    if (kind->wanted == 0 || ++kind->came != kind->wanted) return 0;
    const char *seen = getenv("REFUSE_SEEN");
    if (seen) {
        int file = syscall(SYS_openat, AT_FDCWD, seen, O_CREAT | O_WRONLY, 0644);
        if (file >= 0) {
            syscall(SYS_write, file, name, strlen(name));
            syscall(SYS_close, file);
        }
    }
    errno = error;
    return 1;
}

/* A function with these parameters that hands them on, and where it is refused gives this answer. */
#define REFUSED(kind, error, answer, type, name, parameters, arguments) \
    type name parameters {                                              \
        static type(*next) parameters;                                  \
        if (!next) next = dlsym(RTLD_NEXT, #name);                      \
        if (is_refused(&kind, error, #name)) return answer;             \
        return next arguments;                                          \
    }
#define FAILS(type, name, parameters, arguments) REFUSED(files, EIO, -1, type, name, parameters, arguments)

REFUSED(memory, ENOMEM, NULL, void *, malloc, (size_t size), (size))
REFUSED(memory, ENOMEM, NULL, void *, realloc, (void *old, size_t size), (old, size))
REFUSED(files, EIO, NULL, char *, realpath, (const char *path, char *found), (path, found))
FAILS(ssize_t, read, (int file, void *bytes, size_t size), (file, bytes, size))
FAILS(ssize_t, write, (int file, const void *bytes, size_t size), (file, bytes, size))
FAILS(int, fsync, (int file), (file))
FAILS(int, fchmod, (int file, mode_t mode), (file, mode))
FAILS(int, flock, (int file, int operation), (file, operation))
FAILS(int, unlink, (const char *path), (path))
FAILS(int, rename, (const char *from, const char *to), (from, to))
FAILS(int, link, (const char *from, const char *to), (from, to))
FAILS(int, statx, (int at, const char *path, int flags, unsigned mask, struct statx *found), (at, path, flags, mask, found))

int open(const char *path, int flags, ...) {
    static int (*next)(const char *, int, ...);
    va_list rest;
    va_start(rest, flags);
    mode_t mode = flags & O_CREAT ? va_arg(rest, mode_t) : 0;
    va_end(rest);
    if (!next) next = dlsym(RTLD_NEXT, "open");
    return is_refused(&files, EIO, "open") ? -1 : next(path, flags, mode);
}

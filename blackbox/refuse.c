/* Fault injection: lets one call of the program that it is preloaded into fail. The kinds of calls are malloc and realloc, read,
   write to standard output, opening a file, getentropy, and starting a thread.
   REFUSE is the kind, REFUSE_NTH the number of the call, counted from 1; the file REFUSE_MARK is created when it fails. With
   REFUSE_LASTS every later call of the kind fails too.
   With REFUSE_BETWEEN only calls between two marks are counted and fail: a line that begins with '>', and the line '<', each
   written to standard output by one write. The first mark is appended to REFUSE_MARK with each call that fails after it. If
   REFUSE_BETWEEN is "once", no call fails after the second mark.
   With REFUSE_SHORT each read and write transfers at most one byte. */
#define _GNU_SOURCE
#include <dlfcn.h>
#include <errno.h>
#include <fcntl.h>
#include <pthread.h>
#include <stdarg.h>
#include <stdatomic.h>
#include <stdlib.h>
#include <string.h>
#include <sys/syscall.h>
#include <unistd.h>

extern void *__libc_malloc(size_t);
extern void *__libc_realloc(void *, size_t);

static atomic_long count;

/* Whether the program is between two marks, and whether marks with a failure between them are over. */
static atomic_int is_between, is_over;
/* Whether a call has failed. */
static atomic_int has_refused;
/* The last opening mark. */
static char first_mark[256];
static size_t first_mark_size;

static int refuses(const char *kind) {
    const char *wanted = getenv("REFUSE"), *nth = getenv("REFUSE_NTH"), *mark = getenv("REFUSE_MARK");
    if (!wanted || !nth || !mark || strcmp(wanted, kind) != 0)
        return 0;
    if (getenv("REFUSE_BETWEEN") && (!is_between || is_over))
        return 0;
    long now = ++count, first = atol(nth);
    if (now < first || (now > first && !getenv("REFUSE_LASTS")))
        return 0;
    has_refused = 1;
    int fd = syscall(SYS_openat, AT_FDCWD, mark, O_CREAT | O_WRONLY | O_APPEND, 0600);
    syscall(SYS_write, fd, first_mark, first_mark_size);
    syscall(SYS_close, fd);
    return 1;
}

/* Notices marks on standard output. */
static void notice(const char *text, size_t size) {
    const char *between = getenv("REFUSE_BETWEEN");
    if (!between || size == 0)
        return;
    if (text[0] == '>') {
        first_mark_size = size < sizeof first_mark ? size : sizeof first_mark;
        memcpy(first_mark, text, first_mark_size);
        is_between = 1;
    } else if (size == 2 && memcmp(text, "<\n", 2) == 0) {
        is_between = 0;
        is_over = has_refused && strcmp(between, "once") == 0;
    }
}

static size_t moved(size_t wanted) {
    return getenv("REFUSE_SHORT") && wanted > 1 ? 1 : wanted;
}

void *malloc(size_t size) {
    if (refuses("malloc")) {
        errno = ENOMEM;
        return NULL;
    }
    return __libc_malloc(size);
}

void *realloc(void *old, size_t size) {
    if (refuses("malloc")) {
        errno = ENOMEM;
        return NULL;
    }
    return __libc_realloc(old, size);
}

/* The files in which the system says how many processors there are: no input of the program, so they never fail. */
static int is_systems(const char *path) {
    return strncmp(path, "/sys/", 5) == 0 || strncmp(path, "/proc/", 6) == 0;
}

/* The descriptors of such files. */
enum { DESCRIPTORS = 1024 };
static atomic_char of_system[DESCRIPTORS];

static int open_unless_refused(int folder, const char *path, int flags, int mode) {
    if (!is_systems(path) && refuses("open")) {
        errno = EACCES;
        return -1;
    }
    int fd = syscall(SYS_openat, folder, path, flags, mode);
    if (fd >= 0 && fd < DESCRIPTORS)
        of_system[fd] = is_systems(path);
    return fd;
}

ssize_t read(int fd, void *buf, size_t size) {
    int counts = fd < 0 || fd >= DESCRIPTORS || !of_system[fd];
    if (counts && refuses("read")) {
        errno = EIO;
        return -1;
    }
    return syscall(SYS_read, fd, buf, moved(size));
}

ssize_t write(int fd, const void *buf, size_t size) {
    if (fd == STDOUT_FILENO && refuses("write")) {
        errno = ENOSPC;
        return -1;
    }
    if (fd == STDOUT_FILENO)
        notice(buf, size);
    return syscall(SYS_write, fd, buf, moved(size));
}

ssize_t __write(int fd, const void *buf, size_t size) {
    return write(fd, buf, size);
}

int open(const char *path, int flags, ...) {
    va_list rest;
    va_start(rest, flags);
    int mode = flags & O_CREAT ? va_arg(rest, int) : 0;
    va_end(rest);
    return open_unless_refused(AT_FDCWD, path, flags, mode);
}

int openat(int folder, const char *path, int flags, ...) {
    va_list rest;
    va_start(rest, flags);
    int mode = flags & O_CREAT ? va_arg(rest, int) : 0;
    va_end(rest);
    return open_unless_refused(folder, path, flags, mode);
}

int getentropy(void *buf, size_t size) {
    if (refuses("random")) {
        errno = ENOSYS;
        return -1;
    }
    return syscall(SYS_getrandom, buf, size, 0) == (long)size ? 0 : -1;
}

int pthread_create(pthread_t *thread, const pthread_attr_t *attributes, void *(*start)(void *), void *argument) {
    int (*create)(pthread_t *, const pthread_attr_t *, void *(*)(void *), void *) = dlsym(RTLD_NEXT, "pthread_create");
    if (refuses("thread"))
        return EAGAIN;
    return create(thread, attributes, start, argument);
}

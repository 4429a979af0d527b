/* Preloaded before the program, lets calls of the system fail. FAIL says which: "malloc 3" the third allocation (growing
   one counts too), "read 3", "write 3", "seek 3" or "open 3" the third call of that kind, from 1, for want of memory where
   FAIL_MEMORY is set, and by an interruption where FAIL_INTERRUPTED is; "thread 3" lets the third thread
   that is asked for fail, and all behind it; "short 0" lets each read and write move one byte. The file that FAIL_MARK names is made when a
   call was let fail. */
#define _GNU_SOURCE
#include <dlfcn.h>
#include <errno.h>
#include <fcntl.h>
#include <pthread.h>
#include <stdarg.h>
#include <stdlib.h>
#include <string.h>
#include <sys/syscall.h>
#include <unistd.h>

static const char *kind = "";
static long at, seen;

__attribute__((constructor)) static void choose(void) {
    const char *fail = getenv("FAIL");
    if (!fail)
        return;
    for (const char *const *name = (const char *const[]){"malloc", "read", "write", "open", "seek", "thread", "short", 0}; *name; name++)
        if (!strncmp(fail, *name, strlen(*name))) {
            kind = *name;
            at = atol(fail + strlen(*name));
        }
}

static int fails(const char *what) {
    if (strcmp(kind, what))
        return 0;
    long number = __atomic_add_fetch(&seen, 1, __ATOMIC_SEQ_CST);
    if (number != at && !(number > at && !strcmp(what, "thread")))
        return 0;
    const char *mark = getenv("FAIL_MARK");
    if (mark)
        syscall(SYS_close, syscall(SYS_open, mark, O_WRONLY | O_CREAT, 0600));
    return 1;
}

/* The failure of a call on a file. */
static int failed(int cause) {
    errno = getenv("FAIL_MEMORY") ? ENOMEM : getenv("FAIL_INTERRUPTED") ? EINTR : cause;
    return -1;
}

static size_t length(size_t size) { return size && !strcmp(kind, "short") ? 1 : size; }

static void *next(const char *name) { return dlsym(RTLD_NEXT, name); }

void *malloc(size_t size) {
    static void *(*real)(size_t);
    if (!real)
        real = next("malloc");
    return fails("malloc") ? (errno = ENOMEM, NULL) : real(size);
}

void *realloc(void *old, size_t size) {
    static void *(*real)(void *, size_t);
    if (!real)
        real = next("realloc");
    return fails("malloc") ? (errno = ENOMEM, NULL) : real(old, size);
}

ssize_t read(int file, void *to, size_t size) {
    return fails("read") ? failed(EIO) : syscall(SYS_read, file, to, length(size));
}

ssize_t write(int file, const void *from, size_t size) {
    return fails("write") ? failed(ENOSPC) : syscall(SYS_write, file, from, length(size));
}

int open(const char *name, int flags, ...) {
    va_list more;
    va_start(more, flags);
    int mode = va_arg(more, int);
    va_end(more);
    return fails("open") ? failed(EACCES) : (int)syscall(SYS_open, name, flags, mode);
}

off_t lseek(int file, off_t at, int from) {
    return fails("seek") ? failed(ESPIPE) : (off_t)syscall(SYS_lseek, file, at, from);
}

int pthread_create(pthread_t *thread, const pthread_attr_t *how, void *(*begin)(void *), void *with) {
    static int (*real)(pthread_t *, const pthread_attr_t *, void *(*)(void *), void *);
    if (!real)
        real = next("pthread_create");
    return fails("thread") ? EAGAIN : real(thread, how, begin, with);
}

/* Preloaded by tests/sweep: refuses one request of the program.

   REFUSE_MEMORY=N  the Nth request for memory is refused, counted from 1
   REFUSE_THREAD=N  the Nth thread does not start
   REFUSE_READ=N    the Nth read fails
   REFUSE_WRITE=N   the Nth write fails, except for those to standard error
   REFUSE_BY=HOW    how it fails: 'interrupted', or 'nothing', by which a write takes no byte; else with an error
   REFUSE_OPEN=N    the Nth file is not opened, for lack of memory
   REFUSE_LOOK=N    the Nth look at what the system knows of a file fails, for lack of memory
   REFUSE_SYNC=1    to sync a file fails
   REFUSE_SHORT=N   no read or write does more than N bytes
   REFUSE_TOLD=FILE this file is made when something was refused, or shortened */
#define _GNU_SOURCE
#include <errno.h>
#include <dlfcn.h>
#include <fcntl.h>
#include <pthread.h>
#include <stdarg.h>
#include <stdatomic.h>
#include <stddef.h>
#include <stdlib.h>
#include <string.h>
#include <sys/mman.h>
#include <sys/syscall.h>
#include <unistd.h>

extern void *__libc_malloc(size_t size);
extern void *__libc_calloc(size_t count, size_t size);
extern void *__libc_realloc(void *old, size_t size);
extern void *__libc_memalign(size_t align, size_t size);

/* Requests of one kind: the name that says which is refused, and how many came. */
struct kind {
    const char *name;
    atomic_long came;
};

static struct kind memory = {"REFUSE_MEMORY", 0};
static struct kind threads = {"REFUSE_THREAD", 0};
static struct kind reads = {"REFUSE_READ", 0};
static struct kind writes = {"REFUSE_WRITE", 0};
static struct kind opens = {"REFUSE_OPEN", 0};
static struct kind looks = {"REFUSE_LOOK", 0};

static long number(const char *name) {
    const char *text = getenv(name);
    return text ? atol(text) : 0;
}

/* Makes the file that says that something was refused. */
static void tell(void) {
    const char *told = getenv("REFUSE_TOLD");
    if (told)
        syscall(SYS_close, syscall(SYS_open, told, O_CREAT | O_WRONLY, 0600));
}

/* Whether this request is the one to refuse; it then fails by this error. */
static int is_refused(struct kind *kind, int error) {
    if (atomic_fetch_add(&kind->came, 1) + 1 != number(kind->name))
        return 0;
    tell();
    errno = error;
    return 1;
}

void *malloc(size_t size) {
    return is_refused(&memory, ENOMEM) ? NULL : __libc_malloc(size);
}

void *calloc(size_t count, size_t size) {
    return is_refused(&memory, ENOMEM) ? NULL : __libc_calloc(count, size);
}

void *realloc(void *old, size_t size) {
    return is_refused(&memory, ENOMEM) ? NULL : __libc_realloc(old, size);
}

void *aligned_alloc(size_t align, size_t size) {
    return is_refused(&memory, ENOMEM) ? NULL : __libc_memalign(align, size);
}

int posix_memalign(void **to, size_t align, size_t size) {
    void *got = is_refused(&memory, ENOMEM) ? NULL : __libc_memalign(align, size);
    if (!got)
        return ENOMEM;
    *to = got;
    return 0;
}

void *mmap(void *at, size_t size, int access, int flags, int file, off_t from) {
    if (is_refused(&memory, ENOMEM))
        return MAP_FAILED;
    return (void *)syscall(SYS_mmap, at, size, access, flags, file, from);
}

void *mmap64(void *at, size_t size, int access, int flags, int file, off64_t from) {
    return mmap(at, size, access, flags, file, from);
}

int pthread_create(pthread_t *thread, const pthread_attr_t *how, void *(*start)(void *), void *argument) {
    int (*create)(pthread_t *, const pthread_attr_t *, void *(*)(void *), void *) = dlsym(RTLD_NEXT, "pthread_create");
    return is_refused(&threads, EAGAIN) ? EAGAIN : create(thread, how, start, argument);
}

static size_t shortened(size_t count) {
    size_t most = (size_t)number("REFUSE_SHORT");
    if (!most || count <= most)
        return count;
    tell();
    return most;
}

/* Whether a read or a write fails in this way. */
static int fails_by(const char *how) {
    const char *by = getenv("REFUSE_BY");
    return by && !strcmp(by, how);
}

/* The error by which it fails. */
static int failure(void) {
    return fails_by("interrupted") ? EINTR : EIO;
}

ssize_t read(int file, void *to, size_t count) {
    return is_refused(&reads, failure()) ? -1 : syscall(SYS_read, file, to, shortened(count));
}

ssize_t write(int file, const void *from, size_t count) {
    if (file != STDERR_FILENO && is_refused(&writes, failure()))
        return fails_by("nothing") ? 0 : -1;
    return syscall(SYS_write, file, from, shortened(count));
}

ssize_t __write(int file, const void *from, size_t count) {
    return write(file, from, count);
}

int open(const char *path, int flags, ...) {
    va_list rest;
    va_start(rest, flags);
    mode_t mode = flags & O_CREAT ? va_arg(rest, mode_t) : 0;
    va_end(rest);
    return is_refused(&opens, ENOMEM) ? -1 : (int)syscall(SYS_open, path, flags, mode);
}

int open64(const char *path, int flags, ...) __attribute__((alias("open")));

struct statx;

int statx(int folder, const char *path, int flags, unsigned mask, struct statx *found) {
    return is_refused(&looks, ENOMEM) ? -1 : (int)syscall(SYS_statx, folder, path, flags, mask, found);
}

int fdatasync(int file) {
    if (number("REFUSE_SYNC")) {
        tell();
        errno = EIO;
        return -1;
    }
    return (int)syscall(SYS_fdatasync, file);
}

/* Refuses a program what it asks the C library for, by LD_PRELOAD. In the environment:

   REFUSE_ALLOC=N    the Nth malloc, calloc, realloc, aligned_alloc or posix_memalign, from 1
   REFUSE_THREAD=N   the Nth pthread_create
   REFUSE_OPEN=N     the Nth open, REFUSE_READ=N the Nth read, REFUSE_WRITE=N the Nth write
   REFUSE_ALL=1      and each one after it
   SHORT_IO=1        each read and write moves one byte at most
   REFUSED_FD=F      a byte goes to this file descriptor at each refusal, the letter of what was refused,
                     or M where it is to open or read a file that describes the machine (/proc, /sys)

   It counts from the start of main in all threads of the process. What the C library takes from
   the system by itself (stacks by mmap, the loader's own memory) is not seen. */
#define _GNU_SOURCE
#include <dlfcn.h>
#include <errno.h>
#include <fcntl.h>
#include <pthread.h>
#include <stdarg.h>
#include <stdatomic.h>
#include <stdlib.h>
#include <string.h>
#include <sys/syscall.h>
#include <sys/uio.h>
#include <unistd.h>

extern void *__libc_malloc(size_t);
extern void *__libc_calloc(size_t, size_t);
extern void *__libc_realloc(void *, size_t);
extern void *__libc_memalign(size_t, size_t);

struct counter {
    const char *name;
    long first;
    atomic_long count;
};

static struct counter allocs = {"REFUSE_ALLOC"}, threads = {"REFUSE_THREAD"};
static struct counter opens = {"REFUSE_OPEN"}, reads = {"REFUSE_READ"}, writes = {"REFUSE_WRITE"};
static int refuses_all, is_short, refused_fd = -1, is_ready;
/* Whether a file that is open describes the machine. */
static atomic_char is_machine[1024];

static long number(const char *name) {
    const char *text = getenv(name);
    return text ? strtol(text, NULL, 10) : 0;
}

__attribute__((constructor)) static void begin(void) {
    struct counter *counters[] = {&allocs, &threads, &opens, &reads, &writes};
    for (int i = 0; i < 5; i++) counters[i]->first = number(counters[i]->name);
    refuses_all = number("REFUSE_ALL") != 0;
    is_short = number("SHORT_IO") != 0;
    refused_fd = getenv("REFUSED_FD") ? (int)number("REFUSED_FD") : -1;
    is_ready = 1;
}

/* Whether this call is to be refused, which is then told by a letter. */
static int is_refused_as(struct counter *it, const char *letter) {
    if (!is_ready || it->first == 0) return 0;
    long now = atomic_fetch_add(&it->count, 1) + 1;
    if (now < it->first || (now > it->first && !refuses_all)) return 0;
    if (refused_fd >= 0) syscall(SYS_write, refused_fd, letter, 1);
    return 1;
}

static int is_refused(struct counter *it) { return is_refused_as(it, it->name + 7); }

static int lacks_memory(void) {
    if (!is_refused(&allocs)) return 0;
    errno = ENOMEM;
    return 1;
}

void *malloc(size_t size) { return lacks_memory() ? NULL : __libc_malloc(size); }

void *calloc(size_t count, size_t size) { return lacks_memory() ? NULL : __libc_calloc(count, size); }

void *realloc(void *old, size_t size) { return lacks_memory() ? NULL : __libc_realloc(old, size); }

void *aligned_alloc(size_t align, size_t size) { return lacks_memory() ? NULL : __libc_memalign(align, size); }

int posix_memalign(void **to, size_t align, size_t size) {
    if (is_refused(&allocs)) return ENOMEM;
    *to = __libc_memalign(align, size);
    return *to ? 0 : ENOMEM;
}

int pthread_create(pthread_t *to, const pthread_attr_t *attr, void *(*body)(void *), void *with) {
    static int (*real)(pthread_t *, const pthread_attr_t *, void *(*)(void *), void *);
    if (is_refused(&threads)) return EAGAIN;
    if (!real) real = dlsym(RTLD_NEXT, "pthread_create");
    return real(to, attr, body, with);
}

static int fails(struct counter *it, int of_machine) {
    if (!is_refused_as(it, of_machine ? "M" : it->name + 7)) return 0;
    errno = EIO;
    return 1;
}

static int has_known(int fd) { return fd >= 0 && fd < (int)(sizeof is_machine / sizeof is_machine[0]); }

static int opened(int folder, const char *path, int flags, mode_t mode) {
    int of_machine = !strncmp(path, "/proc/", 6) || !strncmp(path, "/sys/", 5);
    if (fails(&opens, of_machine)) return -1;
    int fd = (int)syscall(SYS_openat, folder, path, flags, mode);
    if (has_known(fd)) atomic_store(&is_machine[fd], of_machine);
    return fd;
}

#define OPEN(name)                                        \
    int name(const char *path, int flags, ...) {          \
        va_list rest;                                     \
        va_start(rest, flags);                            \
        mode_t mode = va_arg(rest, mode_t);               \
        va_end(rest);                                     \
        return opened(AT_FDCWD, path, flags, mode);       \
    }
OPEN(open)
OPEN(open64)

#define OPENAT(name)                                           \
    int name(int folder, const char *path, int flags, ...) {   \
        va_list rest;                                          \
        va_start(rest, flags);                                 \
        mode_t mode = va_arg(rest, mode_t);                    \
        va_end(rest);                                          \
        return opened(folder, path, flags, mode);              \
    }
OPENAT(openat)
OPENAT(openat64)

ssize_t read(int fd, void *to, size_t count) {
    if (fails(&reads, has_known(fd) && atomic_load(&is_machine[fd]))) return -1;
    return syscall(SYS_read, fd, to, is_short && count > 1 ? 1 : count);
}

ssize_t write(int fd, const void *from, size_t count) {
    if (fails(&writes, 0)) return -1;
    return syscall(SYS_write, fd, from, is_short && count > 1 ? 1 : count);
}

ssize_t writev(int fd, const struct iovec *parts, int count) {
    if (fails(&writes, 0)) return -1;
    for (int i = 0; i < count && is_short; i++)
        if (parts[i].iov_len) return syscall(SYS_write, fd, parts[i].iov_base, 1);
    return syscall(SYS_writev, fd, parts, count);
}

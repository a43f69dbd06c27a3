/* What tests/faults loads into the program before the C library: one call of a kind fails, the
 * one that FAULT_AT numbers, from 1, and with FAULT_ON each one behind it too. FAULT_KIND is
 * alloc, thread, read or write; reads are those of standard input and writes those of standard
 * output. A thread that fails is not started. A read or a write fails with the error
 * FAULT_ERROR, a number; where that is 0 it moves FAULT_BYTES in place of failing, or fewer.
 * With FAULT_PIECE each read and write moves at the most so many bytes. The file FAULT_MARK is
 * made when the call fails, so that it is known whether it came. */
#define _GNU_SOURCE
#include <dlfcn.h>
#include <errno.h>
#include <fcntl.h>
#include <pthread.h>
#include <stdlib.h>
#include <string.h>
#include <sys/syscall.h>
#include <sys/uio.h>
#include <unistd.h>

/* The C library's own, by the names that it keeps for whoever puts others before them. */
void *__libc_malloc(size_t size);
void *__libc_calloc(size_t count, size_t size);
void *__libc_realloc(void *block, size_t size);
void *__libc_memalign(size_t alignment, size_t size);

/* Whether this call of the kind is the one that fails. Takes no memory. */
static int fails(const char *kind) {
    static unsigned long calls;
    const char *wanted = getenv("FAULT_KIND"), *at = getenv("FAULT_AT"), *mark = getenv("FAULT_MARK");
    if (wanted == NULL || at == NULL || strcmp(wanted, kind) != 0) return 0;
    unsigned long call = __atomic_add_fetch(&calls, 1, __ATOMIC_SEQ_CST), first = strtoul(at, NULL, 10);
    if (call != first) return call > first && getenv("FAULT_ON") != NULL;
    if (mark != NULL) syscall(SYS_close, syscall(SYS_openat, AT_FDCWD, mark, O_CREAT | O_WRONLY | O_CLOEXEC, 0600));
    return 1;
}

static int no_memory(void) {
    if (!fails("alloc")) return 0;
    errno = ENOMEM;
    return 1;
}

/* What a setting says, a number that is not negative; 0 where it is not there. */
static size_t setting(const char *name) {
    const char *text = getenv(name);
    return text == NULL ? 0 : strtoul(text, NULL, 10);
}

/* How many bytes of so many a call of the kind may move. Where it fails, none, and there is an error. */
static size_t moved(const char *kind, size_t size) {
    size_t most = setting("FAULT_PIECE");
    errno = 0;
    if (fails(kind)) {
        errno = setting("FAULT_ERROR");
        most = setting("FAULT_BYTES");
        return most < size ? most : size;
    }
    return most != 0 && most < size ? most : size;
}

void *malloc(size_t size) { return no_memory() ? NULL : __libc_malloc(size); }

void *calloc(size_t count, size_t size) { return no_memory() ? NULL : __libc_calloc(count, size); }

void *realloc(void *block, size_t size) { return no_memory() ? NULL : __libc_realloc(block, size); }

void *memalign(size_t alignment, size_t size) { return no_memory() ? NULL : __libc_memalign(alignment, size); }

void *aligned_alloc(size_t alignment, size_t size) { return memalign(alignment, size); }

int posix_memalign(void **block, size_t alignment, size_t size) {
    void *made = memalign(alignment, size);
    if (made == NULL) return ENOMEM;
    *block = made;
    return 0;
}

int pthread_create(pthread_t *thread, const pthread_attr_t *how, void *(*body)(void *), void *given) {
    int (*start)(pthread_t *, const pthread_attr_t *, void *(*)(void *), void *);
    if (fails("thread")) return EAGAIN;
    *(void **)&start = dlsym(RTLD_NEXT, "pthread_create");
    return start(thread, how, body, given);
}

ssize_t read(int file, void *bytes, size_t size) {
    if (file != STDIN_FILENO) return syscall(SYS_read, file, bytes, size);
    size = moved("read", size);
    return errno != 0 ? -1 : syscall(SYS_read, file, bytes, size);
}

ssize_t readv(int file, const struct iovec *parts, int count) {
    if (file == STDIN_FILENO && count > 0) return read(file, parts->iov_base, parts->iov_len);
    return syscall(SYS_readv, file, parts, count);
}

ssize_t write(int file, const void *bytes, size_t size) {
    if (file != STDOUT_FILENO) return syscall(SYS_write, file, bytes, size);
    size = moved("write", size);
    return errno != 0 ? -1 : syscall(SYS_write, file, bytes, size);
}

ssize_t __write(int file, const void *bytes, size_t size) { return write(file, bytes, size); }

ssize_t writev(int file, const struct iovec *parts, int count) {
    if (file == STDOUT_FILENO && count > 0) return write(file, parts->iov_base, parts->iov_len);
    return syscall(SYS_writev, file, parts, count);
}

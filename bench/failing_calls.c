// Loaded before the program by failing_calls: counts the calls on the file that JOURNAL names, makes the one of the number
// FAILING fail, and writes each down in the file that CALLS names, with the bytes that it wrote. Writes to standard output
// are written down too, and not counted. Of the requests for memory it refuses the one of the number REFUSED.
#define _GNU_SOURCE
#include <dlfcn.h>
#include <errno.h>
#include <fcntl.h>
#include <pthread.h>
#include <stdarg.h>
#include <stdio.h>
#include <stdlib.h>
#include <string.h>
#include <sys/stat.h>
#include <sys/syscall.h>
#include <unistd.h>

static pthread_mutex_t turn = PTHREAD_MUTEX_INITIALIZER;
static int journal = -1;
static int calls = -1;
static long made = 0;
static long asked = 0;

// The requests of the C library, under names that nothing else has.
void *__libc_malloc(size_t size);
void *__libc_realloc(void *from, size_t size);

static void tell(const char *name, const void *bytes, size_t count) {
    char head[64];
    static const char digits[] = "0123456789abcdef";
    if (calls < 0)
        calls = (int)syscall(SYS_openat, AT_FDCWD, getenv("CALLS"), O_WRONLY | O_CREAT | O_APPEND, 0600);
    int length = snprintf(head, sizeof head, "%s ", name);
    char *line = __libc_malloc(length + 2 * count + 1);
    memcpy(line, head, length);
    for (size_t at = 0; at < count; at++) {
        line[length + 2 * at] = digits[((const unsigned char *)bytes)[at] >> 4];
        line[length + 2 * at + 1] = digits[((const unsigned char *)bytes)[at] & 15];
    }
    line[length + 2 * count] = '\n';
    syscall(SYS_write, calls, line, length + 2 * count + 1);
    free(line);
}

// Whether the next call on the journal fails; it is written down either way.
static int fails(const char *name, const void *bytes, size_t count) {
    const char *failing = getenv("FAILING");
    pthread_mutex_lock(&turn);
    int failed = failing != NULL && made == atol(failing);
    made++;
    char told[32];
    snprintf(told, sizeof told, "%s%s", failed ? "failed-" : "", name);
    tell(told, bytes, count);
    pthread_mutex_unlock(&turn);
    if (failed)
        errno = EIO;
    return failed;
}

#define REAL(name) ((__typeof__(&name))dlsym(RTLD_NEXT, #name))

int open(const char *path, int flags, ...) {
    va_list more;
    va_start(more, flags);
    int mode = flags & O_CREAT ? va_arg(more, int) : 0;
    va_end(more);
    const char *name = getenv("JOURNAL");
    if (name == NULL || strcmp(path, name) != 0)
        return REAL(open)(path, flags, mode);
    return fails("open", NULL, 0) ? -1 : (journal = REAL(open)(path, flags, mode));
}

static int fails_on(int fd, const char *name) { return fd >= 0 && fd == journal && fails(name, NULL, 0); }

ssize_t read(int fd, void *to, size_t most) { return fails_on(fd, "read") ? -1 : REAL(read)(fd, to, most); }
int fsync(int fd) { return fails_on(fd, "sync") ? -1 : REAL(fsync)(fd); }
int ftruncate(int fd, off_t length) { return fails_on(fd, "cut") ? -1 : REAL(ftruncate)(fd, length); }
off_t lseek(int fd, off_t by, int from) { return fails_on(fd, "seek") ? -1 : REAL(lseek)(fd, by, from); }
int statx(int fd, const char *path, int flags, unsigned mask, struct statx *to) {
    return fails_on(fd, "length") ? -1 : REAL(statx)(fd, path, flags, mask, to);
}

ssize_t write(int fd, const void *from, size_t count) {
    if (fd >= 0 && fd == journal && fails("write", from, count))
        return -1;
    ssize_t written = REAL(write)(fd, from, count);
    if (fd == STDOUT_FILENO && written > 0) {
        pthread_mutex_lock(&turn);
        tell("print", from, written);
        pthread_mutex_unlock(&turn);
    }
    return written;
}

// Whether the next request for memory is refused.
static int refuses(void) {
    const char *refused = getenv("REFUSED");
    if (refused == NULL || __atomic_fetch_add(&asked, 1, __ATOMIC_SEQ_CST) != atol(refused))
        return 0;
    pthread_mutex_lock(&turn);
    tell("refused", NULL, 0);
    pthread_mutex_unlock(&turn);
    errno = ENOMEM;
    return 1;
}

void *malloc(size_t size) { return refuses() ? NULL : __libc_malloc(size); }
void *realloc(void *from, size_t size) { return refuses() ? NULL : __libc_realloc(from, size); }

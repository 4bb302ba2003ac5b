/* Refuses one growth of memory, fails one read or write, or cuts one short: of the calls of malloc, calloc and realloc
   since the program began, the one whose number stands in REFUSE gets nothing; of its reads and writes, the one in FAIL
   fails, and the one in SHORTEN moves one byte at most. What was done is told on file descriptor 9, a letter for a growth,
   the number of its file for a read or a write. */
#define _GNU_SOURCE
#include <errno.h>
#include <stdlib.h>
#include <sys/syscall.h>
#include <unistd.h>

extern void *__libc_malloc(size_t size);
extern void *__libc_calloc(size_t count, size_t size);
extern void *__libc_realloc(void *block, size_t size);

static long refused = -1, failed = -1, shortened = -1;
static long growths = 0, moves = 0;

static long number_in(const char *name) {
    const char *number = getenv(name);
    return number ? atol(number) : 0;
}

static __attribute__((constructor)) void begin(void) {
    failed = number_in("FAIL");
    shortened = number_in("SHORTEN");
    refused = number_in("REFUSE");
    growths = 0;
    moves = 0;
}

static void tell(char what) {
    char line[2] = {what, '\n'};
    if (syscall(SYS_write, 9, line, sizeof line) < 0)
        _exit(99);
}

static int is_refused(void) {
    if (refused < 0 || ++growths != refused)
        return 0;
    tell('m');
    return 1;
}

void *malloc(size_t size) {
    return is_refused() ? NULL : __libc_malloc(size);
}

void *calloc(size_t count, size_t size) {
    return is_refused() ? NULL : __libc_calloc(count, size);
}

void *realloc(void *block, size_t size) {
    return is_refused() ? NULL : __libc_realloc(block, size);
}

/* How many bytes of so many a read or a write may move, or -1 where it fails. */
static ssize_t allowed(int file, size_t count) {
    ++moves;
    if (moves == failed) {
        tell('0' + file);
        return -1;
    }
    if (moves == shortened) {
        tell('0' + file);
        return count > 1 ? 1 : (ssize_t)count;
    }
    return (ssize_t)count;
}

ssize_t read(int file, void *bytes, size_t count) {
    ssize_t most = allowed(file, count);
    if (most < 0) {
        errno = EIO;
        return -1;
    }
    return syscall(SYS_read, file, bytes, (size_t)most);
}

ssize_t write(int file, const void *bytes, size_t count) {
    ssize_t most = allowed(file, count);
    if (most < 0) {
        errno = EIO;
        return -1;
    }
    return syscall(SYS_write, file, bytes, (size_t)most);
}

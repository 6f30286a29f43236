/* Stands before a program (LD_PRELOAD) and lets calls of the system fail. KIND is open, read, write, close or lseek, NUMBER counts the calls of
   that kind from 1 on, and WITH is the number of the error, or 0 where the call is to answer 0, as a read does at the end of a file that shrank
   meanwhile. PIECE is the most bytes that a read or a write moves. Where COUNT names a file, the calls of each kind are counted there: five numbers
   of eight bytes, the lowest byte first, which stay however the program ends. */
#define _GNU_SOURCE
#include <dlfcn.h>
#include <errno.h>
#include <fcntl.h>
#include <stdarg.h>
#include <stdlib.h>
#include <string.h>
#include <sys/mman.h>
#include <unistd.h>

enum { OPEN, READ, WRITE, CLOSE, LSEEK, KINDS };
static const char *const names[] = {"open", "read", "write", "close", "lseek"};
static long own[KINDS], *seen = own, failing, number;
static int kind = -1, with, counts;
static size_t piece;

static void *next(const char *name) { return dlsym(RTLD_NEXT, name); }

/* Whether this call of a kind is the one that fails. */
static int fails(int which) {
    if (!counts)
        return 0;
    number = __atomic_add_fetch(&seen[which], 1, __ATOMIC_SEQ_CST);
    if (which != kind || number != failing)
        return 0;
    errno = with;
    return 1;
}

static size_t at_most(size_t size) { return piece && size > piece ? piece : size; }

int open(const char *path, int flags, ...) {
    va_list more;
    va_start(more, flags);
    int mode = va_arg(more, int);
    va_end(more);
    return fails(OPEN) ? -1 : ((int (*)(const char *, int, ...))next("open"))(path, flags, mode);
}

ssize_t read(int file, void *bytes, size_t size) {
    if (fails(READ))
        return with ? -1 : 0;
    return ((ssize_t(*)(int, void *, size_t))next("read"))(file, bytes, at_most(size));
}

ssize_t write(int file, const void *bytes, size_t size) {
    if (fails(WRITE))
        return with ? -1 : 0;
    return ((ssize_t(*)(int, const void *, size_t))next("write"))(file, bytes, at_most(size));
}

int close(int file) {
    int is_closed = ((int (*)(int))next("close"))(file);
    return fails(CLOSE) ? -1 : is_closed;
}

off_t lseek(int file, off_t by, int from) { return fails(LSEEK) ? -1 : ((off_t(*)(int, off_t, int))next("lseek"))(file, by, from); }

static long number_in(const char *name) {
    const char *text = getenv(name);
    return text ? strtol(text, NULL, 10) : 0;
}

__attribute__((constructor)) static void begin(void) {
    for (int at = 0; at < KINDS; at++)
        if (getenv("KIND") && !strcmp(getenv("KIND"), names[at]))
            kind = at;
    failing = number_in("NUMBER");
    with = (int)number_in("WITH");
    piece = (size_t)number_in("PIECE");
    if (getenv("COUNT")) {
        int file = open(getenv("COUNT"), O_RDWR | O_CREAT | O_TRUNC, 0600);
        if (file >= 0 && !ftruncate(file, sizeof own))
            seen = mmap(NULL, sizeof own, PROT_READ | PROT_WRITE, MAP_SHARED, file, 0);
        close(file);
    }
    counts = 1;
}

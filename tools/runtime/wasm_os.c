/* What the program asks of the machine, as a WebAssembly module: the host has its words, its files and its streams. It hands in a number for each, and a
 * negative one for what isn't there, the system's number of the error. tools/runtime/program.mjs and page/program.js are hosts. */
#include <stdbool.h>
#include <stddef.h>
#include <stdint.h>

#define HOST(name) __attribute__((import_module("host"), import_name(#name)))

/* The length of a word, of which as much as fits is put into the room; -1 where there is none of this number. */
HOST(word) extern int64_t host_word(int64_t number, uint8_t *room, int64_t size);
/* The number of a file that is opened for reading; how many bytes of it were read, 0 at its end; and how many were written. */
HOST(open) extern int64_t host_open(const char *path, int64_t length);
HOST(read) extern int64_t host_read(int64_t file, uint8_t *room, int64_t size);
HOST(write) extern int64_t host_write(int64_t file, const uint8_t *bytes, int64_t size);
HOST(close) extern int64_t host_close(int64_t file);

enum { ILLEGAL_SEEK = 29 };

typedef struct tried {
    bool ok;
    void *place;
} tried;

extern tried rattle_alloc(size_t size, size_t alignment);
extern void rattle_dealloc(void *old);

static int error;

static int64_t answer(int64_t found) {
    if (found >= 0)
        return found;
    error = (int)-found;
    return -1;
}

int rattle_errno(void) {
    return error;
}

void rattle_set_errno(int value) {
    error = value;
}

/* As os.c has it: -2 where the word is longer than the room. */
ptrdiff_t rattle_arg(size_t number, uint8_t *room, size_t size) {
    int64_t length = host_word((int64_t)number, room, (int64_t)size);
    return length > (int64_t)size ? -2 : (ptrdiff_t)length;
}

void *malloc(size_t size) {
    tried it = rattle_alloc(size, 16);
    return it.ok ? it.place : NULL;
}

void free(void *old) {
    if (old)
        rattle_dealloc(old);
}

int open(const char *path, int flags, ...) {
    int64_t length = 0;
    (void)flags;
    while (path[length])
        length++;
    return (int)answer(host_open(path, length));
}

ptrdiff_t read(int file, void *room, size_t size) {
    return (ptrdiff_t)answer(host_read(file, room, (int64_t)size));
}

ptrdiff_t write(int file, const void *bytes, size_t size) {
    return (ptrdiff_t)answer(host_write(file, bytes, (int64_t)size));
}

int close(int file) {
    return (int)answer(host_close(file));
}

/* No stream can be wound back, as a pipe can't. */
int64_t lseek(int file, int64_t offset, int whence) {
    (void)file, (void)offset, (void)whence;
    return answer(-ILLEGAL_SEEK);
}

/* There are no signals. */
int64_t __sysv_signal(int number, int64_t handler) {
    (void)number, (void)handler;
    return 0;
}

/* There is one thread. tools/wasm has pthread_create refuse, so the toolchain's code does the work where it stands, as it does wherever a system has no
 * thread left; and so nobody waits for one, leaves one, or hands over to one. */
int pthread_attr_init(void *attributes) {
    (void)attributes;
    return 0;
}

int pthread_attr_setguardsize(void *attributes, size_t size) {
    (void)attributes, (void)size;
    return 0;
}

int pthread_attr_setstacksize(void *attributes, size_t size) {
    (void)attributes, (void)size;
    return 0;
}

int pthread_attr_destroy(void *attributes) {
    (void)attributes;
    return 0;
}

uint64_t pthread_self(void) {
    return 0;
}

int pthread_join(uint64_t thread, void *result) {
    (void)thread, (void)result;
    __builtin_trap();
}

int pthread_detach(uint64_t thread) {
    (void)thread;
    __builtin_trap();
}

int sched_yield(void) {
    return 0;
}

void abort(void) {
    __builtin_trap();
}

/* Stands before a program (LD_PRELOAD) and delays its threads at random: each thread waits before it begins, and whoever starts or joins one waits
   after that. SEED draws the waits, MOST is the longest in microseconds. Where COUNT names a file, the threads that are started are counted there:
   eight bytes, the lowest first. */
#define _GNU_SOURCE
#include <dlfcn.h>
#include <fcntl.h>
#include <pthread.h>
#include <stdlib.h>
#include <sys/mman.h>
#include <time.h>
#include <unistd.h>

struct start {
    void *(*run)(void *);
    void *with;
};

static unsigned long state;
static long most, own, *started = &own;

static unsigned long drawn(void) {
    unsigned long now = __atomic_add_fetch(&state, 0x9e3779b97f4a7c15ul, __ATOMIC_SEQ_CST);
    now = (now ^ now >> 30) * 0xbf58476d1ce4e5b9ul;
    return (now ^ now >> 27) * 0x94d049bb133111ebul >> 16;
}

/* Half of the waits are none, so that either side may be first. */
static void wait_some(void) {
    unsigned long number = drawn();
    struct timespec time = {0, (long)(number / 2 % (unsigned long)most) * 1000};
    if (number % 2)
        nanosleep(&time, NULL);
}

static void *begun(void *given) {
    struct start start = *(struct start *)given;
    free(given);
    wait_some();
    void *result = start.run(start.with);
    wait_some();
    return result;
}

int pthread_create(pthread_t *thread, const pthread_attr_t *attributes, void *(*run)(void *), void *with) {
    int (*next)(pthread_t *, const pthread_attr_t *, void *(*)(void *), void *) = dlsym(RTLD_NEXT, "pthread_create");
    struct start *start = malloc(sizeof *start);
    if (!start)
        return 11;
    *start = (struct start){run, with};
    __atomic_add_fetch(started, 1, __ATOMIC_SEQ_CST);
    int status = next(thread, attributes, begun, start);
    if (status)
        free(start);
    wait_some();
    return status;
}

int pthread_join(pthread_t thread, void **result) {
    int (*next)(pthread_t, void **) = dlsym(RTLD_NEXT, "pthread_join");
    wait_some();
    return next(thread, result);
}

__attribute__((constructor)) static void begin(void) {
    state = getenv("SEED") ? strtoul(getenv("SEED"), NULL, 10) : 1;
    most = getenv("MOST") ? strtol(getenv("MOST"), NULL, 10) : 500;
    int file = getenv("COUNT") ? open(getenv("COUNT"), O_RDWR | O_CREAT | O_TRUNC, 0600) : -1;
    if (file >= 0 && !ftruncate(file, sizeof own))
        started = mmap(NULL, sizeof own, PROT_READ | PROT_WRITE, MAP_SHARED, file, 0);
}

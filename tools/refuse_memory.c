/* Stands before a program (LD_PRELOAD) and refuses memory: the Nth request alone (REFUSE=N), or all requests from the Nth on
   (REFUSE_FROM=N). Requests are counted from the start of main on. Where COUNT names a file, they are counted there: eight
   bytes, the lowest first, which stay however the program ends. */
typedef unsigned long size_t;

extern void *dlsym(void *handle, const char *name);
extern char *getenv(const char *name);
extern int *__errno_location(void);
extern int open(const char *path, int flags, ...);
extern int ftruncate(int file, long length);
extern void *mmap(void *address, size_t length, int protection, int flags, int file, long offset);
extern int close(int file);

enum { NEXT = -1, OUT_OF_MEMORY = 12, NEW_FILE = 02 | 0100 | 01000, READ_AND_WRITE = 3, SHARED = 1 };

static void *(*next_malloc)(size_t);
static void *(*next_realloc)(void *, size_t);
static void *(*next_calloc)(size_t, size_t);
static long own, alone, from;
static long *seen = &own;
static int counts;

/* What the loader asks for before the next calloc is known. */
static char early[4096];
static size_t taken;

static long number_in(const char *text) {
    long number = 0;
    while (text && *text >= '0' && *text <= '9') number = 10 * number + (*text++ - '0');
    return number;
}

static int is_refused(void) {
    if (!counts) return 0;
    long number = __atomic_add_fetch(seen, 1, __ATOMIC_SEQ_CST);
    if (!(alone && number == alone) && !(from && number >= from)) return 0;
    *__errno_location() = OUT_OF_MEMORY;
    return 1;
}

static void find_next(void) {
    if (next_malloc) return;
    next_malloc = dlsym((void *)(long)NEXT, "malloc");
    next_realloc = dlsym((void *)(long)NEXT, "realloc");
    next_calloc = dlsym((void *)(long)NEXT, "calloc");
}

void *malloc(size_t size) {
    find_next();
    return is_refused() ? 0 : next_malloc(size);
}

void *realloc(void *block, size_t size) {
    find_next();
    return is_refused() ? 0 : next_realloc(block, size);
}

void *calloc(size_t count, size_t size) {
    if (!next_calloc) {
        void *block = early + taken;
        taken += (count * size + 15) & ~15ul;
        return taken <= sizeof early ? block : 0;
    }
    return is_refused() ? 0 : next_calloc(count, size);
}

static void count_in(const char *path) {
    int file = open(path, NEW_FILE, 0600);
    if (file < 0 || ftruncate(file, sizeof own)) return;
    void *shared = mmap(0, sizeof own, READ_AND_WRITE, SHARED, file, 0);
    if (shared != (void *)-1L) seen = shared;
    close(file);
}

__attribute__((constructor)) static void begin(void) {
    find_next();
    alone = number_in(getenv("REFUSE"));
    from = number_in(getenv("REFUSE_FROM"));
    if (getenv("COUNT")) count_in(getenv("COUNT"));
    counts = 1;
}

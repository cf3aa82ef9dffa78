// Refuses allocations: a library that tools/refuse preloads into a program (LD_PRELOAD).
//
// Allocations are counted from a mark on. The mark is an allocation of BEGIN bytes. Those up to an allocation of END bytes belong
// to one call; the programs' `mark` makes these two. If REFUSE_MARK is `read`, the mark is the first read of standard input
// instead, and all allocations up to the end of the program are counted.
//
// REFUSE_PLAN is a file with a line for each call in turn: the numbers of the first and the last allocation to refuse, counted
// from 1. None is refused if the second number is less, or the line is missing. REFUSE_COUNT is a file that is written. For each
// call it gets a line with the number of its allocations, refused ones included.
//
// A program that is built without a proof (`rt try`) has its own allocator, which the loader prefers to the one here. Each of that
// allocator's functions begins with a jump, which is redirected to ours.
//
// This file includes no header, because the kit's compiler has none. It declares the functions of the C library (glibc) itself.
typedef __SIZE_TYPE__ size_t;
typedef long ssize_t;
typedef struct File FILE;

FILE *fopen(const char *name, const char *mode);
int fscanf(FILE *file, const char *format, ...);
int fprintf(FILE *file, const char *format, ...);
char *getenv(const char *name);
int strcmp(const char *a, const char *b);
long syscall(long number, ...);
int *__errno_location(void);
void *dlsym(void *handle, const char *name);
void *mmap(void *place, size_t size, int protection, int flags, int file, long offset);
int mprotect(void *place, size_t size, int protection);

#define NULL ((void *)0)

enum { BEGIN = 1000003, END = 1000033 };

// Constants of Linux on x86-64.
enum { SYS_READ = 0, ENOMEM = 12, PAGE = 4096, WRITE = 3, RUN = 5, ALL = 7, PRIVATE = 2, ANONYMOUS = 32 };

// The allocator of the C library, by names that no preloaded library replaces.
void *__libc_malloc(size_t size);
void *__libc_calloc(size_t count, size_t size);
void *__libc_realloc(void *old, size_t size);
void *__libc_memalign(size_t alignment, size_t size);

// The functions that allocate: those of the C library, or those of the program if it has its own allocator.
static void *(*give)(size_t size) = __libc_malloc;
static void *(*give_zeros)(size_t count, size_t size) = __libc_calloc;
static void *(*give_again)(void *old, size_t size) = __libc_realloc;
static void *(*give_aligned)(size_t alignment, size_t size) = __libc_memalign;

static int is_counting;
static unsigned long requests, first, last;

// Opens a file that the environment names, once. Its own allocations aren't counted, because no call is under way.
static FILE *opened(FILE **file, const char *variable, const char *mode) {
    if (*file == NULL) {
        const char *name = getenv(variable);
        *file = name == NULL ? NULL : fopen(name, mode);
    }
    return *file;
}

static __attribute__((noinline)) void call_begins(void) {
    static FILE *plan;
    is_counting = 0;
    first = 1, last = 0;
    if (opened(&plan, "REFUSE_PLAN", "r") != NULL && fscanf(plan, "%lu %lu", &first, &last) != 2)
        first = 1, last = 0;
    requests = 0;
    is_counting = 1;
}

static __attribute__((noinline)) void call_ends(void) {
    static FILE *counts;
    if (!is_counting) return;
    is_counting = 0;
    if (opened(&counts, "REFUSE_COUNT", "w") != NULL) fprintf(counts, "%lu\n", requests);
}

__attribute__((destructor)) static void at_exit(void) { call_ends(); }

static int is_refused(void) {
    if (!is_counting) return 0;
    requests++;
    if (requests < first || requests > last) return 0;
    *__errno_location() = ENOMEM;
    return 1;
}

static void *our_malloc(size_t size) {
    if (size == END) call_ends();
    if (size == BEGIN) {
        call_begins();
        return give(size);
    }
    return is_refused() ? NULL : give(size);
}

static void *our_calloc(size_t count, size_t size) {
    return is_refused() ? NULL : give_zeros(count, size);
}

static void *our_realloc(void *old, size_t size) {
    return is_refused() ? NULL : give_again(old, size);
}

static void *our_aligned_alloc(size_t alignment, size_t size) {
    return is_refused() ? NULL : give_aligned(alignment, size);
}

static int our_posix_memalign(void **place, size_t alignment, size_t size) {
    void *made = is_refused() ? NULL : give_aligned(alignment, size);
    if (made == NULL) return ENOMEM;
    *place = made;
    return 0;
}

static ssize_t our_read(int file, void *buffer, size_t size) {
    static int was_read;
    const char *mark = was_read || file != 0 ? NULL : getenv("REFUSE_MARK");
    if (mark != NULL && strcmp(mark, "read") == 0) {
        was_read = 1;
        call_begins();
    }
    return syscall(SYS_READ, file, buffer, size);
}

#define STANDS_FOR(function) __attribute__((alias("our_" #function)))

void *malloc(size_t size) STANDS_FOR(malloc);
void *calloc(size_t count, size_t size) STANDS_FOR(calloc);
void *realloc(void *old, size_t size) STANDS_FOR(realloc);
void *aligned_alloc(size_t alignment, size_t size) STANDS_FOR(aligned_alloc);
int posix_memalign(void **place, size_t alignment, size_t size) STANDS_FOR(posix_memalign);
ssize_t read(int file, void *buffer, size_t size) STANDS_FOR(read);

// Returns the target of a jump of five bytes: 0xe9, and the distance from the end of the jump.
static unsigned char *target(unsigned char *jump) {
    int distance;
    __builtin_memcpy(&distance, jump + 1, sizeof distance);
    return jump + 5 + distance;
}

// Redirects the program's own function of that name to `ours`, by a jump at `step`, which is near. Returns its old target.
static void *turned(const char *name, void *ours, unsigned char *step) {
    unsigned char *jump = dlsym(NULL, name);
    unsigned char *led_to = target(jump);
    step[0] = 0x49, step[1] = 0xbb;
    __builtin_memcpy(step + 2, &ours, sizeof ours);
    step[10] = 0x41, step[11] = 0xff, step[12] = 0xe3;
    int distance = (int)(step - (jump + 5));
    void *page = (void *)((size_t)jump & ~(size_t)(PAGE - 1));
    mprotect(page, 2 * PAGE, ALL);
    __builtin_memcpy(jump + 1, &distance, sizeof distance);
    mprotect(page, 2 * PAGE, RUN);
    return led_to;
}

// Redirects the allocator of a program that has its own to ours.
__attribute__((constructor)) static void at_start(void) {
    unsigned char *own = dlsym(NULL, "malloc");
    if (own == (void *)our_malloc || own[0] != 0xe9) return;
    unsigned char *near = (unsigned char *)((size_t)own & ~(size_t)(PAGE - 1)) - (1 << 28);
    unsigned char *steps = mmap(near, PAGE, WRITE, PRIVATE | ANONYMOUS, -1, 0);
    if (steps != near) return;
    give_aligned = (void *(*)(size_t, size_t))target(dlsym(NULL, "memalign"));
    give = (void *(*)(size_t))turned("malloc", our_malloc, steps);
    give_zeros = (void *(*)(size_t, size_t))turned("calloc", our_calloc, steps + 16);
    give_again = (void *(*)(void *, size_t))turned("realloc", our_realloc, steps + 32);
    turned("aligned_alloc", our_aligned_alloc, steps + 48);
    turned("posix_memalign", our_posix_memalign, steps + 64);
    turned("read", our_read, steps + 80);
    mprotect(steps, PAGE, RUN);
}

// Refuses one allocation of the program that this library is loaded into by LD_PRELOAD: the one with
// the number REFUSE_ALLOCATION, from 1 on, counted from the program's start. When it refuses it, it
// writes an octet to the descriptor REFUSE_REPORT. It takes no header, so that a compiler without the
// C library's files builds it.
typedef unsigned long size_t;

extern void *__libc_malloc(size_t);
extern void *__libc_calloc(size_t, size_t);
extern void *__libc_realloc(void *, size_t);
extern void *__libc_memalign(size_t, size_t);
extern char *getenv(const char *);
extern long write(int, const void *, size_t);

// How many allocations are left up to the refused one, that counted; none where it is 0 or less.
static long left;
static int report;

static long number_of(const char *digits) {
    long number = 0;
    while (digits && *digits >= '0' && *digits <= '9')
        number = 10 * number + (*digits++ - '0');
    return number;
}

__attribute__((constructor)) static void begin(void) {
    report = (int)number_of(getenv("REFUSE_REPORT"));
    __atomic_store_n(&left, number_of(getenv("REFUSE_ALLOCATION")), __ATOMIC_SEQ_CST);
}

// Whether this allocation is the one.
static int is_refused(void) {
    if (__atomic_load_n(&left, __ATOMIC_SEQ_CST) <= 0) return 0;
    if (__atomic_sub_fetch(&left, 1, __ATOMIC_SEQ_CST) != 0) return 0;
    write(report, "r", 1);
    return 1;
}

void *malloc(size_t size) { return is_refused() ? 0 : __libc_malloc(size); }

void *calloc(size_t count, size_t size) { return is_refused() ? 0 : __libc_calloc(count, size); }

void *realloc(void *old, size_t size) { return is_refused() ? 0 : __libc_realloc(old, size); }

void *memalign(size_t align, size_t size) { return is_refused() ? 0 : __libc_memalign(align, size); }

void *aligned_alloc(size_t align, size_t size) { return memalign(align, size); }

int posix_memalign(void **place, size_t align, size_t size) {
    void *found = memalign(align, size);
    if (!found) return 12;
    *place = found;
    return 0;
}

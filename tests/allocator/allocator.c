/* An allocator that refuses one allocation and counts, loaded before the C library (LD_PRELOAD) or linked before it:
 * - of a process: it refuses the allocation numbered $REFUSE, from 1, and writes how many there were to the file
 *   descriptor $REFUSE_COUNT when the process ends. What calloc gives isn't counted there: the C library's start asks it.
 * - of calls: a test says when to refuse and reads the counts (allocator.h).
 * It needs no header of the system, so that any C compiler builds it. */
#include "allocator.h"

extern void *__libc_malloc(size_t size);
extern void *__libc_calloc(size_t count, size_t size);
extern void *__libc_realloc(void *block, size_t size);
extern void *__libc_memalign(size_t align, size_t size);
extern void __libc_free(void *block);
extern size_t malloc_usable_size(void *block);
extern char *getenv(const char *name);
extern long write(int file, const void *bytes, size_t len);

enum { NO_MEMORY = 12 };

static unsigned long asked, asked_before,
    refused; /* allocations so far, up to the last look, and the one that is refused */
static size_t asked_bytes;
static long blocks, bytes;
static int by_calls, was_refused, ready, report = -1;

static unsigned long number(const char *text) {
    unsigned long n = 0;
    while (text && *text >= '0' && *text <= '9') n = n * 10 + (unsigned long)(*text++ - '0');
    return n;
}

static void start(void) {
    if (ready) return;
    ready = 1;
    refused = number(getenv("REFUSE"));
    const char *file = getenv("REFUSE_COUNT");
    if (file) report = (int)number(file);
}

static int refuses(size_t size) {
    start();
    asked_bytes += size;
    const int now = ++asked == refused;
    was_refused |= now;
    return now;
}

/* Counts a block that takes the place of so many bytes. */
static void *counted(void *block, size_t before, int is_new) {
    if (!block) return block;
    blocks += is_new;
    bytes += (long)malloc_usable_size(block) - (long)before;
    return block;
}

void *malloc(size_t size) { return refuses(size) ? NULL : counted(__libc_malloc(size), 0, 1); }

void *calloc(size_t count, size_t size) {
    return by_calls && refuses(count * size) ? NULL : counted(__libc_calloc(count, size), 0, 1);
}

void *realloc(void *block, size_t size) {
    const size_t before = block ? malloc_usable_size(block) : 0;
    return refuses(size) ? NULL : counted(__libc_realloc(block, size), before, !block);
}

void *aligned_alloc(size_t align, size_t size) {
    return refuses(size) ? NULL : counted(__libc_memalign(align, size), 0, 1);
}

int posix_memalign(void **block, size_t align, size_t size) {
    if (refuses(size)) return NO_MEMORY;
    void *made = counted(__libc_memalign(align, size), 0, 1);
    if (!made) return NO_MEMORY;
    *block = made;
    return 0;
}

void free(void *block) {
    if (!block) return;
    blocks -= 1;
    bytes -= (long)malloc_usable_size(block);
    __libc_free(block);
}

void allocator_refuse_after(long others) {
    by_calls = 1;
    was_refused = 0;
    refused = others < 0 ? 0 : asked + (unsigned long)others + 1;
}

int allocator_refuse_none(void) {
    by_calls = 0;
    refused = 0;
    return was_refused;
}

unsigned long allocator_asked(void) {
    const unsigned long since = asked - asked_before;
    asked_before = asked;
    return since;
}

size_t allocator_asked_bytes(void) {
    const size_t since = asked_bytes;
    asked_bytes = 0;
    return since;
}

long allocator_blocks(void) {
    const long since = blocks;
    blocks = 0;
    return since;
}

long allocator_bytes(void) {
    const long since = bytes;
    bytes = 0;
    return since;
}

__attribute__((destructor)) static void tell(void) {
    char text[24];
    int at = 24;
    unsigned long n = asked;
    start();
    if (report < 0) return;
    do text[--at] = (char)('0' + n % 10);
    while (n /= 10);
    write(report, text + at, (size_t)(24 - at));
}

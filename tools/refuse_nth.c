/* An allocator that refuses one allocation: the one whose number, from 1 on, REFUSED_ALLOCATION says.
 * Preloaded (LD_PRELOAD) it stands before the C library's. It counts the allocations that were asked for
 * in the file whose descriptor REFUSED_TOLD says, so that the number is there however the program ends.
 *
 * A program says by two allocations, of sizes that nothing else has, where it is to take no memory: between
 * REFUSE_ALL and REFUSE_NONE every allocation is refused. How often that began, and how many were refused
 * there, stand in the file behind the count. With REFUSED_WITHIN it says by two others, COUNT_FROM and COUNT_TO,
 * where allocations are counted, and the one with that number refused. These four are given, and not counted.
 */
#define _GNU_SOURCE
#include <errno.h>
#include <stdatomic.h>
#include <stdlib.h>
#include <sys/mman.h>

extern void *__libc_malloc(size_t size);
extern void *__libc_calloc(size_t count, size_t size);
extern void *__libc_realloc(void *block, size_t size);
extern void *__libc_memalign(size_t alignment, size_t size);

enum { REFUSE_ALL = 1000003, REFUSE_NONE = 1000033, COUNT_FROM = 1000037, COUNT_TO = 1000039 };

struct told {
    atomic_long asked;
    atomic_long begun;
    atomic_long refused_within;
};

static struct told own;
static struct told *told = &own;
static long refused = -1;
static atomic_int refuses_all;
static int counts_within;
static atomic_int is_left_out;

__attribute__((constructor)) static void begin(void)
{
    const char *number = getenv("REFUSED_ALLOCATION");
    const char *descriptor = getenv("REFUSED_TOLD");
    if (number)
        refused = atol(number);
    if (descriptor) {
        void *page = mmap(NULL, sizeof *told, PROT_READ | PROT_WRITE, MAP_SHARED, atoi(descriptor), 0);
        if (page == MAP_FAILED)
            abort();
        told = page;
    }
    counts_within = getenv("REFUSED_WITHIN") != NULL;
    atomic_store(&is_left_out, counts_within);
    atomic_store(&told->asked, 0);
}

/* Whether the size is one of those that say what comes, which is noted then. */
static int is_sign(size_t size)
{
    if (counts_within && (size == COUNT_FROM || size == COUNT_TO)) {
        atomic_store(&is_left_out, size == COUNT_TO);
        return 1;
    }
    if (size != REFUSE_ALL && size != REFUSE_NONE)
        return 0;
    if (size == REFUSE_ALL)
        atomic_fetch_add(&told->begun, 1);
    atomic_store(&refuses_all, size == REFUSE_ALL);
    return 1;
}

static int is_refused(size_t size)
{
    if (is_sign(size) || atomic_load(&is_left_out))
        return 0;
    int is_within = atomic_load(&refuses_all);
    if (is_within)
        atomic_fetch_add(&told->refused_within, 1);
    if (atomic_fetch_add(&told->asked, 1) + 1 != refused && !is_within)
        return 0;
    errno = ENOMEM;
    return 1;
}

void *malloc(size_t size)
{
    return is_refused(size) ? NULL : __libc_malloc(size);
}

void *calloc(size_t count, size_t size)
{
    return is_refused(count * size) ? NULL : __libc_calloc(count, size);
}

void *realloc(void *block, size_t size)
{
    return is_refused(size) ? NULL : __libc_realloc(block, size);
}

void *memalign(size_t alignment, size_t size)
{
    return is_refused(size) ? NULL : __libc_memalign(alignment, size);
}

void *aligned_alloc(size_t alignment, size_t size)
{
    return is_refused(size) ? NULL : __libc_memalign(alignment, size);
}

int posix_memalign(void **block, size_t alignment, size_t size)
{
    *block = is_refused(size) ? NULL : __libc_memalign(alignment, size);
    return *block ? 0 : ENOMEM;
}

/* An allocator that now and then gives the processor away, at places that are drawn from the seed
 * YIELD_SEED. A step on a shard allocates between its entering and its leaving, so preloaded
 * (LD_PRELOAD) it puts yields between the atomic steps of threads, and others in each run.
 */
#define _GNU_SOURCE
#include <sched.h>
#include <stdatomic.h>
#include <stdint.h>
#include <stdlib.h>

extern void *__libc_malloc(size_t size);

static atomic_ulong threads;
static uint64_t seed = 1;
static __thread uint64_t state;

__attribute__((constructor)) static void begin(void)
{
    const char *text = getenv("YIELD_SEED");
    if (text)
        seed = strtoull(text, NULL, 10);
}

static uint64_t next(void)
{
    if (!state)
        state = (seed + 1) * 0x9e3779b97f4a7c15u + atomic_fetch_add(&threads, 1) * 0xbf58476d1ce4e5b9u;
    state ^= state << 13;
    state ^= state >> 7;
    state ^= state << 17;
    return state;
}

void *malloc(size_t size)
{
    if (next() % 4 == 0)
        for (uint64_t left = next() % 4; left; left--)
            sched_yield();
    return __libc_malloc(size);
}

/* Loaded before a program (LD_PRELOAD): refuses its allocation number REFUSE, counted from 1, and with REFUSE_ALL=1 all
   after it too. With REFUSE=0 nothing is refused, and the count of allocations is written to the file that REFUSE_COUNT
   names. */
#define _GNU_SOURCE
#include <dlfcn.h>
#include <errno.h>
#include <stdio.h>
#include <stdlib.h>

static long count, refused;
static int all;
static void *(*next_malloc)(size_t);
static void *(*next_calloc)(size_t, size_t);
static void *(*next_realloc)(void *, size_t);
static int (*next_aligned)(void **, size_t, size_t);
static char early[4096];
static size_t used;

static void begin(void)
{
    const char *number = getenv("REFUSE"), *rest = getenv("REFUSE_ALL");
    next_malloc = dlsym(RTLD_NEXT, "malloc");
    next_realloc = dlsym(RTLD_NEXT, "realloc");
    next_aligned = dlsym(RTLD_NEXT, "posix_memalign");
    next_calloc = dlsym(RTLD_NEXT, "calloc");
    refused = number ? atol(number) : 0;
    all = rest && *rest == '1';
}

static int is_refused(void)
{
    count++;
    return refused && (all ? count >= refused : count == refused);
}

__attribute__((constructor)) static void ready(void) { if (!next_malloc) begin(); count = 0; }

__attribute__((destructor)) static void end(void)
{
    const char *name = getenv("REFUSE_COUNT");
    FILE *file;
    long seen = count;
    refused = 0;
    if (name && (file = fopen(name, "w"))) {
        fprintf(file, "%ld\n", seen);
        fclose(file);
    }
}

void *malloc(size_t size)
{
    if (!next_malloc) begin();
    if (is_refused()) { errno = ENOMEM; return 0; }
    return next_malloc(size);
}

void *calloc(size_t many, size_t size)
{
    if (!next_calloc) { /* dlsym itself asks for some */
        size_t at = used;
        used += (many * size + 15) & ~(size_t)15;
        return used <= sizeof early ? early + at : 0;
    }
    if (is_refused()) { errno = ENOMEM; return 0; }
    return next_calloc(many, size);
}

void *realloc(void *block, size_t size)
{
    if (!next_realloc) begin();
    if (is_refused()) { errno = ENOMEM; return 0; }
    return next_realloc(block, size);
}

int posix_memalign(void **block, size_t alignment, size_t size)
{
    if (!next_aligned) begin();
    if (is_refused()) return ENOMEM;
    return next_aligned(block, alignment, size);
}

void *aligned_alloc(size_t alignment, size_t size)
{
    void *block = 0;
    return posix_memalign(&block, alignment, size) ? 0 : block;
}

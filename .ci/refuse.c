/* Preloaded into one run of a program, it refuses one growth of memory, that of the number REFUSE_NUMBER, and no other;
   where that is "all", each growth. Growths are counted between two marks, pieces of memory of sizes that nothing else
   asks for, which are never refused (mesh_test_support/src/marks.rt); with REFUSE_FROM_START all growths are counted.
   What it did it tells the standard error, each time a line of one word in angles. */
#define _GNU_SOURCE
#include <dlfcn.h>
#include <errno.h>
#include <stdlib.h>
#include <string.h>
#include <unistd.h>

enum { BEGIN = 1000003, END = 1000033 };

static void *(*next_malloc)(size_t);
static void *(*next_calloc)(size_t, size_t);
static void *(*next_realloc)(void *, size_t);
static long wanted, counted;
static int is_tested, are_all_refused;

static void tell(const char *line, size_t length)
{
    if (write(STDERR_FILENO, line, length) < 0)
        _exit(111);
}

__attribute__((constructor)) static void start(void)
{
    const char *number = getenv("REFUSE_NUMBER");
    are_all_refused = number && !strcmp(number, "all");
    wanted = number ? atol(number) : 0;
    is_tested = getenv("REFUSE_FROM_START") != NULL;
}

static int is_refused(size_t size)
{
    if (size == BEGIN || size == END) {
        is_tested = size == BEGIN;
        if (is_tested)
            tell("\n<begin>\n", 9);
        else
            tell("\n<end>\n", 7);
        return 0;
    }
    if (!is_tested || (++counted != wanted && !are_all_refused))
        return 0;
    tell("\n<refused>\n", 11);
    errno = ENOMEM;
    return 1;
}

void *malloc(size_t size)
{
    if (!next_malloc)
        next_malloc = dlsym(RTLD_NEXT, "malloc");
    return is_refused(size) ? NULL : next_malloc(size);
}

void *calloc(size_t count, size_t size)
{
    if (!next_calloc)
        next_calloc = dlsym(RTLD_NEXT, "calloc");
    return is_refused(count * size) ? NULL : next_calloc(count, size);
}

void *realloc(void *before, size_t size)
{
    if (!next_realloc)
        next_realloc = dlsym(RTLD_NEXT, "realloc");
    return is_refused(size) ? NULL : next_realloc(before, size);
}

// Refuses a program memory once. Loaded in front of the C library, it counts the calls of malloc and realloc, and answers null to
// the one whose number REFUSED_GROWTH gives, from 1 on. Their number at the end goes into the file that GROWTHS names.
#define _GNU_SOURCE
#include <dlfcn.h>
#include <stdio.h>
#include <stdlib.h>

static unsigned long growths;
static unsigned long refused;
static void *(*own_malloc)(size_t);
static void *(*own_realloc)(void *, size_t);

static void find(void)
{
    own_malloc = (void *(*)(size_t))dlsym(RTLD_NEXT, "malloc");
    own_realloc = (void *(*)(void *, size_t))dlsym(RTLD_NEXT, "realloc");
}

// What was counted up to here is none of the program's own.
__attribute__((constructor)) static void begin(void)
{
    const char *number = getenv("REFUSED_GROWTH");
    if (!own_malloc)
        find();
    refused = number ? strtoul(number, NULL, 10) : 0;
    growths = 0;
}

__attribute__((destructor)) static void end(void)
{
    const unsigned long count = growths;
    const char *name = getenv("GROWTHS");
    FILE *file = name ? fopen(name, "w") : NULL;
    refused = 0;
    if (file) {
        fprintf(file, "%lu\n", count);
        fclose(file);
    }
}

void *malloc(size_t size)
{
    if (!own_malloc)
        find();
    growths++;
    return growths == refused ? NULL : own_malloc(size);
}

void *realloc(void *old, size_t size)
{
    if (!own_realloc)
        find();
    growths++;
    return growths == refused ? NULL : own_realloc(old, size);
}

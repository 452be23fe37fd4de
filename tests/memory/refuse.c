// Loaded before the C library, this refuses one allocation: the one whose number, from 1, is REFUSED.
// At the end it says on standard error how many were asked for.
#include <stdio.h>
#include <stdlib.h>

void *__libc_malloc(size_t size);
void *__libc_realloc(void *old, size_t size);

static unsigned long asked;

static int refused(void)
{
    const char *number = getenv("REFUSED");
    asked++;
    return number != NULL && strtoul(number, NULL, 10) == asked;
}

void *malloc(size_t size)
{
    return refused() ? NULL : __libc_malloc(size);
}

void *realloc(void *old, size_t size)
{
    return refused() ? NULL : __libc_realloc(old, size);
}

__attribute__((destructor)) static void say(void)
{
    dprintf(2, "allocations: %lu\n", asked);
}

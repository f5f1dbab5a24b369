/* Refuses one allocation of a program: that of the number REFUSED, counted from 1 in the order of its calls of malloc and
   realloc. At the program's end the number of all of them is written to the file descriptor COUNTED. */
#include <stdio.h>
#include <stdlib.h>

void *__libc_malloc(size_t size);
void *__libc_realloc(void *old, size_t size);

static unsigned long refused, count;

__attribute__((constructor)) static void begin(void)
{
    const char *told = getenv("REFUSED");
    refused = told ? strtoul(told, NULL, 10) : 0;
    count = 0;
}

__attribute__((destructor)) static void end(void)
{
    const char *told = getenv("COUNTED");
    if (told)
        dprintf(atoi(told), "%lu\n", count);
}

void *malloc(size_t size)
{
    return ++count == refused ? NULL : __libc_malloc(size);
}

void *realloc(void *old, size_t size)
{
    return ++count == refused ? NULL : __libc_realloc(old, size);
}

/* An allocator for LD_PRELOAD whose call number FAILING finds no memory. At the end of the program the
   number of calls goes to the file COUNTED, where that is set. */
#include <errno.h>
#include <stdio.h>
#include <stdlib.h>

extern void *__libc_malloc(size_t size);
extern void *__libc_realloc(void *old, size_t size);
extern void *__libc_calloc(size_t count, size_t size);

static long made;
static long failing;

__attribute__((constructor)) static void begin(void)
{
    const char *number = getenv("FAILING");
    failing = number ? atol(number) : 0;
    made = 0;
}

__attribute__((destructor)) static void finish(void)
{
    const char *name = getenv("COUNTED");
    long all = made;
    FILE *file = name ? fopen(name, "w") : NULL;
    if (file) {
        fprintf(file, "%ld\n", all);
        fclose(file);
    }
}

static int fails(void)
{
    made += 1;
    if (made == failing) {
        errno = ENOMEM;
    }
    return made == failing;
}

void *malloc(size_t size)
{
    return fails() ? NULL : __libc_malloc(size);
}

void *realloc(void *old, size_t size)
{
    return fails() ? NULL : __libc_realloc(old, size);
}

void *calloc(size_t count, size_t size)
{
    return fails() ? NULL : __libc_calloc(count, size);
}

/*
 * Refuses one request for memory. Loaded before a program (LD_PRELOAD), it refuses the request whose number, counted from
 * 1, is in REFUSED_REQUEST. REFUSED_FROM names a file: when it is there, it is removed, and the request is refused whose
 * number, counted from that moment, it held. At the end of the program the number of requests is written to the file named
 * in REQUEST_COUNT.
 */
#include <errno.h>
#include <fcntl.h>
#include <stddef.h>
#include <stdio.h>
#include <stdlib.h>
#include <unistd.h>

extern void *__libc_malloc(size_t size);
extern void *__libc_calloc(size_t count, size_t size);
extern void *__libc_realloc(void *old, size_t size);
extern void *__libc_memalign(size_t alignment, size_t size);

static unsigned long made;
static unsigned long refused;
static int counting;
static const char *from;

/* Reads which request is to be refused, if the file is there. */
static void look(void)
{
    char number[16] = {0};
    int file = open(from, O_RDONLY);
    if (file < 0)
        return;
    if (read(file, number, sizeof number - 1) > 0 && unlink(from) == 0)
        refused = made + strtoul(number, NULL, 10);
    close(file);
}

static int is_refused(void)
{
    if (!counting)
        return 0;
    if (from)
        look();
    return ++made == refused;
}

static void *no_memory(void)
{
    errno = ENOMEM;
    return NULL;
}

void *malloc(size_t size) { return is_refused() ? no_memory() : __libc_malloc(size); }

void *calloc(size_t count, size_t size) { return is_refused() ? no_memory() : __libc_calloc(count, size); }

void *realloc(void *old, size_t size) { return is_refused() ? no_memory() : __libc_realloc(old, size); }

void *aligned_alloc(size_t alignment, size_t size)
{
    return is_refused() ? no_memory() : __libc_memalign(alignment, size);
}

int posix_memalign(void **place, size_t alignment, size_t size)
{
    void *memory = is_refused() ? NULL : __libc_memalign(alignment, size);
    if (memory == NULL)
        return ENOMEM;
    *place = memory;
    return 0;
}

__attribute__((constructor)) static void begin(void)
{
    const char *number = getenv("REFUSED_REQUEST");
    refused = number ? strtoul(number, NULL, 10) : 0;
    from = getenv("REFUSED_FROM");
    counting = 1;
}

__attribute__((destructor)) static void end(void)
{
    counting = 0;
    const char *path = getenv("REQUEST_COUNT");
    FILE *file = path ? fopen(path, "w") : NULL;
    if (file) {
        fprintf(file, "%lu\n", made);
        fclose(file);
    }
}

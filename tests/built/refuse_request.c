/* Counts a program's requests for memory, and refuses one: that whose number, from 1, REFUSED_REQUEST holds. When the program
   ends, three numbers are written to the file that REQUESTS names: its requests, the most bytes that it held at once, and the
   most KiB that were resident. To be preloaded, where the C library is GNU's. */
#include <errno.h>
#include <malloc.h>
#include <stdio.h>
#include <stdlib.h>

extern void *__libc_malloc(size_t size);
extern void *__libc_calloc(size_t count, size_t size);
extern void *__libc_realloc(void *old, size_t size);
extern void __libc_free(void *old);

static unsigned long requests, held, most;

static int is_refused(void)
{
    static unsigned long refused;
    if (requests++ == 0) {
        const char *number = getenv("REFUSED_REQUEST");
        refused = number ? strtoul(number, NULL, 10) : 0;
    }
    if (requests != refused)
        return 0;
    errno = ENOMEM;
    return 1;
}

/* Notes what was given. */
static void *noted(void *given)
{
    held += malloc_usable_size(given);
    if (held > most)
        most = held;
    return given;
}

void *malloc(size_t size)
{
    return is_refused() ? NULL : noted(__libc_malloc(size));
}

void *calloc(size_t count, size_t size)
{
    return is_refused() ? NULL : noted(__libc_calloc(count, size));
}

void *realloc(void *old, size_t size)
{
    size_t before = malloc_usable_size(old);
    if (is_refused())
        return NULL;
    void *given = __libc_realloc(old, size);
    if (given || size == 0)
        held -= before;
    return noted(given);
}

void free(void *old)
{
    held -= malloc_usable_size(old);
    __libc_free(old);
}

static unsigned long most_resident(void)
{
    unsigned long kibibytes = 0;
    char line[256];
    FILE *file = fopen("/proc/self/status", "r");
    while (file && fgets(line, sizeof line, file))
        sscanf(line, "VmHWM: %lu", &kibibytes);
    if (file)
        fclose(file);
    return kibibytes;
}

__attribute__((destructor)) static void tell(void)
{
    unsigned long made = requests, at_once = most, resident = most_resident();
    const char *name = getenv("REQUESTS");
    FILE *file = name ? fopen(name, "w") : NULL;
    if (file) {
        fprintf(file, "%lu %lu %lu\n", made, at_once, resident);
        fclose(file);
    }
}

/* Refuses one allocation of the program that it is loaded into: the one whose number stands in REFUSE, counted from 1 over all
   threads. How many there were stands in the first eight bytes of the file that COUNT names, which is there before: the program may
   end without a call of what is done at an end. */
#define _GNU_SOURCE
#include <errno.h>
#include <fcntl.h>
#include <stdatomic.h>
#include <stdlib.h>
#include <sys/mman.h>
#include <unistd.h>

static atomic_long unshared;
static atomic_long *calls = &unshared;
static long refused;

static __attribute__((constructor)) void begin(void)
{
    const char *number = getenv("REFUSE"), *path = getenv("COUNT");
    int file = path ? open(path, O_RDWR) : -1;
    if (file >= 0) {
        void *shared = mmap(NULL, sizeof *calls, PROT_READ | PROT_WRITE, MAP_SHARED, file, 0);
        if (shared != MAP_FAILED)
            calls = shared;
        close(file);
    }
    refused = number ? atol(number) : 0;
}

static int is_refused(void)
{
    if (atomic_fetch_add(calls, 1) + 1 != refused)
        return 0;
    errno = ENOMEM;
    return 1;
}

extern void *__libc_malloc(size_t size);
extern void *__libc_calloc(size_t count, size_t size);
extern void *__libc_realloc(void *old, size_t size);

void *malloc(size_t size) { return is_refused() ? NULL : __libc_malloc(size); }
void *calloc(size_t count, size_t size) { return is_refused() ? NULL : __libc_calloc(count, size); }
void *realloc(void *old, size_t size) { return is_refused() ? NULL : __libc_realloc(old, size); }

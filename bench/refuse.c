/*
 * Refuses allocations: preloaded before a program, it stands before the C library's malloc and its kin.
 *
 *   REFUSE_AT     the number of the allocation that is refused, from 1 on; none is where it isn't set
 *   REFUSE_AFTER  1: each one after it is refused too
 *   REFUSE_TOLD   a file that is made when one is refused
 *
 * What the loader takes before the program begins isn't counted. A realloc to no bytes is never refused, as it frees.
 */
#include <errno.h>
#include <fcntl.h>
#include <stdatomic.h>
#include <stdlib.h>
#include <unistd.h>

extern void *__libc_malloc(size_t);
extern void *__libc_calloc(size_t, size_t);
extern void *__libc_realloc(void *, size_t);
extern void *__libc_memalign(size_t, size_t);

static atomic_long allocations;
static long refuse_at;
static int refuse_after;
static const char *told;

static long number_in(const char *name)
{
    const char *text = getenv(name);
    return text == NULL ? 0 : atol(text);
}

__attribute__((constructor)) static void begin(void)
{
    told = getenv("REFUSE_TOLD");
    refuse_after = number_in("REFUSE_AFTER") != 0;
    refuse_at = number_in("REFUSE_AT");
    atomic_store(&allocations, 0);
}

static void tell(void)
{
    int file = told == NULL ? -1 : open(told, O_WRONLY | O_CREAT, 0600);
    if (file >= 0) {
        close(file);
    }
}

static int is_refused(void)
{
    long number = atomic_fetch_add(&allocations, 1) + 1;
    if (refuse_at == 0 || number < refuse_at || (number > refuse_at && !refuse_after)) {
        return 0;
    }
    if (number == refuse_at) {
        tell();
    }
    errno = ENOMEM;
    return 1;
}

static int is_alignment(size_t number)
{
    return number != 0 && (number & (number - 1)) == 0 && number % sizeof(void *) == 0;
}

void *malloc(size_t size)
{
    return is_refused() ? NULL : __libc_malloc(size);
}

void *calloc(size_t count, size_t size)
{
    return is_refused() ? NULL : __libc_calloc(count, size);
}

void *realloc(void *old, size_t size)
{
    if (old != NULL && size == 0) {
        return __libc_realloc(old, size);
    }
    return is_refused() ? NULL : __libc_realloc(old, size);
}

void *reallocarray(void *old, size_t count, size_t size)
{
    size_t bytes;
    if (__builtin_mul_overflow(count, size, &bytes)) {
        errno = ENOMEM;
        return NULL;
    }
    return realloc(old, bytes);
}

void *memalign(size_t alignment, size_t size)
{
    return is_refused() ? NULL : __libc_memalign(alignment, size);
}

void *aligned_alloc(size_t alignment, size_t size)
{
    return memalign(alignment, size);
}

int posix_memalign(void **place, size_t alignment, size_t size)
{
    if (!is_alignment(alignment)) {
        return EINVAL;
    }
    void *found = memalign(alignment, size);
    if (found == NULL) {
        return ENOMEM;
    }
    *place = found;
    return 0;
}

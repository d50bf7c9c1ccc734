/* Refuses requests for memory: those whose numbers, counted from 1, are from REFUSE_FIRST to REFUSE_LAST, and those above
 * REFUSE_ABOVE octets. For each that is refused it writes an octet to descriptor 9. Where REFUSE_BALANCE is set, it writes
 * at the end how many octets were given and not given back to descriptor 8. It is loaded before the C library. */
#include <errno.h>
#include <malloc.h>
#include <stdint.h>
#include <stdio.h>
#include <stdlib.h>
#include <string.h>
#include <sys/syscall.h>
#include <unistd.h>

static unsigned long made, first, last, above = SIZE_MAX;
static long held;
static int ready;

static unsigned long number_in(const char *name, unsigned long otherwise)
{
    const char *text = getenv(name);
    return text ? strtoul(text, NULL, 10) : otherwise;
}

/* The numbers are read behind the program's start, so the loader's own requests are granted and not counted. */
__attribute__((constructor)) static void begin(void)
{
    first = number_in("REFUSE_FIRST", 0);
    last = number_in("REFUSE_LAST", 0);
    above = number_in("REFUSE_ABOVE", SIZE_MAX);
    held = 0;
    ready = 1;
}

__attribute__((destructor)) static void end(void)
{
    char text[32];
    if (getenv("REFUSE_BALANCE")) {
        snprintf(text, sizeof text, "%ld\n", held);
        if (write(8, text, strlen(text)) < 0)
            abort();
    }
}

/* A program with threads ends by this, without what stands for the end of others. */
void _exit(int status)
{
    end();
    for (;;)
        syscall(SYS_exit_group, status);
}

static int refused(size_t size)
{
    unsigned long number;
    if (!ready)
        return 0;
    number = __atomic_add_fetch(&made, 1, __ATOMIC_SEQ_CST);
    if (size <= above && (number < first || number > last))
        return 0;
    if (write(9, ".", 1) != 1)
        _exit(99);
    errno = ENOMEM;
    return 1;
}

/* What is given or given back is counted by the octets that it may use. */
static void *given(void *place)
{
    if (place != NULL)
        __atomic_add_fetch(&held, (long)malloc_usable_size(place), __ATOMIC_SEQ_CST);
    return place;
}

static void taken_back(void *place)
{
    if (place != NULL)
        __atomic_sub_fetch(&held, (long)malloc_usable_size(place), __ATOMIC_SEQ_CST);
}

extern void *__libc_malloc(size_t);
extern void *__libc_calloc(size_t, size_t);
extern void *__libc_realloc(void *, size_t);
extern void *__libc_memalign(size_t, size_t);
extern void __libc_free(void *);

void *malloc(size_t size)
{
    return refused(size) ? NULL : given(__libc_malloc(size));
}

void *calloc(size_t count, size_t size)
{
    size_t whole;
    if (__builtin_mul_overflow(count, size, &whole))
        whole = SIZE_MAX;
    return refused(whole) ? NULL : given(__libc_calloc(count, size));
}

void *realloc(void *old, size_t size)
{
    long before = old ? (long)malloc_usable_size(old) : 0;
    void *place;
    if (refused(size))
        return NULL;
    place = __libc_realloc(old, size);
    if (place != NULL || size == 0)
        __atomic_sub_fetch(&held, before, __ATOMIC_SEQ_CST);
    return given(place);
}

void free(void *place)
{
    taken_back(place);
    __libc_free(place);
}

void *aligned_alloc(size_t alignment, size_t size)
{
    return refused(size) ? NULL : given(__libc_memalign(alignment, size));
}

int posix_memalign(void **place, size_t alignment, size_t size)
{
    void *made_place = refused(size) ? NULL : given(__libc_memalign(alignment, size));
    if (made_place == NULL)
        return ENOMEM;
    *place = made_place;
    return 0;
}

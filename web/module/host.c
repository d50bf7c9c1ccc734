/* What the program `iolink` calls of C, for WebAssembly: a heap over the memory's growth, and input, output and end by
 * four functions of the page. Freestanding: it has no header and no library. Nothing of it is proved.
 *
 * What the page gives, each in the module `host`: `read` and `write` take a descriptor, a place and a count, and answer
 * how many octets they took; `argument` puts a word of the command line to a place, and answers its length, -1 if there
 * is none, or -2 if it is longer; `end` doesn't return. */
typedef unsigned char octet;
typedef unsigned long size;
typedef unsigned __int128 wide;
_Static_assert(sizeof(void *) == 8 && sizeof(size) == 8, "for wasm64");

#define HOST(name) __attribute__((import_module("host"), import_name(name))) extern
HOST("read") long host_read(int descriptor, void *to, size count);
HOST("write") long host_write(int descriptor, const void *from, size count);
HOST("argument") long host_argument(size number, void *to, size count);
HOST("end") void host_end(int status) __attribute__((noreturn));

/* Heap: a block has 2^n octets. Its first 16 hold n; those that were freed are lists, by n. */

enum { PAGE = 65536, HEAD = 16, LEAST = 5, LISTS = 41 };
extern octet __heap_base;
static octet *unused;
static void *freed[LISTS];

static size exponent_for(size count)
{
    size exponent = LEAST;
    while (((size)1 << exponent) < count + HEAD)
        exponent++;
    return exponent;
}

/* Memory up to there, or 0. */
static int reach(const octet *end)
{
    size have = __builtin_wasm_memory_size(0) * PAGE;
    if ((size)end <= have)
        return 1;
    return __builtin_wasm_memory_grow(0, ((size)end - have + PAGE - 1) / PAGE) != (size)-1;
}

void *malloc(size count)
{
    if (count >= ((size)1 << (LISTS - 1)) - HEAD)
        return 0;
    size exponent = exponent_for(count);
    void *at = freed[exponent];
    if (at) {
        freed[exponent] = *(void **)at;
        return at;
    }
    if (!unused)
        unused = (octet *)(((size)&__heap_base + HEAD - 1) & ~(size)(HEAD - 1));
    octet *block = unused;
    if (!reach(block + ((size)1 << exponent)))
        return 0;
    unused = block + ((size)1 << exponent);
    *(size *)block = exponent;
    return block + HEAD;
}

static size exponent_of(void *at)
{
    return *(size *)((octet *)at - HEAD);
}

void free(void *at)
{
    if (!at)
        return;
    size exponent = exponent_of(at);
    *(void **)at = freed[exponent];
    freed[exponent] = at;
}

void *memcpy(void *to, const void *from, size count)
{
    __builtin_memcpy(to, from, count);
    return to;
}

void *memmove(void *to, const void *from, size count)
{
    __builtin_memmove(to, from, count);
    return to;
}

void *memset(void *to, int value, size count)
{
    __builtin_memset(to, value, count);
    return to;
}

/* The heap of Rattle: whether there is memory, and a pointer that isn't null. */
typedef struct {
    size is_there;
    void *at;
} allocated;

static allocated answer(void *at)
{
    allocated it = {at != 0, at ? at : (void *)HEAD};
    return it;
}

allocated rattle_alloc(size count, size alignment)
{
    return answer(malloc(count ? count : alignment));
}

allocated rattle_realloc(void *at, size kept, size count, size alignment)
{
    size wanted = count ? count : alignment;
    if (((size)1 << exponent_of(at)) >= wanted + HEAD)
        return answer(at);
    void *to = malloc(wanted);
    if (to) {
        memcpy(to, at, kept);
        free(at);
    }
    return answer(to);
}

void rattle_dealloc(void *at)
{
    free(at);
}

/* Products and shifts of 128 bits, which compiled code may call for. */

typedef union {
    wide all;
    struct {
        size low, high;
    } half;
} halves;

static wide product(size x, size y)
{
    size low = 0xFFFFFFFF;
    size ll = (x & low) * (y & low), lh = (x & low) * (y >> 32);
    size hl = (x >> 32) * (y & low), hh = (x >> 32) * (y >> 32);
    size middle = (ll >> 32) + (lh & low) + (hl & low);
    halves it;
    it.half.low = (ll & low) | middle << 32;
    it.half.high = hh + (lh >> 32) + (hl >> 32) + (middle >> 32);
    return it.all;
}

wide __multi3(wide x, wide y)
{
    halves a = {x}, b = {y}, it = {product(a.half.low, b.half.low)};
    it.half.high += a.half.low * b.half.high + a.half.high * b.half.low;
    return it.all;
}

wide __ashlti3(wide x, int by)
{
    halves from = {x}, to = from;
    if (by >= 64) {
        to.half.high = from.half.low << (by - 64);
        to.half.low = 0;
    } else if (by > 0) {
        to.half.high = from.half.high << by | from.half.low >> (64 - by);
        to.half.low = from.half.low << by;
    }
    return to.all;
}

wide __lshrti3(wide x, int by)
{
    halves from = {x}, to = from;
    if (by >= 64) {
        to.half.low = from.half.high >> (by - 64);
        to.half.high = 0;
    } else if (by > 0) {
        to.half.low = from.half.low >> by | from.half.high << (64 - by);
        to.half.high = from.half.high >> by;
    }
    return to.all;
}

/* The system: words, input, output, end. */

long read(int descriptor, void *to, size count)
{
    return host_read(descriptor, to, count);
}

long write(int descriptor, const void *from, size count)
{
    return host_write(descriptor, from, count);
}

long rattle_arg(size number, void *to, size count)
{
    return host_argument(number, to, count);
}

void _exit(int status)
{
    host_end(status);
}

void abort(void)
{
    host_end(134);
}

enum { ESPIPE = 29, EAGAIN = 11, ENOSYS = 38, ESRCH = 3 };
static int error;

int rattle_errno(void)
{
    return error;
}

void rattle_set_errno(int number)
{
    error = number;
}

static long fails(int number)
{
    error = number;
    return -1;
}

long lseek(int descriptor, long to, int how)
{
    return fails(ESPIPE);
}

long syscall(long number, void *a, long b, long c, void *d, ...)
{
    return fails(ENOSYS);
}

/* There is no environment, no signal, and no thread. */

long rattle_env(const void *name, void *to, size count)
{
    return -1;
}

long rattle_env_at(size number, void *to, size count)
{
    return -1;
}

size __sysv_signal(int number, size action)
{
    return 0;
}

int pthread_create(void *thread, void *attributes, void *begin, void *argument)
{
    return EAGAIN;
}

int pthread_attr_init(void *attributes)
{
    return 0;
}

int pthread_attr_setguardsize(void *attributes, size count)
{
    return 0;
}

int pthread_attr_setstacksize(void *attributes, size count)
{
    return 0;
}

int pthread_attr_destroy(void *attributes)
{
    return 0;
}

size pthread_self(void)
{
    return 1;
}

int pthread_detach(size thread)
{
    return ESRCH;
}

int pthread_join(size thread, void *result)
{
    return ESRCH;
}

int sched_yield(void)
{
    return 0;
}

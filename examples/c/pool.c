/* A pool for the library, in place of malloc: BLOCKS blocks of BLOCK octets. Link it with the static library. A longer
 * block is refused, which a submit answers with 24: so open a port with limits whose lists fit. */
#include "iolink_memory.h"
#include <stdint.h>
#include <string.h>

enum { BLOCK = 2048, BLOCKS = 16 };

static _Alignas(16) uint8_t pool[BLOCKS][BLOCK];
static bool is_used[BLOCKS];

iol_block rattle_alloc(size_t octets, size_t align)
{
    (void)align;
    for (size_t at = 0; octets <= BLOCK && at < BLOCKS; at++)
        if (!is_used[at]) {
            is_used[at] = true;
            return (iol_block){true, pool[at]};
        }
    return (iol_block){false, pool};
}

iol_block rattle_realloc(void *at, size_t kept, size_t octets, size_t align)
{
    (void)kept;
    (void)align;
    return (iol_block){octets <= BLOCK, at};
}

void rattle_dealloc(void *at)
{
    is_used[((uint8_t *)at - pool[0]) / BLOCK] = false;
}

/* Memory of your own for the library, in place of malloc.
 *
 * A program that defines these three, and links the static library (libiolink.a), has them called: the linker takes
 * its definitions, and not those of the library. The shared library always asks malloc.
 *
 * What you owe, and what nothing checks: a block that is given is nobody else's until it comes back, and its octets stay
 * as they were written. They are called by iol_port_open, iol_port_open_for, iol_port_close, iol_port_archive,
 * iol_port_drain, iol_port_entry and the calls that submit, by those of a port with Data Storage of these names, by its
 * iol_store_block_begin and iol_store_block_submit, and by the openings and the closing of a device, on the thread of
 * that call: by no turn, and by no other call. */
#ifndef IOLINK_MEMORY_H
#define IOLINK_MEMORY_H

#include <stdbool.h>
#include <stddef.h>

#ifdef __cplusplus
extern "C" {
#endif

/* Whether there is a block, and where. Where there is none, `at` is any pointer but NULL, and the call that wanted it
 * answers 24. */
typedef struct { bool is_given; void *at; } iol_block;

/* A block of `octets` octets, whose address is a multiple of `align`, 1 to 16. `octets` may be 0: the block then has an
 * address, which comes back as any other. */
iol_block rattle_alloc(size_t octets, size_t align);

/* The block at `at`, made `octets` long. It may move; its first `kept` octets stay. Where there is no such block, the old
 * one stays as it is. */
iol_block rattle_realloc(void *at, size_t kept, size_t octets, size_t align);

/* The block comes back. */
void rattle_dealloc(void *at);

#ifdef __cplusplus
}
#endif
#endif

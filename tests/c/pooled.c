/* A port and a device over examples/c/pool.c: they ask no malloc, and want of a block is refused with 24. */
#include "iolink_device.h"
#include "iolink_memory.h"
#include "iolink_port.h"
#include <stdio.h>
#include <stdlib.h>

static int wrong;
#define IS(got, wanted) ((got) == (wanted) ? 0 : (wrong++, printf("line %d: %d\n", __LINE__, (int)(got))))

/* How many blocks the pool still has. */
static int left(void)
{
    void *given[64];
    iol_block block;
    int count = 0;
    while (block = rattle_alloc(1, 1), block.is_given)
        given[count++] = block.at;
    for (int at = 0; at < count; at++)
        rattle_dealloc(given[at]);
    return count;
}

int main(void)
{
    static const uint8_t page[10] = {0x17, 0x2D, 0x11, 0, 0, 0x12, 0x34, 0, 1, 7};
    static iol_device devices[32];
    iol_port port = {0};
    uint64_t ticket;
    const int all = left();
    int count = 0;
    IS(iol_port_open(&port, 4, 100, 4, 0), 0);
    IS(iol_port_read(&port, 16, 0, &ticket), 0);
    IS(left() < all, 1);
    while (iol_device_open(&devices[count], page) == 0)
        count++;
    IS(iol_device_open(&devices[count], page), 24);
    IS(left(), 0);
    while (count > 0)
        IS(iol_device_close(&devices[--count]), 0);
    IS(iol_port_close(&port), 0);
    IS(left(), all);
    return wrong;
}

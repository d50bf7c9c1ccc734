/* A million random messages to a device, and as many random replies to a port, with calls of calls.h before them and
 * behind. Nothing is asked of them: the program is to end, and the sanitizers are to stay silent. What is printed is compared
 * with noise.stdout. */
#include "calls.h"
#include "iolink_device.h"
#include <stdio.h>

static uint64_t state = 0x9E3779B97F4A7C15;

static uint32_t next(void)
{
    state ^= state << 13;
    state ^= state >> 7;
    state ^= state << 17;
    return (uint32_t)(state >> 32);
}

/* Octets with a checksum that fits in the octet of the given place, most of the time (IEC 61131-9, A.1.6). */
static size_t random_octets(uint8_t octets[80], size_t place)
{
    size_t count = next() % 4 ? next() % 12 : next() % 80, i;
    uint8_t sum = 0x52;
    for (i = 0; i < count; i++)
        octets[i] = (uint8_t)next();
    if (count == 0 || next() % 8 == 0)
        return count;
    if (place >= count)
        place = count - 1;
    octets[place] &= 0xC0;
    for (i = 0; i < count; i++)
        sum ^= octets[i];
    octets[place] |= (uint8_t)((((sum >> 7) ^ (sum >> 5) ^ (sum >> 3) ^ (sum >> 1)) & 1) << 5 |
                               (((sum >> 6) ^ (sum >> 4) ^ (sum >> 2) ^ sum) & 1) << 4 |
                               (((sum >> 7) ^ (sum >> 6)) & 1) << 3 | (((sum >> 5) ^ (sum >> 4)) & 1) << 2 |
                               (((sum >> 3) ^ (sum >> 2)) & 1) << 1 | (((sum >> 1) ^ sum) & 1));
    return count;
}

static const uint8_t page[10] = {0x17, 1, 0x11, 0x10, 8, 0x12, 0x34, 0, 1, 7};

static long heard(long count)
{
    iol_device device = {0};
    iol_reply reply;
    iol_request request;
    uint64_t number, last = 0;
    uint8_t octets[80];
    long replies = 0;
    if (iol_device_open(&device, page) != 0)
        return -1;
    while (count-- > 0) {
        size_t length = random_octets(octets, 1);
        if (next() % 64 == 0)
            iol_device_wake(&device);
        if (next() % 1024 == 0)
            iol_device_raise(&device, octets[0], next() & 0xFFFF);
        iol_device_hear(&device, octets, length, &reply);
        replies += reply.length > 0;
        iol_device_handed(&device, &number, &request);
        if (iol_device_answer_refused(&device, last, 0x80, 0x11) != 37)
            return -1;
        if (request.kind) {
            if (number != last + 1 || iol_device_answer_refused(&device, number, 0x80, 0x11) != 0)
                return -1;
            last = number;
        }
    }
    return iol_device_close(&device) == 0 ? replies : -1;
}

/* A dozen calls at random; how many tickets were given. Restarts are rare, as else no start-up gets far. */
static long called(iol_port *port)
{
    static struct room room;
    long tickets = 0;
    int count = 12;
    while (count-- > 0) {
        struct given given = {16, room.ticket, {1, 2, 3}, next() % 4, next() & 0xFF, next() % 64 ? 0x1234 : 0x1235,
                              next() % 64 ? 0x000107 : next(), next() % 200000};
        enum call call = next() % CALLS;
        if (call == CALL_restart && next() % 16 != 0)
            continue;
        switch (call) {
#define PORT port
#define P(pointer) (pointer)
#define MAKE(name, end, arguments) case CALL_##name: iol_port_##name arguments; break;
        EACH_CALL(MAKE)
        default: break;
        }
        tickets += room.ticket > given.ticket;
    }
    return tickets;
}

static long turned(long count)
{
    iol_port port = {0};
    iol_message asked;
    uint8_t octets[80];
    long tickets = 0;
    if (iol_port_open(&port, 32, 20, 64, 0) != 0)
        return -1;
    while (count-- > 0) {
        if (iol_port_asks(&port, &asked) != 0)
            return -1;
        if (next() % 2)
            tickets += called(&port);
        if (asked.length == 0)
            iol_port_turn_woken(&port, 2);
        else {
            size_t length = random_octets(octets, 79);
            iol_port_turn_answered(&port, octets, length);
        }
        if (next() % 2)
            tickets += called(&port);
    }
    return iol_port_close(&port) == 0 ? tickets : -1;
}

int main(void)
{
    printf("%s\n", heard(1000000) > 0 ? "the device heard them" : "the device was silent");
    printf("%s\n", turned(1000000) > 0 ? "the port took them" : "the port gave no ticket");
    return 0;
}

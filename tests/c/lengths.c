/* How long a message is, by its first octets; checksums; cycle times; and numbers of requests that go on. A port for any
 * device and a device talk over a line of this program. What is printed is compared with lengths.stdout. */
#include "iolink_port.h"
#include "iolink_device.h"
#include <stdio.h>
#include <string.h>

static iol_port port;
static iol_device device;
static int wrong;
static int asked_again; /* messages that needed a second question behind their first octet */

static void is(long long got, long long wanted, const char *what, int line)
{
    if (got == wanted)
        return;
    wrong++;
    printf("line %d: %s is %lld, not %lld\n", line, what, got, wanted);
}
#define IS(got, wanted) is((long long)(got), (wanted), #got, __LINE__)

static const uint8_t plain[10] = {0x17, 0x2D, 0x11, 0, 0, 0x12, 0x34, 0, 1, 7};
static const uint8_t process[10] = {0x17, 1, 0x11, 0x10, 8, 0x12, 0x34, 0, 1, 7};
static const uint8_t largest[10] = {0x17, 0x0D, 0x11, 0x9F, 0x9F, 0x12, 0x34, 0, 1, 7};
static const uint8_t shrinking[10] = {0x17, 0x21, 0x11, 0x10, 8, 0x12, 0x34, 0, 1, 7};

static int expected(const uint8_t *octets, size_t count)
{
    uint8_t length = 99;
    IS(iol_device_expects(&device, octets, count, &length), 0);
    return length;
}

/* As a driver reads a message of `count` octets that comes octet by octet: it never wants an octet more. */
static void arrives(const uint8_t *octets, size_t count)
{
    size_t have = 0, want;
    int questions = 0;
    while ((want = (size_t)expected(octets, have)) > have) {
        IS(want <= count, 1);
        have = want;
        questions++;
    }
    IS(have, count);
    if (questions > 2)
        asked_again++;
}

/* The checksum stands in the second octet of a message, and in the last of a reply. */
static void checked(const uint8_t *octets, size_t count, size_t place)
{
    uint8_t copy[66];
    memcpy(copy, octets, count);
    copy[place] &= 0xC0;
    IS(iol_port_checksum(copy, count), octets[place] & 63);
    IS(iol_device_checksum(copy, count), octets[place] & 63);
}

static void turn(void)
{
    iol_message asked;
    iol_reply reply;
    IS(iol_port_asks(&port, &asked), 0);
    if (asked.length == 0) {
        IS(iol_device_wake(&device), 0);
        IS(iol_port_turn_woken(&port, 2), 0);
        return;
    }
    arrives(asked.octets, asked.length);
    checked(asked.octets, asked.length, 1);
    IS(iol_device_hear(&device, asked.octets, asked.length, &reply), 0);
    IS(reply.length, asked.reply);
    checked(reply.octets, reply.length, reply.length - 1u);
    /* What came is a message still, or a repeat of the command that waits. */
    arrives(asked.octets, asked.length);
    IS(iol_port_turn_answered(&port, reply.octets, reply.length), 0);
}

static void session(const uint8_t page[10])
{
    iol_status status;
    uint64_t ticket;
    int i;
    asked_again = 0;
    IS(iol_device_open(&device, page), 0);
    IS(iol_port_open(&port, 1000, 100, 8, 0), 0);
    IS(expected(page, 0), 0);
    IS(expected(page, 4), 0);
    for (i = 0; i < 40; i++) {
        if (i == 20)
            IS(iol_port_write(&port, 24, 0, page, 10, &ticket), 0);
        turn();
    }
    IS(iol_port_status(&port, &status), 0);
    IS(status.mode, 4);
    IS(expected(page, 0), 1);
    printf("in operate: a read %d, a write %d; asked again %d\n", expected((const uint8_t *)"\x80", 1),
           expected((const uint8_t *)"\x60", 1), asked_again);
    IS(iol_port_close(&port), 0);
    IS(iol_device_close(&device), 0);
}

/* In STARTUP the device hears DeviceOperate; then its repeat or a message of OPERATE may come. */
static void behind_a_command(const uint8_t page[10])
{
    uint8_t octets[66] = {0x20, 0, 0x99};
    iol_reply reply;
    size_t count;
    IS(iol_device_open(&device, page), 0);
    IS(iol_device_wake(&device), 0);
    octets[1] = iol_device_checksum(octets, 3);
    IS(iol_device_hear(&device, octets, 3, &reply), 0);
    printf("behind DeviceOperate");
    for (count = 0; count <= 3; count++)
        printf(" %d", expected(octets, count));
    octets[2] = 0x98;
    printf(", another write %d %d %d, a read %d\n", expected(octets, 1), expected(octets, 2), expected(octets, 3),
           expected((const uint8_t *)"\xF1", 1));
    IS(iol_device_close(&device), 0);
}

static void cycle_times(void)
{
    uint32_t micros = 5;
    int octet;
    long long sum = 0;
    for (octet = 0; octet < 256; octet++) {
        uint32_t other = 5;
        uint8_t refusal = iol_port_cycle_micros((uint8_t)octet, &micros);
        IS(iol_device_cycle_micros((uint8_t)octet, &other), refusal);
        IS(refusal, octet < 192 ? 0 : 39);
        if (refusal == 0) {
            IS(other, micros);
            sum += micros;
        } else
            IS(other, 5);
    }
    /* Sums of 0 to 6.3 ms, 6.4 to 31.6 ms and 32 to 132.8 ms. */
    IS(sum, 64 * 6300 / 2 + 64 * (6400 + 31600) / 2 + 64 * (32000 + 132800) / 2);
    IS(iol_port_cycle_micros(0x17, &micros), 0);
    IS(micros, 2300);
}

/* Hands a request over: a START write of a read of parameter 16, whole, and a START read. */
static uint64_t hands_over(void)
{
    uint8_t octets[3][3] = {{0x70, 0, 0x93}, {0x61, 0, 0x10}, {0x62, 0, 0x83}};
    uint8_t read[2] = {0xF0, 0};
    iol_request request;
    iol_reply reply;
    uint64_t number = 0;
    int i;
    for (i = 0; i < 3; i++) {
        octets[i][1] = iol_device_checksum(octets[i], 3);
        IS(iol_device_hear(&device, octets[i], 3, &reply), 0);
        IS(reply.length, 1);
    }
    read[1] = iol_device_checksum(read, 2);
    IS(iol_device_hear(&device, read, 2, &reply), 0);
    IS(iol_device_handed(&device, &number, &request), 0);
    IS(request.kind, 1);
    IS(request.index, 16);
    return number;
}

static void numbers_go_on(void)
{
    const uint64_t last = UINT64_MAX;
    IS(iol_device_open_from(&device, plain, 41), 0);
    IS(iol_device_open_from(&device, plain, 41), IOL_IS_OPEN);
    IS(iol_device_wake(&device), 0);
    IS(hands_over(), 42);
    IS(iol_device_answer_read(&device, 41, plain, 10), 37);
    IS(iol_device_answer_read(&device, 42, plain, 10), 0);
    IS(iol_device_close(&device), 0);
    IS(iol_device_open_from(&device, plain, last), 0);
    IS(iol_device_wake(&device), 0);
    IS(hands_over(), 0);
    IS(hands_over(), 1);
    IS(iol_device_close(&device), 0);
    IS(iol_device_open(&device, plain), 0);
    IS(iol_device_wake(&device), 0);
    IS(hands_over(), 1);
    IS(iol_device_close(&device), 0);
}

int main(void)
{
    session(plain);
    session(process);
    session(largest);
    session(shrinking);
    behind_a_command(plain);
    behind_a_command(process);
    behind_a_command(largest);
    cycle_times();
    numbers_go_on();
    IS(iol_port_checksum((const uint8_t *)"\xA2\x00", 2), 0);
    IS(iol_port_checksum(plain, 0), iol_device_checksum(NULL, 0));
    printf("wrong %d\n", wrong);
    return wrong != 0;
}

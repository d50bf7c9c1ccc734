/* A device over a serial line:
 *
 *     device LINE [SLACK [RATE [DEVICEID]]]
 *
 * SLACK is that of its master, RATE 1 to 3 for COM1 to COM3, DEVICEID up to FFFFFF. Its parameters: 16 reads as its
 * name, 24 holds an octet, and above 100 an event comes; 25 counts its writes. Its process data in counts its replies. It
 * prints its mode and its output, where they change. */
#include "iolink_device.h"
#include "line.h"
#include <signal.h>
#include <stdio.h>
#include <stdlib.h>
#include <string.h>

enum { MESSAGE_MOST = 66, READ = 1, INDEX_NAME = 16, INDEX_SETTING = 24, INDEX_COUNT = 25, LIMIT = 100 };

/* A warning of the application that appears: the process variable is above its range. */
enum { WARNING_APPEARS = 0xE4, RANGE_OVERRUN = 0x8C10 };

/* MinCycleTime 0.4 ms; ISDU, and 8 octets of on-request data; revision 1.1; 2 octets in, 1 out; VendorID 0x1234. */
static uint8_t page[10] = {0x04, 0x2D, 0x11, 0x50, 0x08, 0x12, 0x34, 0x00, 0x01, 0x07};

static iol_device device;
static line wire;
static volatile sig_atomic_t is_ended;
static uint8_t setting;
static uint16_t replies, writes;

static void end(int number)
{
    (void)number;
    is_ended = 1;
}

/* A parameter that doesn't exist is refused with 80 11, a length that doesn't fit with 80 33. */
static void write_parameter(uint64_t number, const iol_request *asked)
{
    if (asked->index != INDEX_SETTING && asked->index != INDEX_COUNT)
        iol_device_answer_refused(&device, number, 0x80, 0x11);
    else if (asked->length != 1)
        iol_device_answer_refused(&device, number, 0x80, 0x33);
    else if (iol_device_answer_written(&device, number) == 0) {
        writes += asked->index == INDEX_COUNT;
        setting = asked->index == INDEX_SETTING ? asked->octets[0] : setting;
        if (asked->index == INDEX_SETTING && setting > LIMIT)
            iol_device_raise(&device, WARNING_APPEARS, RANGE_OVERRUN);
    }
}

static void read_parameter(uint64_t number, const iol_request *asked)
{
    const uint8_t count[2] = {(uint8_t)(writes >> 8), (uint8_t)writes};
    if (asked->index == INDEX_NAME)
        iol_device_answer_read(&device, number, (const uint8_t *)"thermometer", 11);
    else if (asked->index == INDEX_SETTING)
        iol_device_answer_read(&device, number, &setting, 1);
    else if (asked->index == INDEX_COUNT)
        iol_device_answer_read(&device, number, count, 2);
    else
        iol_device_answer_refused(&device, number, 0x80, 0x11);
}

/* Carries out the request that is handed over, if any. */
static void work(void)
{
    uint64_t number;
    iol_request asked;
    iol_device_handed(&device, &number, &asked);
    if (asked.kind == READ)
        read_parameter(number, &asked);
    else if (asked.kind != 0)
        write_parameter(number, &asked);
}

/* What is said of the device, where it has changed. */
static void tell(void)
{
    static iol_image last;
    static uint8_t last_mode;
    iol_image output;
    uint8_t mode;
    iol_device_mode(&device, &mode);
    iol_device_output(&device, &output);
    if (mode != last_mode)
        printf("mode %d\n", mode);
    if (output.length != last.length || (output.length > 0 && output.octets[0] != last.octets[0])) {
        if (output.length > 0)
            printf("output %02X\n", output.octets[0]);
        else
            puts("output none");
    }
    last = output;
    last_mode = mode;
}

/* A message came whole: the reply goes out first, then there is time for all else. */
static void hear(const uint8_t *octets, size_t count)
{
    const uint8_t input[2] = {(uint8_t)(replies >> 8), (uint8_t)replies};
    iol_reply reply;
    iol_device_hear(&device, octets, count, &reply);
    if (reply.length > 0) {
        line_send(&wire, reply.octets, reply.length);
        iol_device_set_input(&device, input, sizeof input);
        replies++;
    }
    work();
}

/* Takes an octet of the line: a wake-up request, or a part of a message, which ends where nothing comes for a while. */
static void take(uint8_t octet)
{
    static uint8_t begun[MESSAGE_MOST];
    static size_t count;
    static uint64_t last;
    uint64_t time = now();
    uint8_t length;
    if (time - last > wire.slack / 2)
        count = 0;
    last = time;
    if (count == 0 && is_wake_up_pulse(octet)) {
        iol_device_wake(&device);
        return;
    }
    begun[count++] = octet;
    iol_device_expects(&device, begun, count, &length);
    if (count >= length) {
        hear(begun, count);
        count = 0;
    }
}

/* For how long no message may come until the master counts as gone: some cycles, with the repeats of a lost one. */
static uint64_t patience(void)
{
    uint8_t octet;
    uint32_t cycle = 0;
    iol_device_cycle_time(&device, &octet);
    iol_device_cycle_micros(octet, &cycle);
    return 20 * (uint64_t)cycle + 10 * wire.slack;
}

int main(int count, char **words)
{
    unsigned long number = count > 4 ? strtoul(words[4], NULL, 16) : 0x000107;
    uint64_t heard = now();
    uint8_t refused;
    setvbuf(stdout, NULL, _IOLBF, 0);
    signal(SIGTERM, end);
    for (int at = 9; at >= 7; at--, number >>= 8)
        page[at] = (uint8_t)number;
    if (count < 2)
        return fputs("device LINE [SLACK [RATE [DEVICEID]]]\n", stderr), 2;
    if (!line_open(&wire, words[1], count > 2 ? strtoull(words[2], NULL, 10) : 20000)
        || !line_set_rate(&wire, count > 3 ? atoi(words[3]) : COM2))
        return perror(words[1]), 1;
    refused = iol_device_open(&device, page);
    if (refused != 0)
        return fprintf(stderr, "refused %d\n", refused), 1;
    while (!is_ended) {
        uint8_t came[MESSAGE_MOST];
        size_t length = line_receive(&wire, came, sizeof came, now() + wire.slack);
        for (size_t at = 0; at < length; at++)
            take(came[at]);
        if (length > 0)
            heard = now();
        else if (now() - heard > patience())
            iol_device_silence(&device);
        tell();
    }
    iol_device_close(&device);
    line_close(&wire);
    return 0;
}

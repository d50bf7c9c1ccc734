/* A master of one port over a serial line:
 *
 *     master LINE [SLACK]
 *
 * It makes one turn a cycle. What is read, written and so on comes from its input (client.h). SLACK, in microseconds, is
 * what the system may add to the longest time of a reply. */
#include "client.h"
#include "iolink_port.h"
#include "line.h"
#include <stdio.h>
#include <stdlib.h>

enum { DOWN = 1, OPERATE = 4, REPLY_MOST = 66 };

/* The pause between two wake-up requests, and the time until a device that was woken hears, in microseconds. */
enum { DOWN_PAUSE = 50000, DEVICE_IS_READY = 500 };

static iol_port port;
static line wire;

/* Sends a message, and waits for its reply as long as that can take (IEC 61131-9, A.3): the octets of the master, 11
 * bits with a bit between two; 10 bits until the device begins; its octets, with 3 bits between two. A short reply is
 * waited out as well, so that none comes in the time of the next message. */
static size_t exchange(const uint8_t *octets, size_t count, size_t reply, uint8_t *came)
{
    size_t length = 0, more;
    uint64_t deadline;
    line_drain(&wire);
    line_send(&wire, octets, count);
    deadline = now() + line_bits(&wire, 12 * count + 10 + 14 * reply) + wire.slack;
    while (length < reply && (more = line_receive(&wire, came + length, REPLY_MOST - length, deadline)) > 0)
        length += more;
    return length;
}

/* Wakes the device, and finds its rate by a test read, which changes nothing there: COM3 first, as the standard wants.
 * The port is for any device, so it makes the device leave its mode itself (DeviceStartup). */
static int wake(void)
{
    const uint8_t test_read[2] = {0xA2, 0x00};
    uint8_t came[REPLY_MOST];
    int rate;
    line_drain(&wire);
    wake_up_pulse(&wire);
    wait_until(now() + DEVICE_IS_READY);
    for (rate = COM3; rate >= COM1; rate--) {
        line_set_rate(&wire, rate);
        if (exchange(test_read, sizeof test_read, 2, came) == 2)
            return rate;
    }
    return 0;
}

/* One turn: what the port asks for goes out, and what came back goes to the port. */
static void turn(void)
{
    iol_message sent;
    uint8_t came[REPLY_MOST];
    iol_port_asks(&port, &sent);
    if (sent.length == 0)
        iol_port_turn_woken(&port, (uint8_t)wake());
    else
        iol_port_turn_answered(&port, came, exchange(sent.octets, sent.length, sent.reply, came));
}

/* How long a cycle is: in OPERATE the device's MinCycleTime, before that 100 bits; in down a pause between wake-ups. */
static uint64_t cycle(uint8_t mode)
{
    iol_page page;
    uint32_t least = 0;
    iol_port_page(&port, &page);
    if (mode == OPERATE)
        iol_port_cycle_micros(page.octets[0], &least);
    return mode == DOWN ? DOWN_PAUSE : mode == OPERATE ? least : line_bits(&wire, 100);
}

int main(int count, char **words)
{
    uint64_t next = now();
    setvbuf(stdout, NULL, _IOLBF, 0);
    if (count < 2)
        return fputs("master LINE [SLACK]\n", stderr), 2;
    if (!line_open(&wire, words[1], count > 2 ? strtoull(words[2], NULL, 10) : 20000))
        return perror(words[1]), 1;
    if (iol_port_open(&port, 1000, 100, CLIENT_TICKETS, 0) != 0)
        return fputs("no memory\n", stderr), 1;
    do {
        wait_until(next);
        turn();
        next += cycle(client_tell(&port, wire.rate));
        if (next < now())
            next = now(); /* a turn took longer: the cycles that it took aren't made up for */
    } while (client_goes_on(&port));
    iol_port_close(&port);
    line_close(&wire);
    return 0;
}

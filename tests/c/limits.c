/* Openings and calls at their limits, where memory is not lacking: none may answer 24. A library is refused that has no
 * memory, or no port, from a size on, or that takes one port's answer for another's. tests/c/check_c also runs this program
 * below an allocator that refuses what is large and counts what is given back. What is printed is compared with
 * limits.stdout. */
#include "iolink_port.h"
#include "iolink_device.h"
#include <stdio.h>

enum { MOST = 32, WITHDRAWN = 22000, STARTED = 15, READ = 3 };

static int wrong;

static void is(unsigned long long got, unsigned long long wanted, const char *what, int line)
{
    if (got == wanted)
        return;
    wrong++;
    printf("line %d: %s is %llu, not %llu\n", line, what, got, wanted);
}
#define IS(got, wanted) is((unsigned long long)(got), (wanted), #got, __LINE__)

/* A port and a device, and the value of the one parameter that this has. */
typedef struct { iol_port port; iol_device device; uint8_t value[2]; } end;

static void answer(end *it)
{
    uint64_t number;
    iol_request asked;
    IS(iol_device_handed(&it->device, &number, &asked), 0);
    if (asked.kind == 1)
        IS(iol_device_answer_read(&it->device, number, it->value, 2), 0);
}

static void turn(end *it)
{
    iol_message asked;
    iol_reply reply;
    IS(iol_port_asks(&it->port, &asked), 0);
    if (asked.length == 0) {
        IS(iol_device_wake(&it->device), 0);
        IS(iol_port_turn_woken(&it->port, 2), 0);
        return;
    }
    answer(it);
    IS(iol_device_hear(&it->device, asked.octets, asked.length, &reply), 0);
    IS(iol_port_turn_answered(&it->port, reply.octets, reply.length), 0);
}

static const uint8_t page[10] = {0x17, 0x2D, 0x11, 0, 0, 0x12, 0x34, 0, 1, 7};

/* Opens a port with these limits, and enters a read, which has the next ticket if there is one. */
static void opening(uint32_t journal, uint16_t busy, uint64_t given)
{
    iol_port port = {0};
    uint64_t ticket = 5;
    IS(iol_port_open_for(&port, IOL_DEVICES_OWN, journal, busy, 64, given), 0);
    IS(iol_port_read(&port, 16, 0, &ticket), given == UINT64_MAX ? 23 : 0);
    IS(ticket, given == UINT64_MAX ? 0 : given + 1);
    IS(iol_port_close(&port), 0);
}

static void openings(void)
{
    static const uint32_t journals[] = {0, 4, 64, 65536, 1000000};
    static const uint16_t busies[] = {2, 255, 256, 65535};
    static const uint64_t givens[] = {0, UINT32_MAX, UINT64_C(1) << 32, UINT64_C(1) << 63, UINT64_MAX - 1, UINT64_MAX};
    size_t i, j, k;
    for (i = 0; i < sizeof journals / sizeof *journals; i++)
        for (j = 0; j < sizeof busies / sizeof *busies; j++)
            for (k = 0; k < sizeof givens / sizeof *givens; k++)
                opening(journals[i], busies[j], givens[k]);
    printf("openings\n");
}

/* So many ports at once, each over a device with a value of its own. */
static void at_once(int count)
{
    static end ends[MOST];
    uint64_t ticket = 0;
    iol_outcome outcome;
    int i, made;
    for (i = 0; i < count; i++) {
        ends[i].value[0] = 0x42;
        ends[i].value[1] = (uint8_t)i;
        IS(iol_port_open_for(&ends[i].port, IOL_DEVICES_OWN, 1000, 100, 64, (uint64_t)i), 0);
        IS(iol_device_open(&ends[i].device, page), 0);
        IS(iol_port_read(&ends[i].port, 16, 0, &ticket), 0);
        IS(ticket, (uint64_t)i + 1);
    }
    for (made = 0; made < STARTED + READ; made++)
        for (i = 0; i < count; i++)
            turn(&ends[i]);
    for (i = 0; i < count; i++) {
        IS(iol_port_collect(&ends[i].port, (uint64_t)i + 1, &outcome), 0);
        IS(outcome.kind, 1);
        IS(outcome.length, 2);
        IS(outcome.octets[0], 0x42);
        IS(outcome.octets[1], (uint64_t)i);
        IS(iol_port_close(&ends[i].port), 0);
        IS(iol_device_close(&ends[i].device), 0);
    }
    printf("%d ports\n", count);
}

static void is_entry(iol_port *port, uint64_t ticket, uint8_t kind)
{
    iol_entry entry;
    IS(iol_port_entry(port, &entry), 0);
    IS(entry.ticket, ticket);
    IS(entry.kind, kind);
}

/* Many requests are withdrawn and collected, and all that was done stands in the journal. */
static void withdrawn(void)
{
    iol_port port = {0};
    iol_outcome outcome;
    uint64_t number, ticket = 0;
    uint32_t count = 0;
    IS(iol_port_open_for(&port, IOL_DEVICES_OWN, 1000000, 100, 64, 0), 0);
    for (number = 1; number <= WITHDRAWN; number++) {
        IS(iol_port_write(&port, 16, 0, (const uint8_t *)"A", 1, &ticket), 0);
        IS(ticket, number);
        IS(iol_port_withdraw(&port, ticket), 0);
        IS(iol_port_collect(&port, ticket, &outcome), 0);
        IS(outcome.kind, 12);
    }
    IS(iol_port_archive(&port, &count), 0);
    IS(count, 3 * WITHDRAWN);
    for (number = 1; number <= WITHDRAWN; number++) {
        is_entry(&port, number, 1);
        is_entry(&port, number, 12);
        is_entry(&port, number, 16);
    }
    is_entry(&port, 0, 0);
    IS(iol_port_close(&port), 0);
    printf("%u entries\n", (unsigned)count);
}

/* A journal that is full with nothing outstanding stays so until it is handed out, whole. */
static void full_journal(void)
{
    iol_port port = {0};
    iol_outcome outcome;
    uint64_t number, ticket = 0;
    uint32_t count = 0;
    IS(iol_port_open_for(&port, IOL_DEVICES_OWN, 8, 100, 64, 0), 0);
    for (number = 1; number <= 2; number++) {
        IS(iol_port_read(&port, 16, 0, &ticket), 0);
        IS(iol_port_withdraw(&port, ticket), 0);
        IS(iol_port_collect(&port, ticket, &outcome), 0);
    }
    IS(iol_port_read(&port, 16, 0, &ticket), 22);
    IS(iol_port_read_urgent(&port, 16, 0, &ticket), 22);
    IS(ticket, 0);
    IS(iol_port_archive(&port, &count), 0);
    IS(count, 6);
    IS(iol_port_read(&port, 16, 0, &ticket), 0);
    IS(ticket, 3);
    IS(iol_port_close(&port), 0);
    printf("a full journal\n");
}

/* A port with a small journal is never refused where it is drained: one ticket stays outstanding all the time, and its
 * one entry is what each drain leaves. */
static void drained(void)
{
    iol_port port = {0};
    iol_outcome outcome;
    uint64_t number, first = 0, ticket = 0;
    uint32_t count = 0, restated = 0, all = 0;
    IS(iol_port_open_for(&port, IOL_DEVICES_OWN, 12, 100, 64, 0), 0);
    IS(iol_port_read(&port, 16, 0, &first), 0);
    for (number = 1; number <= WITHDRAWN; number++) {
        IS(iol_port_read(&port, 16, 0, &ticket), 0);
        IS(iol_port_withdraw(&port, ticket), 0);
        IS(iol_port_collect(&port, ticket, &outcome), 0);
        IS(iol_port_archive(&port, &count), 28);
        IS(iol_port_drain(&port, &count, &restated), 0);
        IS(count, 4);
        IS(restated, number == 1 ? 0 : 1);
        is_entry(&port, first, 1);
        is_entry(&port, ticket, 1);
        is_entry(&port, ticket, 12);
        is_entry(&port, ticket, 16);
        is_entry(&port, 0, 0);
        all += count - restated;
    }
    IS(all, 3 * WITHDRAWN + 1);
    IS(iol_port_close(&port), 0);
    printf("%u entries drained\n", (unsigned)all);
}

/* Without a journal none is ever full, and none is handed out. One ticket stays outstanding all the time, and ends as it
 * has to. */
static void no_journal(void)
{
    iol_port port = {0};
    iol_outcome outcome;
    uint64_t number, first = 0, ticket = 0;
    uint32_t count = 5, restated = 5;
    IS(iol_port_open_for(&port, IOL_DEVICES_OWN, 0, 100, 64, 0), 0);
    IS(iol_port_write(&port, 16, 0, (const uint8_t *)"A", 1, &first), 0);
    for (number = 1; number <= WITHDRAWN; number++) {
        IS(iol_port_read(&port, 16, 0, &ticket), 0);
        IS(ticket, first + number);
        IS(iol_port_withdraw(&port, ticket), 0);
        IS(iol_port_collect(&port, ticket, &outcome), 0);
        IS(outcome.kind, 12);
        IS(iol_port_collect(&port, ticket, &outcome), 25);
        IS(iol_port_collect(&port, first, &outcome), 26);
    }
    IS(iol_port_drain(&port, &count, &restated), 63);
    IS(count, 0);
    IS(restated, 0);
    is_entry(&port, 0, 0);
    IS(iol_port_withdraw(&port, first), 0);
    IS(iol_port_collect(&port, first, &outcome), 0);
    IS(outcome.kind, 12);
    count = 5;
    IS(iol_port_archive(&port, &count), 63);
    IS(count, 0);
    IS(iol_port_close(&port), 0);
    printf("no journal\n");
}

/* Of so many tickets one more is refused, urgent or not, until one of them is collected. */
static void full_queue(uint8_t queue)
{
    iol_port port = {0};
    iol_outcome outcome;
    uint64_t number, ticket = 0;
    IS(iol_port_open_for(&port, IOL_DEVICES_OWN, 1000, 100, queue, 0), 0);
    for (number = 1; number <= queue; number++) {
        if (number % 2 == 0)
            IS(iol_port_read_urgent(&port, 16, 0, &ticket), 0);
        else
            IS(iol_port_read(&port, 16, 0, &ticket), 0);
        IS(ticket, number);
    }
    IS(iol_port_read(&port, 16, 0, &ticket), 21);
    IS(iol_port_write_urgent(&port, 16, 0, (const uint8_t *)"A", 1, &ticket), 21);
    IS(ticket, 0);
    IS(iol_port_withdraw(&port, queue), 0);
    IS(iol_port_read(&port, 16, 0, &ticket), 21);
    IS(iol_port_collect(&port, queue, &outcome), 0);
    IS(iol_port_read(&port, 16, 0, &ticket), 0);
    IS(ticket, (uint64_t)queue + 1);
    IS(iol_port_read(&port, 16, 0, &ticket), 21);
    IS(iol_port_close(&port), 0);
    printf("a queue of %u\n", (unsigned)queue);
}

int main(void)
{
    static const int counts[] = {1, 8, 9, 16, 17, 31, 32};
    size_t i;
    openings();
    for (i = 0; i < sizeof counts / sizeof *counts; i++)
        at_once(counts[i]);
    withdrawn();
    full_journal();
    drained();
    no_journal();
    full_queue(1);
    full_queue(2);
    full_queue(64);
    printf("wrong %d\n", wrong);
    return wrong != 0;
}

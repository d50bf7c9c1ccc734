/* What a port counts, against what this program counts by itself: a port against a device, both through C, over a line
 * of this program that loses and spoils replies. The calls, their times and what becomes of a reply are random. This
 * program judges what it brings by its octets alone, and requests by their outcomes; after each call the counts are to
 * be the same. What is printed is compared with counters.stdout. */
#include "iolink_port.h"
#include "iolink_device.h"
#include <stdio.h>
#include <string.h>

enum { STEPS = 200000, JOURNAL = 40, BUSY = 4, MOST = 8, ROOM = 67, COUNTERS = 14, ATTEMPTS = 3 };

/* Causes of an outcome that is unknown. */
enum { LINK_LOST = 1, RESTARTED, BUSY_TOO_LONG, PROTOCOL, CANCELLED };

_Static_assert(sizeof(iol_counters) == COUNTERS * sizeof(uint64_t), "a counter more or less");

/* Octets that the line brings; none where no reply came. */
struct came { size_t count; uint8_t octets[ROOM]; };

static const uint8_t page[10] = {0x17, 0x2D, 0x11, 0, 0, 0x12, 0x34, 0, 1, 7};

static const char *const names[COUNTERS] = {
    "exchanges", "good_replies", "repeats", "no_reply", "wrong_length", "wrong_checksum", "links_lost", "start_ups",
    "done", "unknown_link_lost", "unknown_restarted", "unknown_busy_too_long", "unknown_protocol", "unknown_cancelled",
};

static uint64_t state = 0x9E3779B97F4A7C15;
static iol_port port;
static iol_device device;
static iol_counters own;       /* what is counted here */
static iol_message out;        /* what went out last */
static int attempts;           /* so many in a row at the message brought no good reply */
static uint64_t tickets[MOST]; /* those outstanding; 0 is none */
static int wrong;

static void is(long long got, long long wanted, const char *what, int line)
{
    if (got == wanted)
        return;
    wrong++;
    printf("line %d: %s is %lld, not %lld\n", line, what, got, wanted);
}
#define IS(got, wanted) is((long long)(got), (wanted), #got, __LINE__)

static uint32_t next(void)
{
    state ^= state << 13;
    state ^= state >> 7;
    state ^= state << 17;
    return (uint32_t)(state >> 32);
}

/* Whether something happens that does once in so many times. */
static bool once_in(uint32_t times)
{
    return next() % times == 0;
}

/* The checksum of a reply, whose own six bits stand in its last octet (IEC 61131-9, A.1.6). */
static uint8_t checksum(const struct came *came)
{
    uint8_t sum = 0x52;
    size_t i;
    for (i = 0; i + 1 < came->count; i++)
        sum ^= came->octets[i];
    sum ^= came->octets[i] & 0xC0;
    return (uint8_t)((((sum >> 7) ^ (sum >> 5) ^ (sum >> 3) ^ (sum >> 1)) & 1) << 5 |
                     (((sum >> 6) ^ (sum >> 4) ^ (sum >> 2) ^ sum) & 1) << 4 | (((sum >> 7) ^ (sum >> 6)) & 1) << 3 |
                     (((sum >> 5) ^ (sum >> 4)) & 1) << 2 | (((sum >> 3) ^ (sum >> 2)) & 1) << 1 |
                     (((sum >> 1) ^ sum) & 1));
}

/* Random octets with a right checksum: a good reply that the device never gave. */
static void forge(struct came *came)
{
    uint8_t *last = &came->octets[came->count - 1];
    size_t i;
    for (i = 0; i < came->count; i++)
        came->octets[i] = (uint8_t)next();
    *last = (uint8_t)((*last & 0xC0) | checksum(came));
}

/* What the line does to a reply, which it mostly leaves alone. */
static void spoil(struct came *came)
{
    if (came->count == 0)
        return;
    switch (next() % 32) {
    case 0:
    case 1:
    case 2: came->count = 0; break;
    case 3: came->count--; break;
    case 4: came->octets[came->count++] = (uint8_t)next(); break;
    case 5:
    case 6: came->octets[next() % came->count] ^= (uint8_t)(1 << next() % 8); break;
    case 7: forge(came); break;
    default: break;
    }
}

/* Counts an exchange by what the line brought. */
static void count_exchange(const struct came *came)
{
    own.exchanges++;
    own.repeats += attempts > 0;
    if (came->count == 0)
        own.no_reply++;
    else if (came->count != out.reply)
        own.wrong_length++;
    else if ((came->octets[came->count - 1] & 0x3F) != checksum(came))
        own.wrong_checksum++;
    else {
        own.good_replies++;
        attempts = 0;
        return;
    }
    if (++attempts < ATTEMPTS)
        return;
    own.links_lost++;
    attempts = 0;
}

/* Counts a request by its outcome. */
static void count_outcome(const iol_outcome *outcome)
{
    if (outcome->kind >= 1 && outcome->kind <= 3)
        own.done++;
    if (outcome->kind != 8)
        return;
    switch (outcome->cause) {
    case LINK_LOST: own.unknown_link_lost++; break;
    case RESTARTED: own.unknown_restarted++; break;
    case BUSY_TOO_LONG: own.unknown_busy_too_long++; break;
    case PROTOCOL: own.unknown_protocol++; break;
    case CANCELLED: own.unknown_cancelled++; break;
    default: IS(outcome->cause, LINK_LOST);
    }
}

/* Collects each outcome that is there. */
static void collect(void)
{
    iol_outcome outcome;
    int i;
    for (i = 0; i < MOST; i++) {
        if (tickets[i] == 0 || iol_port_collect(&port, tickets[i], &outcome) != 0)
            continue;
        count_outcome(&outcome);
        tickets[i] = 0;
    }
}

/* The port has counted what is counted here. */
static void compare(int line)
{
    uint64_t got[COUNTERS], wanted[COUNTERS];
    iol_counters counters;
    int i;
    collect();
    memset(&counters, 0xEE, sizeof counters);
    IS(iol_port_counters(&port, &counters), 0);
    memcpy(got, &counters, sizeof counters);
    memcpy(wanted, &own, sizeof own);
    for (i = 0; i < COUNTERS; i++)
        is((long long)got[i], (long long)wanted[i], names[i], line);
}
#define COMPARE() compare(__LINE__)

static void submit(void)
{
    uint64_t *ticket = &tickets[next() % MOST];
    const uint8_t octets[20] = {1, 2, 3};
    if (*ticket != 0)
        return;
    switch (next() % 4) {
    case 0: iol_port_read(&port, 16, 0, ticket); break;
    case 1: iol_port_read_urgent(&port, 16, 0, ticket); break;
    case 2: iol_port_write(&port, 24, 0, octets, next() % 20, ticket); break;
    default: iol_port_write_urgent(&port, 24, 0, octets, next() % 20, ticket);
    }
}

/* The calls that may come at any time, and a restart, which is refused where something is out. */
static void call(void)
{
    uint64_t ticket = tickets[next() % MOST];
    iol_event event;
    uint32_t entries;
    switch (next() % 16) {
    case 0: iol_port_withdraw(&port, ticket); break;
    case 1: iol_port_cancel(&port, ticket); break;
    case 2: iol_port_take_event(&port, &event); break;
    case 3: iol_port_archive(&port, &entries); break;
    case 4: IS(iol_port_asks(&port, &out), 0); break;
    case 5:
        if (once_in(16) && iol_port_restart(&port) == 0)
            attempts = 0;
        break;
    default: submit();
    }
    COMPARE();
}

static void calls(void)
{
    while (once_in(2))
        call();
}

/* The application answers a request at once, or leaves it for some time. */
static void work(void)
{
    uint64_t number;
    iol_request asked;
    IS(iol_device_handed(&device, &number, &asked), 0);
    if (asked.kind == 0 || once_in(2))
        return;
    if (asked.kind == 1)
        IS(iol_device_answer_read(&device, number, (const uint8_t *)"AB", 2), 0);
    else if (once_in(4))
        IS(iol_device_answer_refused(&device, number, 0x80, 0x11), 0);
    else
        IS(iol_device_answer_written(&device, number), 0);
}

/* A wake, which counts where a device answers. */
static void answer_wake(void)
{
    uint8_t rate = (uint8_t)(next() % 4);
    IS(iol_device_wake(&device), 0);
    IS(iol_port_turn_woken(&port, rate), 0);
    own.start_ups += rate > 0;
}

static void answer_message(void)
{
    struct came came = {0};
    iol_reply reply;
    IS(iol_device_hear(&device, out.octets, once_in(64) ? 1 : out.length, &reply), 0);
    came.count = reply.length;
    memcpy(came.octets, reply.octets, reply.length);
    spoil(&came);
    IS(iol_port_turn_answered(&port, came.octets, came.count), 0);
    count_exchange(&came);
}

static void step(void)
{
    calls();
    IS(iol_port_asks(&port, &out), 0);
    COMPARE();
    calls();
    work();
    if (out.length == 0)
        answer_wake();
    else
        answer_message();
    COMPARE();
}

/* Whether each counter has counted. */
static void tell(void)
{
    uint64_t counted[COUNTERS];
    int i;
    memcpy(counted, &own, sizeof own);
    for (i = 0; i < COUNTERS; i++)
        printf("%s %s\n", names[i], counted[i] > 0 ? "counted" : "never counted");
}

int main(void)
{
    int count = STEPS;
    IS(iol_device_open(&device, page), 0);
    IS(iol_port_open(&port, JOURNAL, BUSY, 64, 0), 0);
    COMPARE();
    while (count-- > 0 && wrong == 0)
        step();
    IS(iol_port_close(&port), 0);
    IS(iol_device_close(&device), 0);
    tell();
    printf("wrong %d\n", wrong);
    return wrong != 0;
}

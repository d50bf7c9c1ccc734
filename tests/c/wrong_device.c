/* A port that expects one of two devices, which differ in their DeviceID alone. Two writes wait while the other device
 * is plugged in, after so many turns. It carries nothing out, and once awake it is sent nothing but reads. Once the
 * expected one is plugged in again, it carries out what still waits, once. For each number of turns there is a line:
 * how each write ended, what each device carried out, whether the link was lost, and how often it went down for the
 * wrong device. What is printed is compared with wrong_device.stdout. */
#include "iolink_port.h"
#include "iolink_device.h"
#include <stdio.h>
#include <string.h>

enum { FIRST, SECOND, DEVICES };

/* Bit 7 of a message's first octet: it reads (IEC 61131-9, A.1.2). */
enum { READS = 0x80 };

enum { VENDOR = 0x1234, DEVICE = 0x000107, INDEX = 24, WRITES = 2, ROOM = 32 };

/* So many turns lead to OPERATE, and a further one to the end of what is tried; so many read a page, after a wake. */
enum { STARTED = 15, SWAPS = 24, PAGE_READ = 11, ENOUGH = 66 };

enum { LOST = 19, WRONG_DEVICE = 38 };

/* A device, whether it was woken since it was plugged in, and the octets that were written to it. */
struct end { iol_device device; bool awake; char written[ROOM]; };

static const uint8_t pages[DEVICES][10] = {
    {0x17, 0x2D, 0x11, 0, 0, 0x12, 0x34, 0, 1, 7},
    {0x17, 0x2D, 0x11, 0, 0, 0x12, 0x34, 0, 1, 8},
};

static iol_port port;
static struct end ends[DEVICES];
static struct end *there; /* the device that is plugged in */
static bool expects;      /* the port expects the first one */
static uint64_t tickets[WRITES];
static int downs; /* how often the link went down for the wrong device */
static bool lost; /* it went down for a loss */
static iol_loss ended_for; /* why the last session ended, as the statuses told it */
static int wrong;

static void is(long long got, long long wanted, const char *what, int line)
{
    if (got == wanted)
        return;
    wrong++;
    printf("line %d: %s is %lld, not %lld\n", line, what, got, wanted);
}
#define IS(got, wanted) is((long long)(got), (wanted), #got, __LINE__)

/* This device is plugged in, with its power, in place of the other. */
static void plug(int which)
{
    there = &ends[which];
    there->awake = false;
    IS(iol_device_power_cycle(&there->device), 0);
}

/* The application of the device that is there: it writes down the octet that it is to write. */
static void work(void)
{
    uint64_t number;
    iol_request asked;
    size_t at = strlen(there->written);
    IS(iol_device_handed(&there->device, &number, &asked), 0);
    if (asked.kind == 0)
        return;
    IS(asked.kind, 2);
    IS(asked.index, INDEX);
    IS(asked.length, 1);
    snprintf(there->written + at, ROOM - at, " %d", asked.octets[0]);
    IS(iol_device_answer_written(&there->device, number), 0);
}

/* The port still tells why the last session ended, whatever start-up is under way. */
static void last_loss_is(iol_loss wanted)
{
    iol_loss loss;
    memset(&loss, 5, sizeof loss);
    IS(iol_port_last_loss(&port, &loss), 0);
    IS(loss.why, wanted.why);
    IS(loss.vendor, wanted.vendor);
    IS(loss.device, wanted.device);
}

/* The mode of the link, after a turn. Of one that is down it is noted why; only the second device is a wrong one. */
static int mode(void)
{
    iol_status status;
    IS(iol_port_status(&port, &status), 0);
    if (status.mode == 1 && status.why == WRONG_DEVICE) {
        IS(expects && there == &ends[SECOND], true);
        ended_for = (iol_loss){WRONG_DEVICE, VENDOR, DEVICE + 1};
        downs++;
    } else if (status.mode == 1) {
        IS(status.why, LOST);
        ended_for = (iol_loss){LOST, 0, 0};
        lost = true;
    } else if (status.mode == 4)
        ended_for = (iol_loss){0, 0, 0};
    last_loss_is(ended_for);
    return status.mode;
}

static void exchange(const iol_message *sent)
{
    iol_reply reply;
    if (expects && there == &ends[SECOND] && there->awake)
        IS(sent->octets[0] & READS, READS);
    IS(iol_device_hear(&there->device, sent->octets, sent->length, &reply), 0);
    work();
    IS(iol_port_turn_answered(&port, reply.octets, reply.length), 0);
}

static void turns(int count)
{
    iol_message sent;
    while (count-- > 0) {
        IS(iol_port_asks(&port, &sent), 0);
        if (sent.length == 0) {
            IS(iol_device_wake(&there->device), 0);
            there->awake = true;
            IS(iol_port_turn_woken(&port, 2), 0);
        } else
            exchange(&sent);
        mode();
    }
}

/* The page of the present session is that of the device that is there, or there is none. */
static void page_is(bool known)
{
    iol_page page;
    IS(iol_port_page(&port, &page), 0);
    IS(page.length, known ? 10 : 0);
    if (known)
        IS(memcmp(page.octets, pages[there == &ends[SECOND]], 10), 0);
}

static void submit(void)
{
    uint8_t octet;
    for (octet = 1; octet <= WRITES; octet++)
        IS(iol_port_write(&port, INDEX, 0, &octet, 1, &tickets[octet - 1]), 0);
}

/* Both devices are opened, and a port that expects the first one, or any. */
static void open_all(bool expecting)
{
    uint8_t counts = 0;
    int i;
    memset(ends, 0, sizeof ends);
    downs = 0;
    lost = false;
    ended_for = (iol_loss){0, 0, 0};
    expects = expecting;
    for (i = 0; i < DEVICES; i++)
        IS(iol_device_open(&ends[i].device, pages[i]), 0);
    IS(iol_port_open_for(&port, IOL_DEVICES_OWN, 1000, 100, 64, 0), 0);
    if (expecting) {
        IS(iol_port_expect(&port, VENDOR, DEVICE, &counts), 0);
        IS(counts, 1);
    }
}

static void close_all(void)
{
    int i;
    IS(iol_port_close(&port), 0);
    for (i = 0; i < DEVICES; i++)
        IS(iol_device_close(&ends[i].device), 0);
}

/* How often a write was carried out, by both devices. */
static int carried_out(int i)
{
    const char *at;
    int count = 0, which;
    for (which = 0; which < DEVICES; which++)
        for (at = ends[which].written; *at != 0; at++)
            count += *at == '1' + i;
    return count;
}

/* How a write ended: it was carried out once where it is done, and once at most where nobody knows. */
static const char *ended(int i)
{
    iol_outcome outcome;
    int carried = carried_out(i);
    if (iol_port_collect(&port, tickets[i], &outcome) != 0) {
        IS(carried, 0);
        return "waits";
    }
    if (outcome.kind == 2) {
        IS(carried, 1);
        return "done";
    }
    IS(outcome.kind, 8);
    IS(outcome.cause, 1);
    IS(carried <= 1, true);
    return "unknown";
}

static void tell(const char *what, int turned)
{
    const char *first = ended(0), *second = ended(1);
    printf("%s %2d: 1 %s, 2 %s; the first carried out%s, the second%s; %s, wrong device %d\n", what, turned, first,
           second, ends[FIRST].written[0] ? ends[FIRST].written : " none",
           ends[SECOND].written[0] ? ends[SECOND].written : " none", lost ? "lost" : "not lost", downs);
}

/* The second device is plugged in after so many turns, and then the first one again. */
static void swapped(int turned)
{
    open_all(true);
    plug(FIRST);
    submit();
    turns(turned);
    page_is(turned >= PAGE_READ);
    plug(SECOND);
    turns(ENOUGH);
    IS(downs > 0, true);
    IS(ends[SECOND].written[0], 0);
    plug(FIRST);
    turns(ENOUGH);
    IS(mode(), 4);
    page_is(true);
    tell("swapped after", turned);
    close_all();
}

/* The second device is there from the start: what waits is its own once any device is expected. */
static void expected_anew(void)
{
    uint8_t counts = 0;
    open_all(true);
    plug(SECOND);
    submit();
    turns(PAGE_READ);
    IS(downs, 1);
    page_is(false);
    tell("the second from", 0);
    expects = false;
    IS(iol_port_expect_any(&port, &counts), 0);
    IS(counts, 1);
    turns(ENOUGH);
    IS(mode(), 4);
    page_is(true);
    tell("any from", PAGE_READ);
    close_all();
}

/* A port that expects any device takes the second as well: the line shows that the tests above could fail. */
static void unexpecting(int turned)
{
    open_all(false);
    plug(FIRST);
    submit();
    turns(turned);
    plug(SECOND);
    turns(ENOUGH);
    IS(downs, 0);
    tell("expecting any", turned);
    close_all();
}

int main(void)
{
    int turned;
    for (turned = 0; turned < SWAPS; turned++)
        swapped(turned);
    expected_anew();
    unexpecting(0);
    unexpecting(PAGE_READ);
    printf("wrong %d\n", wrong);
    return wrong != 0;
}

/* A port against a device, both through C, over a line of this program. What is printed is compared with both.stdout. */
#include "iolink_port.h"
#include "iolink_device.h"
#include <stdio.h>
#include <string.h>

static iol_port port;
static iol_device device;
static int lost, damaged; /* so many of the next replies are lost, damaged */
static bool lazy;         /* the application leaves requests unanswered */
static uint8_t setting = 7;
static int wrong;

static void is(long long got, long long wanted, const char *what, int line)
{
    if (got == wanted)
        return;
    wrong++;
    printf("line %d: %s is %lld, not %lld\n", line, what, got, wanted);
}
#define IS(got, wanted) is((long long)(got), (wanted), #got, __LINE__)

/* The application: parameter 16 is read only, 24 holds one octet. */
static void work(void)
{
    uint64_t number;
    iol_request asked;
    IS(iol_device_handed(&device, &number, &asked), 0);
    if (asked.kind == 0 || lazy)
        return;
    if (asked.index == 16 && asked.kind == 1)
        IS(iol_device_answer_read(&device, number, (const uint8_t *)"AB", 2), 0);
    else if (asked.index == 24 && asked.kind == 1)
        IS(iol_device_answer_read(&device, number, &setting, 1), 0);
    else if (asked.index == 24 && asked.length == 1) {
        setting = asked.octets[0];
        IS(iol_device_answer_written(&device, number), 0);
    } else
        IS(iol_device_answer_refused(&device, number, 0x80, 0x11), 0);
}

static void turn(void)
{
    iol_message asked;
    iol_reply reply;
    IS(iol_port_asks(&port, &asked), 0);
    if (asked.length == 0) {
        IS(iol_port_turn_answered(&port, asked.octets, 0), IOL_NOT_ASKED);
        IS(iol_device_wake(&device), 0);
        IS(iol_port_turn_woken(&port, 2), 0);
        return;
    }
    IS(iol_port_turn_woken(&port, 2), IOL_NOT_ASKED);
    work();
    IS(iol_device_hear(&device, asked.octets, asked.length, &reply), 0);
    if (reply.length > 0)
        IS(reply.length, asked.reply);
    if (lost > 0) {
        lost--;
        reply.length = 0;
    } else if (damaged > 0 && reply.length > 0) {
        damaged--;
        reply.octets[0] ^= 0x10;
    }
    IS(iol_port_turn_answered(&port, reply.octets, reply.length), 0);
}

static void turns(int count)
{
    while (count-- > 0)
        turn();
}

static int mode(void)
{
    iol_status status;
    IS(iol_port_status(&port, &status), 0);
    return status.mode;
}

static int why(void)
{
    iol_status status;
    IS(iol_port_status(&port, &status), 0);
    return status.why;
}

static int device_mode(void)
{
    uint8_t octet = 0;
    IS(iol_device_mode(&device, &octet), 0);
    return octet;
}

static int cycle_time(void)
{
    uint8_t octet = 0;
    IS(iol_device_cycle_time(&device, &octet), 0);
    return octet;
}

static const char *names[18] = {"none", "submitted", "urgent", "", "", "", "", "", "taken", "answered", "", "",
                                "withdrawn", "", "", "", "collected", "abandoned"};

/* The journal that is kept, to its end. */
static void entries(void)
{
    iol_entry entry;
    do {
        IS(iol_port_entry(&port, &entry), 0);
        printf("  %llu %s", (unsigned long long)entry.ticket, names[entry.kind % 18]);
        if (entry.request.kind)
            printf(" %s %d/%d", entry.request.kind == 1 ? "read" : "write", entry.request.index, entry.request.sub);
        if (entry.outcome.kind)
            printf(" outcome %d cause %d length %d", entry.outcome.kind, entry.outcome.cause, entry.outcome.length);
        printf("\n");
    } while (entry.kind);
}

static void archive(void)
{
    uint32_t count = 0;
    IS(iol_port_archive(&port, &count), 0);
    printf("archived %u\n", (unsigned)count);
    entries();
}

static void drain(void)
{
    uint32_t count = 0, restated = 9;
    IS(iol_port_drain(&port, &count, &restated), 0);
    printf("drained %u restated %u\n", (unsigned)count, (unsigned)restated);
    entries();
}

static void closed_handles(void)
{
    iol_port none = {0};
    iol_device nothing = {0};
    iol_message message;
    iol_outcome outcome;
    iol_status status;
    iol_image image;
    iol_event event;
    iol_entry entry;
    iol_request request;
    iol_reply reply;
    uint64_t ticket = 5;
    uint32_t count = 5;
    uint8_t octet = 0;
    IS(iol_port_close(&none), IOL_CLOSED);
    IS(iol_port_asks(&none, &message), IOL_CLOSED);
    IS(iol_port_turn_woken(&none, 0), IOL_CLOSED);
    IS(iol_port_turn_answered(&none, &octet, 1), IOL_CLOSED);
    IS(iol_port_read(&none, 16, 0, &ticket), IOL_CLOSED);
    IS(iol_port_read_urgent(&none, 16, 0, &ticket), IOL_CLOSED);
    IS(iol_port_write(&none, 16, 0, &octet, 1, &ticket), IOL_CLOSED);
    IS(iol_port_write_urgent(&none, 16, 0, &octet, 1, &ticket), IOL_CLOSED);
    IS(iol_port_collect(&none, 1, &outcome), IOL_CLOSED);
    IS(iol_port_withdraw(&none, 1), IOL_CLOSED);
    IS(iol_port_cancel(&none, 1), IOL_CLOSED);
    IS(iol_port_abandon(&none, 1), IOL_CLOSED);
    IS(iol_port_restart(&none), IOL_CLOSED);
    IS(iol_port_set_output(&none, &octet, 1), IOL_CLOSED);
    IS(iol_port_clear_output(&none), IOL_CLOSED);
    IS(iol_port_image(&none, &image), IOL_CLOSED);
    IS(iol_port_take_event(&none, &event), IOL_CLOSED);
    IS(iol_port_status(&none, &status), IOL_CLOSED);
    IS(iol_port_archive(&none, &count), IOL_CLOSED);
    IS(iol_port_drain(&none, &count, &count), IOL_CLOSED);
    IS(iol_port_entry(&none, &entry), IOL_CLOSED);
    IS(iol_device_close(&nothing), IOL_CLOSED);
    IS(iol_device_hear(&nothing, &octet, 1, &reply), IOL_CLOSED);
    IS(iol_device_wake(&nothing), IOL_CLOSED);
    IS(iol_device_power_cycle(&nothing), IOL_CLOSED);
    IS(iol_device_silence(&nothing), IOL_CLOSED);
    IS(iol_device_mode(&nothing, &octet), IOL_CLOSED);
    IS(iol_device_cycle_time(&nothing, &octet), IOL_CLOSED);
    IS(iol_device_handed(&nothing, &ticket, &request), IOL_CLOSED);
    IS(iol_device_answer_read(&nothing, 1, &octet, 1), IOL_CLOSED);
    IS(iol_device_answer_written(&nothing, 1), IOL_CLOSED);
    IS(iol_device_answer_refused(&nothing, 1, 0x80, 0), IOL_CLOSED);
    IS(iol_device_raise(&nothing, 0xF4, 1), IOL_CLOSED);
    IS(iol_device_set_input(&nothing, &octet, 1), IOL_CLOSED);
    IS(iol_device_clear_input(&nothing), IOL_CLOSED);
    IS(iol_device_output(&nothing, &image), IOL_CLOSED);
    IS(ticket, 5);
    IS(count, 5);
    IS(octet, 0);
}

static void closed_to_counters(void)
{
    iol_port none = {0};
    iol_counters counters, before;
    memset(&counters, 5, sizeof counters);
    before = counters;
    IS(iol_port_counters(&none, &counters), IOL_CLOSED);
    IS(memcmp(&counters, &before, sizeof counters), 0);
}

static void closed_to_last_loss(void)
{
    iol_port none = {0};
    iol_loss loss = {5, 5, 5};
    IS(iol_port_last_loss(&none, &loss), IOL_CLOSED);
    IS(loss.why, 5);
    IS(loss.vendor, 5);
    IS(loss.device, 5);
}

static void closed_to_trace_line(void)
{
    iol_port none = {0};
    iol_device nothing = {0};
    iol_trace_line line = {5, {5}};
    IS(iol_port_trace_line(&none, 1, &line), IOL_CLOSED);
    IS(iol_device_trace_line(&nothing, 1, 4, &line), IOL_CLOSED);
    IS(line.length, 5);
    IS(line.text[0], 5);
}

/* Where it is closed, that is tested before the numbers are. */
static void closed_to_devices(void)
{
    iol_port none = {0};
    iol_page page = {5, {5}};
    uint8_t counts = 5;
    IS(iol_port_expect(&none, 0x1234, 0x000107, &counts), IOL_CLOSED);
    IS(iol_port_expect(&none, 0x1234, 0x1000000, &counts), IOL_CLOSED);
    IS(iol_port_expect_any(&none, &counts), IOL_CLOSED);
    IS(iol_port_set_cycle(&none, 0, &counts), IOL_CLOSED);
    IS(iol_port_set_cycle(&none, 132801, &counts), IOL_CLOSED);
    IS(iol_port_page(&none, &page), IOL_CLOSED);
    IS(counts, 5);
    IS(page.length, 5);
    IS(page.octets[0], 5);
}

static const uint8_t plain[10] = {0x17, 0x2D, 0x11, 0, 0, 0x12, 0x34, 0, 1, 7};
static const uint8_t process[10] = {0x17, 1, 0x11, 0x10, 8, 0x12, 0x34, 0, 1, 7};
static const uint8_t deaf[10] = {0x17, 0x2C, 0x11, 0, 0, 0x12, 0x34, 0, 1, 7};

static void open_both(const uint8_t page[10])
{
    IS(iol_device_open(&device, page), 0);
    IS(iol_device_open(&device, page), IOL_IS_OPEN);
    IS(device_mode(), 1);
    IS(cycle_time(), 0);
    IS(iol_port_open_for(&port, IOL_DEVICES_OWN, 1000, 100, 64, 0), 0);
    IS(iol_port_open(&port, 1000, 100, 64, 0), IOL_IS_OPEN);
}

static void close_both(void)
{
    IS(iol_port_close(&port), 0);
    IS(iol_port_close(&port), IOL_CLOSED);
    IS(iol_device_close(&device), 0);
    IS(iol_device_close(&device), IOL_CLOSED);
}

/* The first message of a start-up, and whether a second opening is refused. */
static void first_message(size_t length, uint8_t first)
{
    iol_message asked;
    IS(iol_port_open_for(&port, 2, 1000, 100, 64, 0), IOL_IS_OPEN);
    IS(iol_port_asks(&port, &asked), 0);
    IS(iol_port_turn_woken(&port, 2), 0);
    IS(iol_port_asks(&port, &asked), 0);
    IS(asked.length, length);
    IS(asked.octets[0], first);
    IS(iol_port_close(&port), 0);
}

static void opened_for(void)
{
    IS(iol_port_open_for(&port, IOL_DEVICES_OWN, 1000, 100, 64, 0), 0);
    first_message(2, 0xA2);
    IS(iol_port_open_for(&port, IOL_DEVICES_ANY, 1000, 100, 64, 0), 0);
    first_message(3, 0x20);
    IS(iol_port_open(&port, 1000, 100, 64, 0), 0);
    first_message(3, 0x20);
}

static void refusals_at_opening(void)
{
    uint8_t page[10];
    IS(iol_port_open(&port, 3, 100, 64, 0), IOL_OUT_OF_RANGE);
    IS(iol_port_open(&port, 1000001, 100, 64, 0), IOL_OUT_OF_RANGE);
    IS(iol_port_open(&port, 4, 1, 64, 0), IOL_OUT_OF_RANGE);
    IS(iol_port_open(&port, 4, 2, 0, 0), IOL_OUT_OF_RANGE);
    IS(iol_port_open(&port, 4, 2, 65, 0), IOL_OUT_OF_RANGE);
    IS(iol_port_open(&port, 4, 2, 255, 0), IOL_OUT_OF_RANGE);
    IS(iol_port_open_for(&port, 2, 1000, 100, 64, 0), IOL_OUT_OF_RANGE);
    IS(iol_port_open_for(&port, 255, 1000, 100, 64, 0), IOL_OUT_OF_RANGE);
    IS(iol_port_open_for(&port, IOL_DEVICES_ANY, 3, 100, 64, 0), IOL_OUT_OF_RANGE);
    memcpy(page, plain, 10);
    page[2] = 0x12;
    IS(iol_device_open(&device, page), 8);
    IS(port.is_open, 0);
    IS(device.is_open, 0);
}

/* Whether the port has counted this, and nothing else. */
static void counted(iol_counters wanted)
{
    iol_counters counters;
    memset(&counters, 5, sizeof counters);
    IS(iol_port_counters(&port, &counters), 0);
    IS(memcmp(&counters, &wanted, sizeof counters), 0);
}

/* A start-up is a wake and 14 exchanges, a read of two octets is 3. What is out isn't counted yet. */
static void counted_by_hand(void)
{
    iol_message asked;
    uint64_t ticket = 0;
    counted((iol_counters){0});
    turns(15);
    counted((iol_counters){.exchanges = 14, .good_replies = 14, .start_ups = 1});
    IS(iol_port_read(&port, 16, 0, &ticket), 0);
    turns(3);
    counted((iol_counters){.exchanges = 17, .good_replies = 17, .start_ups = 1, .done = 1});
    lost = 1;
    turn();
    counted((iol_counters){.exchanges = 18, .good_replies = 17, .no_reply = 1, .start_ups = 1, .done = 1});
    IS(iol_port_asks(&port, &asked), 0);
    counted((iol_counters){.exchanges = 18, .good_replies = 17, .no_reply = 1, .start_ups = 1, .done = 1});
    turn();
    counted((iol_counters){
        .exchanges = 19, .good_replies = 18, .repeats = 1, .no_reply = 1, .start_ups = 1, .done = 1});
}

static void requests(void)
{
    uint64_t ticket = 0;
    iol_outcome outcome;
    uint8_t octets[233] = {0};
    IS(iol_port_collect(&port, 1, &outcome), 25);
    turns(15);
    IS(mode(), 4);
    IS(why(), 0);
    IS(iol_port_read(&port, 16, 0, &ticket), 0);
    IS(ticket, 1);
    IS(iol_port_collect(&port, 1, &outcome), 26);
    turns(3);
    IS(iol_port_collect(&port, 1, &outcome), 0);
    IS(outcome.kind, 1);
    IS(outcome.length, 2);
    IS(outcome.octets[0], 'A');
    IS(outcome.octets[1], 'B');
    IS(iol_port_collect(&port, 1, &outcome), 25);
    IS(iol_port_write(&port, 24, 0, (const uint8_t *)"A", 1, &ticket), 0);
    turns(3);
    IS(iol_port_collect(&port, ticket, &outcome), 0);
    IS(outcome.kind, 2);
    IS(setting, 'A');
    IS(iol_port_read(&port, 17, 0, &ticket), 0);
    turns(3);
    IS(iol_port_collect(&port, ticket, &outcome), 0);
    IS(outcome.kind, 3);
    IS(outcome.octets[0], 0x80);
    IS(outcome.octets[1], 0x11);
    IS(iol_port_write(&port, 24, 0, octets, 233, &ticket), 9);
    printf("requests end in mode %d\n", mode());
}

static void losses(void)
{
    uint64_t ticket = 0;
    iol_outcome outcome;
    uint32_t count = 9;
    IS(iol_port_read(&port, 16, 0, &ticket), 0);
    lost = 2;
    turns(5);
    IS(iol_port_collect(&port, ticket, &outcome), 0);
    IS(outcome.kind, 1);
    IS(iol_port_read(&port, 16, 0, &ticket), 0);
    turn();
    damaged = 2;
    turns(4);
    IS(iol_port_collect(&port, ticket, &outcome), 0);
    IS(outcome.kind, 1);
    IS(iol_port_read(&port, 16, 0, &ticket), 0);
    turn();
    lost = 3;
    turns(3);
    IS(mode(), 1);
    IS(why(), 19);
    IS(iol_port_collect(&port, ticket, &outcome), 0);
    IS(outcome.kind, 8);
    IS(outcome.cause, 1);
    drain();
    IS(iol_port_archive(&port, &count), 28);
    IS(count, 0);
    drain();
    turns(15);
    IS(mode(), 4);
    archive();
}

/* Of clients that are gone: one request waits, one is under way, and one is done. */
static void abandoned(void)
{
    uint64_t first = 0, second = 0;
    iol_outcome outcome;
    uint32_t count;
    IS(iol_port_read(&port, 16, 0, &first), 0);
    IS(iol_port_read(&port, 16, 0, &second), 0);
    IS(iol_port_abandon(&port, second), 0);
    IS(iol_port_abandon(&port, second), 25);
    turn();
    IS(iol_port_abandon(&port, first), 0);
    IS(iol_port_cancel(&port, first), 25);
    IS(iol_port_collect(&port, first, &outcome), 25);
    IS(iol_port_archive(&port, &count), 28);
    turns(4);
    IS(iol_port_collect(&port, first, &outcome), 25);
    IS(iol_port_read(&port, 16, 0, &first), 0);
    turns(4);
    IS(iol_port_abandon(&port, first), 0);
    IS(iol_port_collect(&port, first, &outcome), 25);
    archive();
}

static void cancelled_and_withdrawn(void)
{
    uint64_t first = 0, second = 0, urgent = 0;
    iol_outcome outcome;
    lazy = true;
    IS(iol_port_read(&port, 16, 0, &first), 0);
    IS(iol_port_cancel(&port, first), 36);
    turns(3);
    IS(iol_port_withdraw(&port, first), 27);
    IS(iol_port_cancel(&port, first), 0);
    turns(2);
    IS(iol_port_collect(&port, first, &outcome), 0);
    IS(outcome.kind, 8);
    IS(outcome.cause, 5);
    lazy = false;
    IS(iol_port_read(&port, 16, 0, &first), 0);
    IS(iol_port_read(&port, 16, 0, &second), 0);
    IS(iol_port_read_urgent(&port, 17, 0, &urgent), 0);
    turns(3);
    IS(iol_port_collect(&port, urgent, &outcome), 0);
    IS(outcome.kind, 3);
    IS(iol_port_collect(&port, first, &outcome), 26);
    IS(iol_port_withdraw(&port, second), 0);
    IS(iol_port_collect(&port, second, &outcome), 0);
    IS(outcome.kind, 12);
    turn();
    IS(iol_port_restart(&port), 0);
    IS(mode(), 1);
    IS(iol_port_collect(&port, first, &outcome), 0);
    IS(outcome.kind, 8);
    IS(outcome.cause, 2);
    turns(15);
    IS(mode(), 4);
    IS(iol_port_write_urgent(&port, 24, 0, (const uint8_t *)"B", 1, &urgent), 0);
    turns(3);
    IS(iol_port_collect(&port, urgent, &outcome), 0);
    IS(outcome.kind, 2);
    archive();
}

static void events(void)
{
    iol_event event;
    IS(iol_port_take_event(&port, &event), 30);
    IS(iol_device_raise(&device, 0xF4, 0x4210), 0);
    turns(7);
    IS(iol_port_take_event(&port, &event), 0);
    IS(event.qualifier, 0xF4);
    IS(event.code, 0x4210);
    IS(iol_port_take_event(&port, &event), 30);
}

/* An answer that comes after its request was cancelled is refused, and the next request has its own. */
static void late_answer(void)
{
    const uint8_t *late = (const uint8_t *)"late";
    uint64_t ticket = 0, first = 0, second = 0;
    iol_request asked;
    iol_outcome outcome;
    lazy = true;
    IS(iol_port_read(&port, 16, 0, &ticket), 0);
    turns(3);
    IS(iol_device_handed(&device, &first, &asked), 0);
    IS(asked.kind, 1);
    IS(iol_port_cancel(&port, ticket), 0);
    turns(2);
    IS(iol_device_answer_read(&device, first, late, 4), 37);
    IS(iol_port_read(&port, 16, 0, &ticket), 0);
    turns(3);
    IS(iol_device_handed(&device, &second, &asked), 0);
    IS(second, first + 1);
    IS(iol_device_answer_read(&device, first, late, 4), 37);
    IS(iol_device_answer_refused(&device, first, 0x80, 0x11), 37);
    IS(iol_device_answer_written(&device, second), 14);
    lazy = false;
    work();
    IS(iol_device_answer_read(&device, second, late, 4), 37);
    turns(2);
    IS(iol_port_collect(&port, ticket, &outcome), 0);
    IS(outcome.kind, 1);
    IS(outcome.length, 2);
    IS(outcome.octets[0], 'A');
}

/* The output of a silent master isn't shown, until the master says anew that it is valid. */
static void silent_master(void)
{
    iol_image image;
    IS(iol_device_silence(&device), 0);
    IS(iol_device_output(&device, &image), 0);
    IS(image.length, 0);
    turns(2);
    IS(iol_device_output(&device, &image), 0);
    IS(image.length, 0);
    IS(iol_port_clear_output(&port), 0);
    turn();
    IS(iol_port_set_output(&port, (const uint8_t *)"\x5A", 1), 0);
    turn();
    IS(iol_device_output(&device, &image), 0);
    IS(image.length, 1);
    IS(image.octets[0], 0x5A);
}

/* Whether the next message has this layout. */
static void laid_out(int kind, int od, int pd_in, int pd_out)
{
    iol_message asked;
    IS(iol_port_asks(&port, &asked), 0);
    IS(asked.kind, kind);
    IS(asked.od, od);
    IS(asked.pd_in, pd_in);
    IS(asked.pd_out, pd_out);
}

static void process_data(void)
{
    iol_image image;
    IS(iol_port_set_output(&port, (const uint8_t *)"\x5A", 1), 34);
    IS(iol_device_set_input(&device, (const uint8_t *)"\x12\x34", 2), 0);
    IS(iol_device_set_input(&device, (const uint8_t *)"\x12", 1), 29);
    turns(14);
    IS(device_mode(), 3);
    IS(cycle_time(), 0x17);
    laid_out(0, 1, 0, 0);
    turns(2);
    IS(device_mode(), 4);
    IS(iol_port_image(&port, &image), 0);
    IS(image.length, 2);
    IS(image.octets[0], 0x12);
    IS(image.octets[1], 0x34);
    IS(iol_port_set_output(&port, (const uint8_t *)"\x5A\x5A", 2), 29);
    IS(iol_port_set_output(&port, (const uint8_t *)"\x5A", 1), 0);
    IS(iol_device_output(&device, &image), 0);
    IS(image.length, 0);
    laid_out(2, 1, 2, 1);
    turn();
    IS(iol_device_output(&device, &image), 0);
    IS(image.length, 1);
    IS(image.octets[0], 0x5A);
    silent_master();
    IS(iol_port_clear_output(&port), 0);
    IS(iol_device_clear_input(&device), 0);
    turn();
    IS(iol_device_output(&device, &image), 0);
    IS(image.length, 0);
    IS(iol_port_image(&port, &image), 0);
    IS(image.length, 0);
}

/* From when on a call counts, as it says: 1 now, 2 later. */
static int expect(uint16_t vendor, uint32_t number)
{
    uint8_t counts = 0;
    IS(iol_port_expect(&port, vendor, number, &counts), 0);
    return counts;
}

static int expect_any(void)
{
    uint8_t counts = 0;
    IS(iol_port_expect_any(&port, &counts), 0);
    return counts;
}

static int set_cycle(uint32_t micros)
{
    uint8_t counts = 0;
    IS(iol_port_set_cycle(&port, micros, &counts), 0);
    return counts;
}

/* How many octets the page has; if any, they are those of the device. */
static int page_length(void)
{
    iol_page page;
    IS(iol_port_page(&port, &page), 0);
    IS(page.length == 0 || memcmp(page.octets, plain, 10) == 0, true);
    return page.length;
}

/* A turn, where this device is expected from between what is asked for and its answer on. */
static void turn_expecting(uint32_t number)
{
    iol_message asked;
    iol_reply reply;
    IS(iol_port_asks(&port, &asked), 0);
    IS(expect(0x1234, number), 1);
    IS(iol_device_hear(&device, asked.octets, asked.length, &reply), 0);
    IS(iol_port_turn_answered(&port, reply.octets, reply.length), 0);
}

/* The page is read whole in turn 11 of a start-up. Where another device is expected by then, the link goes down. */
static void expected(void)
{
    uint8_t counts = 5;
    IS(iol_port_expect(&port, 0x1234, 0x1000000, &counts), IOL_OUT_OF_RANGE);
    IS(counts, 5);
    IS(expect(0x1234, 0x000108), 1);
    turns(10);
    IS(page_length(), 0);
    turn();
    IS(mode(), 1);
    IS(why(), 38);
    IS(page_length(), 0);
    IS(expect(0x3412, 0x000107), 1);
    turns(11);
    IS(why(), 38);
    turns(10);
    turn_expecting(0x000108);
    IS(why(), 38);
    IS(expect(0x1234, 0xFFFFFF), 1);
    turns(10);
    turn_expecting(0x000107);
    IS(mode(), 2);
    IS(page_length(), 10);
    IS(expect(0x1234, 0x000108), 2);
    turns(4);
    IS(mode(), 4);
    IS(page_length(), 10);
    IS(iol_port_restart(&port), 0);
    IS(page_length(), 0);
    turns(11);
    IS(why(), 38);
    IS(expect_any(), 1);
    turns(15);
    IS(mode(), 4);
    IS(expect_any(), 2);
}

/* The octet that the next start-up writes to MasterCycleTime. */
static int next_cycle(void)
{
    IS(iol_port_restart(&port), 0);
    IS(iol_device_power_cycle(&device), 0);
    turns(15);
    IS(mode(), 4);
    return cycle_time();
}

/* The device's MinCycleTime is 0x17, 2.3 ms. */
static void cycles(void)
{
    uint8_t counts = 5;
    IS(iol_port_set_cycle(&port, 132801, &counts), 39);
    IS(counts, 5);
    IS(next_cycle(), 0x17);
    IS(set_cycle(2301), 2);
    IS(next_cycle(), 0x18);
    IS(set_cycle(2200), 2);
    IS(next_cycle(), 0x17);
    IS(set_cycle(6301), 2);
    IS(next_cycle(), 0x40);
    IS(set_cycle(132800), 2);
    IS(next_cycle(), 0xBF);
    IS(iol_port_restart(&port), 0);
    IS(set_cycle(0), 1);
    IS(next_cycle(), 0x17);
}

static void without_isdu(void)
{
    uint64_t ticket = 0;
    iol_outcome outcome;
    IS(iol_port_read(&port, 16, 0, &ticket), 0);
    turns(16);
    IS(iol_port_collect(&port, ticket, &outcome), 0);
    IS(outcome.kind, 16);
}

int main(void)
{
    closed_handles();
    closed_to_devices();
    closed_to_counters();
    closed_to_last_loss();
    closed_to_trace_line();
    opened_for();
    refusals_at_opening();
    open_both(plain);
    requests();
    losses();
    cancelled_and_withdrawn();
    abandoned();
    events();
    late_answer();
    IS(iol_device_power_cycle(&device), 0);
    IS(device_mode(), 1);
    turns(20);
    IS(mode(), 4);
    close_both();
    open_both(plain);
    counted_by_hand();
    close_both();
    open_both(plain);
    expected();
    cycles();
    close_both();
    open_both(process);
    process_data();
    close_both();
    open_both(deaf);
    without_isdu();
    close_both();
    printf("sizes %zu %zu %zu %zu %zu %zu %zu %zu %zu %zu\n", sizeof(iol_port), sizeof(iol_device), sizeof(iol_message),
           sizeof(iol_outcome), sizeof(iol_request), sizeof(iol_entry), sizeof(iol_image), sizeof(iol_status),
           sizeof(iol_page), sizeof(iol_counters));
    printf("wrong %d\n", wrong);
    return wrong != 0;
}

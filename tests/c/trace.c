/* The log of a port and that of a device, over a line of this program that loses and damages: the lines that
 * tests/rows/link/trace_as_from_c prints for the same turns. What is printed is compared with trace.stdout, and
 * tests/c/check_c compares it with the rows whose program prints and judges such logs. */
#include "iolink_port.h"
#include "iolink_device.h"
#include <stdio.h>
#include <string.h>

enum fate { CLEAN, NO_WAKE, OUT_LOST, OUT_DAMAGED, BACK_LOST, BACK_DAMAGED };

static const struct { enum fate fate; int count; } fates[] = {
    {NO_WAKE, 1}, {CLEAN, 3}, {BACK_LOST, 1}, {CLEAN, 1}, {OUT_DAMAGED, 1}, {BACK_DAMAGED, 1}, {CLEAN, 13},
    {OUT_LOST, 1}, {CLEAN, 4}, {BACK_LOST, 1}, {CLEAN, 12}, {OUT_LOST, 3}, {CLEAN, 20},
};

enum { TURNS = 90, FATES = sizeof fates / sizeof *fates, COM2 = 2 };

static const uint8_t page[10] = {0x17, 0x01, 0x11, 0x10, 0x08, 0x12, 0x34, 0x00, 0x01, 0x07};

static iol_port port;
static iol_device device;
static uint8_t setting = 7;
static iol_trace_line heard[TURNS];
static int count, wrong;

static void is(long long got, long long wanted, const char *what, int line)
{
    if (got == wanted)
        return;
    wrong++;
    printf("line %d: %s is %lld, not %lld\n", line, what, got, wanted);
}
#define IS(got, wanted) is((long long)(got), (wanted), #got, __LINE__)

/* What becomes of the next call of the line. */
static enum fate next_fate(void)
{
    static int at, made;
    if (at < FATES && made == fates[at].count) {
        at++;
        made = 0;
    }
    made++;
    return at < FATES ? fates[at].fate : CLEAN;
}

/* The application: parameter 24 holds one octet. */
static void work(void)
{
    uint64_t number;
    iol_request asked;
    IS(iol_device_handed(&device, &number, &asked), 0);
    if (asked.kind == 1)
        IS(iol_device_answer_read(&device, number, &setting, 1), 0);
    else if (asked.kind == 2) {
        setting = asked.octets[0];
        IS(iol_device_answer_written(&device, number), 0);
    }
}

/* A line of the device's log. */
static void keep_heard(void)
{
    IS(iol_device_trace_line(&device, (uint64_t)count + 1, COM2, &heard[count]), 0);
    count++;
}

static void wake(enum fate fate)
{
    if (fate == CLEAN) {
        IS(iol_device_wake(&device), 0);
        keep_heard();
    }
    IS(iol_port_turn_woken(&port, fate == CLEAN ? COM2 : 0), 0);
}

static void exchange(enum fate fate, iol_message *asked)
{
    iol_reply reply = {0};
    if (fate == OUT_DAMAGED)
        asked->octets[asked->length - 1] ^= 1;
    if (fate != OUT_LOST) {
        IS(iol_device_hear(&device, asked->octets, asked->length, &reply), 0);
        keep_heard();
    }
    if (fate == BACK_DAMAGED)
        reply.octets[reply.length - 1] ^= 1;
    IS(iol_port_turn_answered(&port, reply.octets, fate == BACK_LOST ? 0 : reply.length), 0);
}

/* The text but for the digits that each line begins with. */
static void without_numbers(const iol_trace_line *line, char *text)
{
    bool begins = true;
    for (int i = 0; i < line->length; i++) {
        char c = line->text[i];
        begins = begins && c >= '0' && c <= '9';
        if (!begins)
            *text++ = c;
        begins = begins || c == '\n';
    }
    *text = 0;
}

/* Whether two lines of logs say the same but for their numbers. */
static bool are_alike(const iol_trace_line *one, const iol_trace_line *other)
{
    char first[2 * IOL_MOST_TRACE_LINE], second[2 * IOL_MOST_TRACE_LINE];
    without_numbers(one, first);
    without_numbers(other, second);
    return strcmp(first, second) == 0;
}

/* One turn, with the line of the port's log. */
static void turn(uint64_t number)
{
    iol_message asked;
    iol_trace_line line;
    enum fate fate = next_fate();
    int before = count;
    work();
    IS(iol_port_asks(&port, &asked), 0);
    if (asked.length == 0)
        wake(fate);
    else
        exchange(fate, &asked);
    IS(iol_port_trace_line(&port, number, &line), 0);
    printf("%.*s", (int)line.length, line.text);
    /* Where nothing went wrong both logs say the same. */
    if (fate == CLEAN && count > before)
        IS(are_alike(&heard[before], &line), true);
}

static void turns(uint64_t first, uint64_t last)
{
    for (; first <= last; first++)
        turn(first);
}

/* Where there is nothing to tell of, nothing is written. */
static void refusals(void)
{
    iol_trace_line line, before;
    memset(&line, 7, sizeof line);
    before = line;
    IS(iol_port_trace_line(&port, 1, &line), IOL_CLOSED);
    IS(iol_device_trace_line(&device, 1, 4, &line), IOL_CLOSED);
    IS(iol_port_open_for(&port, IOL_DEVICES_OWN, 1000, 100, 64, 0), 0);
    IS(iol_device_open(&device, page), 0);
    IS(iol_port_trace_line(&port, 1, &line), IOL_NOT_ASKED);
    IS(iol_device_trace_line(&device, 1, COM2, &line), IOL_NOT_ASKED);
    IS(iol_device_trace_line(&device, 1, 4, &line), IOL_OUT_OF_RANGE);
    IS(memcmp(&line, &before, sizeof line), 0);
}

/* The longest lines: those of 66 octets that are none of the device's messages, behind the largest number. */
static void longest(void)
{
    uint8_t octets[70];
    iol_reply reply;
    iol_trace_line line;
    memset(octets, 0xFF, sizeof octets);
    IS(iol_device_hear(&device, octets, sizeof octets, &reply), 0);
    IS(iol_device_trace_line(&device, UINT64_MAX, 0, &line), 0);
    printf("%.*s", (int)line.length, line.text);
}

int main(void)
{
    const uint8_t input[2] = {0x12, 0x34}, written = 0x41, output = 0x5A;
    uint64_t ticket;
    refusals();
    IS(iol_device_set_input(&device, input, 2), 0);
    IS(iol_port_write(&port, 24, 0, &written, 1, &ticket), 0);
    IS(iol_port_read(&port, 24, 0, &ticket), 0);
    puts("port");
    turns(1, 30);
    IS(iol_port_set_output(&port, &output, 1), 0);
    turns(31, TURNS);
    puts("device");
    for (int i = 0; i < count; i++)
        printf("%.*s", (int)heard[i].length, heard[i].text);
    puts("longest");
    longest();
    IS(iol_port_close(&port), 0);
    IS(iol_device_close(&device), 0);
    puts(wrong == 0 ? "all right" : "something is wrong");
    return wrong != 0;
}

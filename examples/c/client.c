#include "client.h"
#include <inttypes.h>
#include <poll.h>
#include <stdio.h>
#include <string.h>
#include <unistd.h>

enum { DOWN = 1, OPERATE = 4, OTHER_DEVICE = 38 };
enum { PARAMETER_MOST = 232 };

static uint64_t tickets[CLIENT_TICKETS]; /* those that are outstanding, 0 for none */
static unsigned long turns_left;

static const char *kind_of(const iol_outcome *got)
{
    switch (got->kind) {
    case 1: return "read";
    case 2: return "written";
    case 3: return "refused";
    case 8: return "unknown";
    default: return "not sent";
    }
}

static void print_octets(const char *what, const uint8_t *octets, size_t count)
{
    printf("%s", what);
    for (size_t at = 0; at < count; at++)
        printf(" %02X", octets[at]);
    puts("");
}

/* The outcomes that there are. */
static void collect(iol_port *port)
{
    iol_outcome got;
    for (int at = 0; at < CLIENT_TICKETS; at++)
        if (tickets[at] != 0 && iol_port_collect(port, tickets[at], &got) == 0) {
            printf("ticket %" PRIu64 " ", tickets[at]);
            print_octets(kind_of(&got), got.octets, got.length);
            tickets[at] = 0;
        }
}

uint8_t client_tell(iol_port *port, int rate)
{
    static iol_status last;
    iol_status status;
    iol_event event;
    iol_port_status(port, &status);
    if (status.mode == DOWN && (last.mode == OPERATE || status.why == OTHER_DEVICE) && status.why != last.why)
        printf("down %d\n", status.why);
    if (status.mode == OPERATE && last.mode != OPERATE)
        printf("operate COM%d\n", rate);
    if (status.mode == DOWN || status.mode == OPERATE)
        last = status;
    while (iol_port_take_event(port, &event) == 0)
        printf("event %02X %04X\n", event.qualifier, event.code);
    collect(port);
    return status.mode;
}

/* The octets of a word such as 0A1B, at most 232. */
static size_t octets_of(const char *word, uint8_t *octets)
{
    size_t count = 0;
    unsigned octet;
    while (count < PARAMETER_MOST && sscanf(word + 2 * count, "%2x", &octet) == 1)
        octets[count++] = (uint8_t)octet;
    return count;
}

static void print_counters(iol_port *port)
{
    iol_counters sums;
    iol_port_counters(port, &sums);
    printf("exchanges %" PRIu64 " good %" PRIu64 " none %" PRIu64, sums.exchanges, sums.good_replies, sums.no_reply);
    printf(" length %" PRIu64 " checksum %" PRIu64 "\n", sums.wrong_length, sums.wrong_checksum);
}

/* Does what a line asks, as far as the port lets it. */
static void obey(iol_port *port, const char *asked)
{
    char word[512] = "";
    uint8_t octets[PARAMETER_MOST], refused = 0, counts;
    unsigned index, vendor, device;
    uint64_t ticket = 0;
    uint32_t count;
    iol_image input;
    iol_port_archive(port, &count); /* makes room, but while a request is outstanding: then a later one does */
    if (sscanf(asked, "turns %lu", &turns_left) == 1)
        return;
    if (sscanf(asked, "read %u", &index) == 1)
        refused = iol_port_read(port, (uint16_t)index, 0, &ticket);
    else if (sscanf(asked, "write %u %500s", &index, word) == 2)
        refused = iol_port_write(port, (uint16_t)index, 0, octets, octets_of(word, octets), &ticket);
    else if (sscanf(asked, "output %500s", word) == 1)
        refused = iol_port_set_output(port, octets, octets_of(word, octets));
    else if (sscanf(asked, "expect %x %x", &vendor, &device) == 2)
        refused = iol_port_expect(port, (uint16_t)vendor, device, &counts);
    else if (strcmp(asked, "input") == 0 && iol_port_image(port, &input) == 0)
        print_octets("input", input.octets, input.length);
    else if (strcmp(asked, "counters") == 0)
        print_counters(port);
    else
        printf("no command: %s\n", asked);
    if (refused != 0)
        printf("refused %d\n", refused);
    for (int at = 0; ticket != 0 && at < CLIENT_TICKETS; at++)
        if (tickets[at] == 0)
            tickets[at] = ticket, ticket = 0;
}

/* Takes a line of the input where one is there. False at its end. */
static bool next_command(iol_port *port)
{
    static char text[512];
    static size_t length;
    struct pollfd waits = {.fd = STDIN_FILENO, .events = POLLIN};
    while (poll(&waits, 1, 0) > 0) {
        if (read(STDIN_FILENO, text + length, 1) != 1)
            return false;
        if (text[length] == '\n') {
            text[length] = 0;
            length = 0;
            obey(port, text);
            return true;
        }
        length += length + 2 < sizeof text;
    }
    return true;
}

static bool is_waiting(void)
{
    bool waits = false;
    for (int at = 0; at < CLIENT_TICKETS; at++)
        waits |= tickets[at] != 0;
    return waits;
}

bool client_goes_on(iol_port *port)
{
    static bool has_ended;
    if (turns_left > 0)
        turns_left--;
    else if (!has_ended)
        has_ended = !next_command(port);
    return !has_ended || turns_left > 0 || is_waiting();
}

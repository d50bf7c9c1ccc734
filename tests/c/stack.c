/* How much stack each call takes: what lies below it is painted, the call is made, and what it overwrote is counted.
 * Each has to be called, and to stay below the bound of docs/speed.md, in whatever the runs below lead it to; what is
 * printed is compared with stack.stdout. `stack measure` prints the octets of each, which differ from one machine to
 * another; 256 means 256 or less. It is to run with LD_BIND_NOW=1: else the first call of a function of the C library
 * counts what the dynamic linker needs to find it. */
#include "calls.h"
#include "iolink_params.h"
#include <stdio.h>
#include <string.h>

enum { KB = 1024, OF_OPENING = 8 * KB, OF_LINE = 12 * KB, OF_CALL = 4 * KB, ROOM = 64 * KB, SKIPPED = 256, LONGEST = 232 };

#define PAINT UINT64_C(0xA5C3A5C3A5C3A5C3)

/* The calls that calls.h doesn't have. */
#define EACH_OTHER(X)                                                                                                  \
    X(iol_port_open) X(iol_port_open_for) X(iol_port_close) X(iol_port_asks) X(iol_port_turn_woken)                    \
    X(iol_port_turn_answered) X(iol_port_checksum) X(iol_port_cycle_micros)                                            \
    X(iol_device_open) X(iol_device_open_from) X(iol_device_close) X(iol_device_hear) X(iol_device_wake)               \
    X(iol_device_power_cycle) X(iol_device_expects) X(iol_device_checksum) X(iol_device_cycle_micros)                  \
    X(iol_device_handed) X(iol_device_answer_read) X(iol_device_answer_written) X(iol_device_answer_refused)           \
    X(iol_device_raise) X(iol_device_set_input) X(iol_device_clear_input) X(iol_device_output)                         \
    X(iol_device_silence) X(iol_device_mode) X(iol_device_cycle_time) X(iol_device_trace_line)                         \
    X(iol_params_open) X(iol_params_close) X(iol_params_work) X(iol_params_image_size) X(iol_params_image)             \
    X(iol_params_saved) X(iol_params_set) X(iol_params_reset) X(iol_params_value) X(iol_params_restart)                \
    X(iol_params_locks) X(iol_params_hear) X(iol_params_expects) X(iol_params_wake) X(iol_params_silence)              \
    X(iol_params_mode) X(iol_params_cycle_time) X(iol_params_raise) X(iol_params_set_input)                            \
    X(iol_params_clear_input) X(iol_params_output)

#define AT(name) at_##name,
#define AT_PORT(name, end, arguments) at_iol_port_##name,
enum { EACH_OTHER(AT) EACH_CALL(AT_PORT) MEASURED };

#define NAME(name) #name,
#define NAME_PORT(name, end, arguments) "iol_port_" #name,
static const char *const names[MEASURED] = {EACH_OTHER(NAME) EACH_CALL(NAME_PORT)};

static size_t deepest[MEASURED];

/* Below how many octets a call has to stay. */
static size_t bound(int call)
{
    bool opens = call == at_iol_port_open || call == at_iol_port_open_for || call == at_iol_device_open
        || call == at_iol_device_open_from || call == at_iol_params_open;
    bool tells = call == at_iol_port_trace_line || call == at_iol_device_trace_line;
    return opens ? OF_OPENING : tells ? OF_LINE : OF_CALL;
}

/* Paints what lies below the caller, but for the little that this function stands on itself. */
static __attribute__((noinline)) void paint(void)
{
    uint8_t *top = __builtin_frame_address(0);
    volatile uint64_t *at = (volatile uint64_t *)(void *)(top - ROOM);
    while ((uint8_t *)at < top - SKIPPED)
        *at++ = PAINT;
}

/* Keeps how far down the paint is gone after this call, and gives back what it answered. */
static __attribute__((noinline)) uint8_t note(int call, uint8_t answer)
{
    uint8_t *top = __builtin_frame_address(0);
    volatile uint64_t *at = (volatile uint64_t *)(void *)(top - ROOM);
    size_t depth;
    while ((uint8_t *)at < top - SKIPPED && *at == PAINT)
        at++;
    depth = (size_t)(top - (uint8_t *)at);
    if (depth > deepest[call])
        deepest[call] = depth;
    return answer;
}

/* Makes the pages of the stack there before they are painted. */
static __attribute__((noinline)) int reach(void)
{
    volatile uint8_t room[ROOM + KB];
    size_t i;
    for (i = 0; i < sizeof room; i += KB)
        room[i] = 1;
    return room[0];
}

#define CALL(name, ...) (paint(), note(at_##name, name(__VA_ARGS__)))
#define PORT &port
#define P(pointer) (pointer)
#define MAKE(name, end, arguments) (paint(), note(at_iol_port_##name, iol_port_##name arguments));

static iol_port port;
static iol_device device;
static uint8_t longest[LONGEST];
static uint64_t ticket;

static const uint8_t plain[10] = {0x17, 0x2D, 0x11, 0, 0, 0x12, 0x34, 0, 1, 7};
static const uint8_t process[10] = {0x17, 1, 0x11, 0x10, 8, 0x12, 0x34, 0, 1, 7};
static const uint8_t largest[10] = {0x17, 0x0D, 0x11, 0x9F, 0x9F, 0x12, 0x34, 0, 1, 7};

/* The application: parameter 16 has the longest octets, every other is refused. */
static void work(void)
{
    uint64_t number;
    iol_request asked;
    CALL(iol_device_handed, &device, &number, &asked);
    if (asked.kind == 1 && asked.index == 16)
        CALL(iol_device_answer_read, &device, number, longest, LONGEST);
    else if (asked.kind == 2 && asked.index == 16)
        CALL(iol_device_answer_written, &device, number);
    else if (asked.kind != 0)
        CALL(iol_device_answer_refused, &device, number, 0x80, 0x11);
}

/* Every call of calls.h, in whatever state the port is. */
static void calls(void)
{
    struct given given = {16, ticket, {1, 2, 3}, 3, 1, 0x1234, 0x107, 20000};
    struct room room;
    EACH_CALL(MAKE)
}

/* The reply is lost in one of so many turns, in none for 0. */
static void turns(int count, int lost)
{
    iol_message asked;
    iol_reply reply;
    iol_status status;
    iol_trace_line line;
    uint8_t expected;
    while (count-- > 0) {
        CALL(iol_port_status, &port, &status);
        CALL(iol_port_asks, &port, &asked);
        if (asked.length == 0) {
            CALL(iol_device_wake, &device);
            CALL(iol_port_turn_woken, &port, 2);
            CALL(iol_port_trace_line, &port, UINT64_MAX, &line);
            CALL(iol_device_trace_line, &device, UINT64_MAX, 2, &line);
            continue;
        }
        CALL(iol_device_expects, &device, asked.octets, 1, &expected);
        CALL(iol_device_hear, &device, asked.octets, asked.length, &reply);
        work();
        if (lost && count % lost == 0)
            reply.length = 0;
        CALL(iol_port_turn_answered, &port, reply.octets, reply.length);
        CALL(iol_port_trace_line, &port, UINT64_MAX, &line);
        CALL(iol_device_trace_line, &device, UINT64_MAX, 2, &line);
    }
}

static void outcomes(void)
{
    iol_outcome outcome;
    uint64_t i;
    for (i = 0; i <= ticket; i++)
        CALL(iol_port_collect, &port, i, &outcome);
}

static void journal(void)
{
    iol_entry entry;
    uint32_t count, restated;
    CALL(iol_port_drain, &port, &count, &restated);
    CALL(iol_port_archive, &port, &count);
    do
        CALL(iol_port_entry, &port, &entry);
    while (entry.kind);
}

static void requests(int lost)
{
    CALL(iol_port_read, &port, 16, 0, &ticket);
    CALL(iol_port_write, &port, 16, 0, longest, LONGEST, &ticket);
    CALL(iol_port_read_urgent, &port, 17, 0, &ticket);
    CALL(iol_port_write_urgent, &port, 16, 1, longest, LONGEST, &ticket);
    CALL(iol_port_withdraw, &port, ticket);
    turns(1000, lost);
    CALL(iol_port_read, &port, 16, 0, &ticket);
    turns(2, lost);
    CALL(iol_port_cancel, &port, ticket);
    CALL(iol_port_abandon, &port, ticket);
    turns(100, lost);
    outcomes();
}

static void process_data(void)
{
    iol_image image;
    uint32_t micros;
    uint8_t octet;
    size_t i;
    CALL(iol_device_mode, &device, &octet);
    CALL(iol_device_cycle_time, &device, &octet);
    CALL(iol_device_cycle_micros, octet, &micros);
    CALL(iol_port_cycle_micros, octet, &micros);
    CALL(iol_port_checksum, longest, LONGEST);
    CALL(iol_device_checksum, longest, LONGEST);
    for (i = 0; i <= 32; i++) {
        CALL(iol_port_set_output, &port, longest, i);
        CALL(iol_device_set_input, &device, longest, i);
        turns(1, 0);
        CALL(iol_port_image, &port, &image);
        CALL(iol_device_output, &device, &image);
        CALL(iol_device_silence, &device);
        CALL(iol_device_output, &device, &image);
    }
    CALL(iol_port_clear_output, &port);
    CALL(iol_device_clear_input, &device);
    turns(2, 0);
}

static void events(void)
{
    iol_event event;
    int i;
    for (i = 0; i < 40; i++)
        CALL(iol_device_raise, &device, 0xF4, 0x4210);
    turns(300, 0);
    while (CALL(iol_port_take_event, &port, &event) == 0)
        continue;
}

/* What start-ups ask of the device; the first that is expected isn't there. */
static void configured(void)
{
    uint8_t counts;
    uint32_t micros;
    CALL(iol_port_expect, &port, 0x1234, 0x108, &counts);
    CALL(iol_port_restart, &port);
    turns(20, 0);
    CALL(iol_port_expect, &port, 0x1234, 0x107, &counts);
    CALL(iol_port_expect_any, &port, &counts);
    for (micros = 0; micros <= 140000; micros += 20000)
        CALL(iol_port_set_cycle, &port, micros, &counts);
    turns(20, 0);
    calls();
}

/* Replies and messages of octets that no one means. */
static void noise(void)
{
    uint8_t octets[66];
    iol_message asked;
    iol_reply reply;
    size_t count = 0, i;
    int turn;
    for (turn = 0; turn < 500; turn++) {
        count = (count * 5 + 3) % 67;
        for (i = 0; i < count; i++)
            octets[i] = (uint8_t)(turn * 7 + (int)i * 31);
        CALL(iol_device_hear, &device, octets, count, &reply);
        CALL(iol_port_asks, &port, &asked);
        calls();
        CALL(iol_port_turn_answered, &port, octets, count);
        CALL(iol_port_turn_woken, &port, 3);
    }
}

/* A device with parameters, of which one has as many octets as there can be: it takes each message of a port, and saves. */
static void with_parameters(const uint8_t page[10])
{
    static const iol_param_row rows[] = {{16, 0, IOL_OCTETS, IOL_STORED, LONGEST, 0, 0, longest, LONGEST},
        {17, 0, IOL_UINT32, IOL_STORED, 0, 0, 9, longest, 4}, {18, 0, IOL_UINT16, IOL_STORED, 0, 0, 9, longest, 2}};
    static const iol_order_rule rules[] = {{17, 0, 18, 0}};
    static uint8_t image[1 + LONGEST + 1 + 5 + 3];
    iol_params params = {0};
    iol_message asked;
    iol_reply reply;
    iol_value value;
    iol_image output;
    size_t row, size;
    uint8_t octet, error;
    int turn;
    CALL(iol_params_open, &params, page, rows, 3, rules, 1, NULL, 0, &row);
    CALL(iol_params_image_size, &params, &size);
    CALL(iol_port_open_for, &port, IOL_DEVICES_OWN, 1000, 100, 64, 0);
    for (turn = 0; turn < 2000; turn++) {
        CALL(iol_port_asks, &port, &asked);
        if (asked.length == 0) {
            CALL(iol_params_wake, &params);
            CALL(iol_port_turn_woken, &port, 2);
            continue;
        }
        CALL(iol_params_expects, &params, asked.octets, 1, &octet);
        CALL(iol_params_hear, &params, asked.octets, asked.length, &reply);
        if (CALL(iol_params_work, &params) == IOL_TO_SAVE) {
            CALL(iol_params_image, &params, image, size);
            CALL(iol_params_saved, &params);
        }
        CALL(iol_port_turn_answered, &port, reply.octets, reply.length);
        if (turn % 200 == 50)
            CALL(iol_port_write, &port, 16, 0, longest, LONGEST, &ticket);
        if (turn % 200 == 100)
            CALL(iol_port_write, &port, 2, 0, (const uint8_t *)(turn % 400 == 100 ? "\x03" : "\x05"), 1, &ticket);
        if (turn % 200 == 150)
            CALL(iol_port_read, &port, 3, 4, &ticket);
        CALL(iol_params_raise, &params, 0x54, 0x1800);
    }
    CALL(iol_params_set_input, &params, longest, 2);
    CALL(iol_params_clear_input, &params);
    CALL(iol_params_output, &params, &output);
    CALL(iol_params_value, &params, 16, 0, &value, &error);
    CALL(iol_params_mode, &params, &octet);
    CALL(iol_params_cycle_time, &params, &octet);
    CALL(iol_params_restart, &params, &octet);
    CALL(iol_params_locks, &params, &octet);
    CALL(iol_params_silence, &params);
    CALL(iol_params_set, &params, 16, 0, longest, LONGEST, &error);
    CALL(iol_params_saved, &params);
    CALL(iol_params_reset, &params, &error);
    CALL(iol_params_saved, &params);
    CALL(iol_params_close, &params);
    CALL(iol_params_open, &params, page, rows, 3, rules, 1, image, size, &row);
    CALL(iol_params_close, &params);
    CALL(iol_port_close, &port);
    ticket = 0;
}

static void run(const uint8_t page[10])
{
    ticket = 0;
    CALL(iol_device_open, &device, page);
    CALL(iol_device_close, &device);
    CALL(iol_device_open_from, &device, page, 0);
    CALL(iol_port_open, &port, 1000, 100, 64, 0);
    calls();
    turns(4, 0);
    CALL(iol_port_close, &port);
    CALL(iol_port_open_for, &port, IOL_DEVICES_OWN, 1000, 100, 64, 0);
    turns(20, 0);
    requests(0);
    process_data();
    events();
    requests(5);
    CALL(iol_port_read, &port, 16, 0, &ticket);
    turns(3, 0);
    CALL(iol_port_restart, &port);
    CALL(iol_device_power_cycle, &device);
    turns(20, 0);
    configured();
    noise();
    turns(20, 0);
    outcomes();
    journal();
    CALL(iol_port_close, &port);
    CALL(iol_device_close, &device);
}

int main(int count, char **words)
{
    int measures = count > 1 && strcmp(words[1], "measure") == 0, call;
    if (!reach())
        return 1;
    run(plain);
    run(process);
    run(largest);
    with_parameters(plain);
    with_parameters(process);
    for (call = 0; call < MEASURED; call++) {
        if (measures)
            printf("%s %zu\n", names[call], deepest[call]);
        else if (deepest[call] == 0 || deepest[call] >= bound(call))
            printf("%s is not %s\n", names[call], deepest[call] == 0 ? "called" : "below its bound");
    }
    if (!measures)
        printf("of %d KB for an opening, %d KB for a trace line, and %d KB for any other call\n", OF_OPENING / KB,
               OF_LINE / KB, OF_CALL / KB);
    return 0;
}

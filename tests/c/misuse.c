/* Null pointers and copied handles: each call refuses them, writes nothing, and leaves the handle as it was. Calls of a
 * port that may come at any time are those of calls.h. What is printed is compared with misuse.stdout. */
#include "calls.h"
#include "iolink_params.h"
#include <stdio.h>
#include <string.h>

static int wrong;

static void is(long long got, long long wanted, const char *what, int line)
{
    if (got == wanted)
        return;
    wrong++;
    printf("line %d: %s is %lld, not %lld\n", line, what, got, wanted);
}
#define IS(got, wanted) is((long long)(got), (wanted), #got, __LINE__)
#define NULLS(call) IS(call, IOL_NOT_ASKED)

static const uint8_t page[10] = {0x17, 0x2D, 0x11, 0, 0, 0x12, 0x34, 0, 1, 7};

#define OTHER(pointer) (has_others ? (pointer) : NULL)

/* Whether there are pointers in the arguments of a row. */
static bool has_pointers(const char *arguments)
{
    return strstr(arguments, "P(") != NULL;
}

/* Each call of a port that has pointers beside its handle, with these; and each other call, where these are right. */
static void port_calls(iol_port *port, bool has_others, uint8_t wanted)
{
    struct given given = {16, 1, {1, 2, 3}, 3, 1, 1, 1, 0};
    struct room room, before;
    iol_message message, message_before;
    memset(&room, 7, sizeof room);
    memset(&message, 7, sizeof message);
    before = room;
    message_before = message;
    IS(iol_port_asks(port, OTHER(&message)), wanted);
    IS(iol_port_turn_answered(port, OTHER(page), 1), wanted);
    IS(iol_port_write(port, 16, 0, page, 1, OTHER(&room.ticket)), wanted);
    IS(iol_port_write(port, 16, 0, OTHER(page), 1, &room.ticket), wanted);
    IS(iol_port_write_urgent(port, 16, 0, page, 1, OTHER(&room.ticket)), wanted);
    IS(iol_port_write_urgent(port, 16, 0, OTHER(page), 1, &room.ticket), wanted);
    IS(iol_port_drain(port, OTHER(&room.entries), &room.restated), wanted);
    IS(iol_port_drain(port, &room.entries, OTHER(&room.restated)), wanted);
#define PORT port
#define P(pointer) OTHER(pointer)
#define MAKE(name, end, arguments)                                                                                     \
    if (has_others || has_pointers(#arguments))                                                                        \
        is(iol_port_##name arguments, wanted, #name, __LINE__);
    EACH_CALL(MAKE)
    IS(memcmp(&room, &before, sizeof room), 0);
    IS(memcmp(&message, &message_before, sizeof message), 0);
}

static void port_calls_of_the_handle_alone(iol_port *port, uint8_t wanted)
{
    IS(iol_port_turn_woken(port, 0), wanted);
    IS(iol_port_open(port, 1000, 100, 64, 0), wanted);
    IS(iol_port_open_for(port, IOL_DEVICES_OWN, 1000, 100, 64, 0), wanted);
    IS(iol_port_close(port), wanted);
}

/* Each call of a device, with these pointers. */
static void device_calls(iol_device *device, bool has_others, uint8_t wanted)
{
    iol_reply reply;
    iol_request request;
    iol_image image;
    iol_trace_line line;
    uint64_t number = 7;
    uint8_t octet = 7;
    memset(&reply, 7, sizeof reply);
    memset(&line, 7, sizeof line);
    IS(iol_device_hear(device, OTHER(page), 1, &reply), wanted);
    IS(iol_device_hear(device, page, 1, OTHER(&reply)), wanted);
    IS(iol_device_trace_line(device, 1, 2, OTHER(&line)), wanted);
    IS(iol_device_expects(device, OTHER(page), 1, &octet), wanted);
    IS(iol_device_expects(device, page, 1, OTHER(&octet)), wanted);
    IS(iol_device_mode(device, OTHER(&octet)), wanted);
    IS(iol_device_cycle_time(device, OTHER(&octet)), wanted);
    IS(iol_device_handed(device, OTHER(&number), &request), wanted);
    IS(iol_device_handed(device, &number, OTHER(&request)), wanted);
    IS(iol_device_answer_read(device, 1, OTHER(page), 1), wanted);
    IS(iol_device_set_input(device, OTHER(page), 1), wanted);
    IS(iol_device_output(device, OTHER(&image)), wanted);
    IS(reply.length, 7);
    IS(line.text[0], 7);
    IS(number, 7);
    IS(octet, 7);
}

static void device_calls_of_the_handle_alone(iol_device *device, uint8_t wanted)
{
    IS(iol_device_wake(device), wanted);
    IS(iol_device_power_cycle(device), wanted);
    IS(iol_device_silence(device), wanted);
    IS(iol_device_answer_written(device, 1), wanted);
    IS(iol_device_answer_refused(device, 1, 0x80, 0x11), wanted);
    IS(iol_device_raise(device, 0x54, 1), wanted);
    IS(iol_device_clear_input(device), wanted);
    IS(iol_device_open(device, page), wanted);
    IS(iol_device_open_from(device, page, 3), wanted);
    IS(iol_device_close(device), wanted);
}

static const uint8_t octet[1] = {1};
static const iol_param_row rows[] = {{24, 0, IOL_UINT8, IOL_STORED, 0, 0, 9, octet, 1}};
static const iol_param_row without[] = {{24, 0, IOL_UINT8, IOL_STORED, 0, 0, 9, NULL, 1}};
static const iol_order_rule rules[] = {{24, 0, 24, 0}};
enum { SIZE = 3 };

/* Each call of a device with parameters, with these pointers. */
static void params_calls(iol_params *device, bool has_others, uint8_t wanted)
{
    uint8_t image[SIZE] = {7}, error = 7, out = 7;
    iol_reply reply;
    iol_image output;
    iol_value value;
    size_t size = 7;
    memset(&reply, 7, sizeof reply);
    memset(&value, 7, sizeof value);
    IS(iol_params_image_size(device, OTHER(&size)), wanted);
    IS(iol_params_image(device, OTHER(image), SIZE), wanted);
    IS(iol_params_set(device, 24, 0, OTHER(octet), 1, &error), wanted);
    IS(iol_params_set(device, 24, 0, octet, 1, OTHER(&error)), wanted);
    IS(iol_params_reset(device, OTHER(&error)), wanted);
    IS(iol_params_value(device, 24, 0, OTHER(&value), &error), wanted);
    IS(iol_params_value(device, 24, 0, &value, OTHER(&error)), wanted);
    IS(iol_params_restart(device, OTHER(&out)), wanted);
    IS(iol_params_locks(device, OTHER(&out)), wanted);
    IS(iol_params_hear(device, OTHER(page), 1, &reply), wanted);
    IS(iol_params_hear(device, page, 1, OTHER(&reply)), wanted);
    IS(iol_params_expects(device, OTHER(page), 1, &out), wanted);
    IS(iol_params_expects(device, page, 1, OTHER(&out)), wanted);
    IS(iol_params_mode(device, OTHER(&out)), wanted);
    IS(iol_params_cycle_time(device, OTHER(&out)), wanted);
    IS(iol_params_set_input(device, OTHER(page), 1), wanted);
    IS(iol_params_output(device, OTHER(&output)), wanted);
    IS(image[0], 7);
    IS(error, 7);
    IS(out, 7);
    IS(size, 7);
    IS(reply.length, 7);
    IS(value.length, 7);
}

static void params_calls_of_the_handle_alone(iol_params *device, uint8_t wanted)
{
    size_t row = 7;
    IS(iol_params_open(device, page, rows, 1, rules, 1, NULL, 0, &row), wanted);
    IS(iol_params_work(device), wanted);
    IS(iol_params_saved(device), wanted);
    IS(iol_params_wake(device), wanted);
    IS(iol_params_silence(device), wanted);
    IS(iol_params_raise(device, 0x54, 1), wanted);
    IS(iol_params_clear_input(device), wanted);
    IS(iol_params_close(device), wanted);
    IS(row, 7);
}

/* Null pointers and copies at a device with parameters. */
static void params(void)
{
    iol_params device = {0}, copy;
    size_t row = 7;
    params_calls(NULL, true, IOL_NOT_ASKED);
    params_calls_of_the_handle_alone(NULL, IOL_NOT_ASKED);
    NULLS(iol_params_open(&device, NULL, rows, 1, rules, 1, NULL, 0, &row));
    NULLS(iol_params_open(&device, page, NULL, 1, rules, 1, NULL, 0, &row));
    NULLS(iol_params_open(&device, page, without, 1, rules, 1, NULL, 0, &row));
    NULLS(iol_params_open(&device, page, rows, 1, NULL, 1, NULL, 0, &row));
    NULLS(iol_params_open(&device, page, rows, 1, rules, 1, NULL, 1, &row));
    NULLS(iol_params_open(&device, page, rows, 1, rules, 1, NULL, 0, NULL));
    params_calls(&device, false, IOL_NOT_ASKED);
    params_calls(&device, true, IOL_CLOSED);
    IS(iol_params_work(&device), IOL_CLOSED);
    IS(iol_params_saved(&device), IOL_CLOSED);
    IS(iol_params_open(&device, page, NULL, 0, NULL, 0, NULL, 0, &row), 0);
    IS(iol_params_close(&device), 0);
    IS(iol_params_open(&device, page, rows, 1, rules, 1, NULL, 0, &row), 0);
    params_calls(&device, false, IOL_NOT_ASKED);
    copy = device;
    params_calls(&copy, true, IOL_COPIED);
    params_calls_of_the_handle_alone(&copy, IOL_COPIED);
    IS(iol_params_hear(&device, NULL, 0, &(iol_reply){0}), 0);
    IS(iol_params_wake(&device), 0);
    IS(iol_params_close(&device), 0);
    IS(iol_params_close(&copy), IOL_COPIED);
    IS(iol_params_close(&device), IOL_CLOSED);
}

static void nulls(void)
{
    iol_port port = {0};
    iol_device device = {0};
    port_calls(NULL, true, IOL_NOT_ASKED);
    port_calls_of_the_handle_alone(NULL, IOL_NOT_ASKED);
    device_calls(NULL, true, IOL_NOT_ASKED);
    device_calls_of_the_handle_alone(NULL, IOL_NOT_ASKED);
    NULLS(iol_device_open(&device, NULL));
    NULLS(iol_device_open_from(&device, NULL, 3));
    NULLS(iol_port_cycle_micros(1, NULL));
    NULLS(iol_device_cycle_micros(1, NULL));
    NULLS(iol_port_checksum(NULL, 1));
    NULLS(iol_device_checksum(NULL, 1));
    port_calls(&port, false, IOL_NOT_ASKED);
    device_calls(&device, false, IOL_NOT_ASKED);
    IS(iol_port_open(&port, 1000, 100, 64, 0), 0);
    IS(iol_device_open(&device, page), 0);
    port_calls(&port, false, IOL_NOT_ASKED);
    device_calls(&device, false, IOL_NOT_ASKED);
    IS(iol_port_close(&port), 0);
    IS(iol_device_close(&device), 0);
}

/* No octets: null stands for an empty list. */
static void empty_lists(void)
{
    iol_port port = {0};
    iol_device device = {0};
    iol_message message;
    iol_reply reply;
    uint64_t ticket = 0;
    uint8_t octet = 7;
    IS(iol_port_open(&port, 1000, 100, 64, 0), 0);
    IS(iol_device_open(&device, page), 0);
    IS(iol_port_write(&port, 24, 0, NULL, 0, &ticket), 0);
    IS(ticket, 1);
    IS(iol_port_write_urgent(&port, 24, 0, NULL, 0, &ticket), 0);
    IS(ticket, 2);
    IS(iol_port_asks(&port, &message), 0);
    IS(iol_port_turn_woken(&port, 2), 0);
    IS(iol_port_turn_answered(&port, NULL, 0), IOL_NOT_ASKED);
    IS(iol_port_asks(&port, &message), 0);
    IS(iol_port_turn_answered(&port, NULL, 0), 0);
    IS(iol_port_set_output(&port, NULL, 0), 29);
    IS(iol_device_hear(&device, NULL, 0, &reply), 0);
    IS(reply.length, 0);
    IS(iol_device_expects(&device, NULL, 0, &octet), 0);
    IS(octet, 0);
    IS(iol_device_answer_read(&device, 1, NULL, 0), 37);
    IS(iol_device_set_input(&device, NULL, 0), 29);
    IS(iol_port_checksum(NULL, 0), iol_port_checksum(page, 0));
    IS(iol_port_close(&port), 0);
    IS(iol_device_close(&device), 0);
}

/* A copy is told from the handle that was opened, before that is closed and after. */
static void copies(void)
{
    iol_port port = {0}, port_copy;
    iol_device device = {0}, device_copy;
    IS(iol_port_open(&port, 1000, 100, 64, 0), 0);
    IS(iol_device_open(&device, page), 0);
    port_copy = port;
    device_copy = device;
    port_calls(&port_copy, true, IOL_COPIED);
    port_calls_of_the_handle_alone(&port_copy, IOL_COPIED);
    device_calls(&device_copy, true, IOL_COPIED);
    device_calls_of_the_handle_alone(&device_copy, IOL_COPIED);
    IS(iol_port_restart(&port), 0);
    IS(iol_device_wake(&device), 0);
    IS(iol_port_close(&port), 0);
    IS(iol_device_close(&device), 0);
    IS(iol_port_close(&port_copy), IOL_COPIED);
    IS(iol_device_close(&device_copy), IOL_COPIED);
    IS(iol_port_close(&port), IOL_CLOSED);
    IS(iol_device_close(&device), IOL_CLOSED);
    /* A copy of a closed handle is one more closed handle. */
    port_copy = port;
    device_copy = device;
    IS(iol_port_close(&port_copy), IOL_CLOSED);
    IS(iol_device_close(&device_copy), IOL_CLOSED);
    IS(iol_port_open(&port_copy, 1000, 100, 64, 0), 0);
    IS(iol_device_open(&device_copy, page), 0);
    IS(iol_port_close(&port_copy), 0);
    IS(iol_device_close(&device_copy), 0);
}

int main(void)
{
    nulls();
    empty_lists();
    copies();
    params();
    printf("wrong %d\n", wrong);
    return wrong != 0;
}

/* A device with parameters, by a port: each refusal of its calls, what is saved before it is answered, and how much memory
 * a table takes. What is printed is compared with params.stdout. */
#include "iolink_memory.h"
#include "iolink_params.h"
#include "iolink_port.h"
#include <stdio.h>
#include <stdlib.h>
#include <string.h>

enum { LOW = 40, HIGH = 41, NAME = 24, GROUP = 60, SIZE = 1 + 9 + 3 + 3 + 2 + 5, READ = 1, WRITE = 2, KB = 1024 };
enum { DONE_READ = 1, DONE_WRITTEN = 2, DONE_REFUSED = 3 };

static int wrong;

static void is(long long got, long long wanted, const char *what, int line)
{
    if (got == wanted)
        return;
    wrong++;
    printf("line %d: %s is %lld, not %lld\n", line, what, got, wanted);
}
#define IS(got, wanted) is((long long)(got), (wanted), #got, __LINE__)

/* Memory, which counts what is out. */
static size_t out, most_out;
static int blocks_left = 1000;

iol_block rattle_alloc(size_t octets, size_t align)
{
    iol_block block = {false, &block};
    size_t *at = blocks_left > 0 ? malloc(octets + 16) : NULL;
    (void)align;
    if (at == NULL)
        return block;
    blocks_left--;
    *at = octets;
    out += octets;
    most_out = out > most_out ? out : most_out;
    block.is_given = true;
    block.at = (uint8_t *)at + 16;
    return block;
}

void rattle_dealloc(void *at)
{
    size_t *block = (size_t *)(void *)((uint8_t *)at - 16);
    out -= *block;
    free(block);
}

iol_block rattle_realloc(void *at, size_t kept, size_t octets, size_t align)
{
    iol_block block = rattle_alloc(octets, align);
    if (block.is_given) {
        memcpy(block.at, at, kept);
        rattle_dealloc(at);
    }
    return block;
}

#define OF(octets) (const uint8_t *)(octets), sizeof(octets) - 1
static const iol_param_row rows[] = {
    {NAME, 0, IOL_TEXT, IOL_STORED, 8, 0, 0, OF("***")},
    {LOW, 0, IOL_UINT16, IOL_STORED, 0, 0, 1000, OF("\x00\x0A")},
    {HIGH, 0, IOL_UINT16, IOL_STORED, 0, 0, 1000, OF("\x00\xE6")},
    {GROUP, 1, IOL_UINT8, IOL_READ_WRITE, 0, 1, 9, OF("\x01")},
    {GROUP, 2, IOL_OCTETS, IOL_READ_WRITE, 4, 0, 0, OF("abcd")}};
static const iol_order_rule rules[] = {{LOW, 0, HIGH, 0}};
static const uint8_t page[10] = {0x17, 0x2D, 0x11, 0x50, 0x08, 0x12, 0x34, 0x00, 0x01, 0x07};

static iol_params device;
static iol_port port;
static uint8_t image[SIZE];
static uint8_t error;
static size_t row;

static uint8_t open_with(const uint8_t *saved, size_t size)
{
    return iol_params_open(&device, page, rows, 5, rules, 1, saved, size, &row);
}

/* Opens a table with one row of it changed. */
static uint8_t open_changed(size_t at, iol_param_row changed)
{
    iol_param_row *other = malloc(sizeof rows);
    uint8_t answer;
    row = 99;
    memcpy(other, rows, sizeof rows);
    other[at] = changed;
    answer = iol_params_open(&device, page, other, 5, rules, 1, NULL, 0, &row);
    if (answer == 0)
        iol_params_close(&device);
    free(other);
    return answer;
}

static void refused_tables(void)
{
    static const iol_order_rule no_number[] = {{LOW, 0, NAME, 0}}, turned[] = {{HIGH, 0, LOW, 0}};
    static const uint8_t no_page[10] = {0x17, 0x2D, 0x12, 0, 0, 0x12, 0x34, 0, 1, 7};
    iol_param_row *many = calloc(1001, sizeof *many);
    size_t i;
    for (i = 0; i < 1001; i++) {
        many[i] = rows[1];
        many[i].index = (uint16_t)(100 + i);
    }
    IS(iol_params_open(&device, page, many, 1001, NULL, 0, NULL, 0, &row), 50);
    IS(row, 1000);
    IS(iol_params_open(&device, page, many, 77, NULL, 0, NULL, 0, &row), 58);
    IS(row, 77);
    free(many);
    IS(open_changed(1, (iol_param_row){12, 0, IOL_UINT8, IOL_STORED, 0, 0, 9, OF("\x01")}), 51);
    IS(row, 1);
    IS(open_changed(4, (iol_param_row){GROUP, 3, IOL_UINT8, IOL_READ_WRITE, 0, 0, 9, OF("\x01")}), 52);
    IS(row, 4);
    IS(open_changed(4, (iol_param_row){GROUP, 2, IOL_UINT8, IOL_STORED, 0, 0, 9, OF("\x01")}), 53);
    IS(row, 3);
    IS(open_changed(0, (iol_param_row){NAME, 0, IOL_TEXT, IOL_STORED, 0, 0, 0, OF("")}), 54);
    IS(row, 0);
    IS(open_changed(2, (iol_param_row){HIGH, 0, IOL_UINT16, IOL_STORED, 0, 0, 9, OF("\x00\x0A")}), 55);
    IS(row, 2);
    IS(open_changed(2, (iol_param_row){HIGH, 0, IOL_UINT32, IOL_STORED, 0, 0, 9, OF("\x00\x0A")}), 55);
    IS(iol_params_open(&device, page, rows, 5, no_number, 1, NULL, 0, &row), 56);
    IS(row, 0);
    IS(iol_params_open(&device, page, rows, 5, turned, 1, NULL, 0, &row), 57);
    row = 99;
    IS(open_changed(0, (iol_param_row){NAME, 0, 3, IOL_STORED, 8, 0, 0, OF("***")}), IOL_OUT_OF_RANGE);
    IS(open_changed(0, (iol_param_row){NAME, 0, IOL_TEXT, 0, 8, 0, 0, OF("***")}), IOL_OUT_OF_RANGE);
    IS(open_changed(0, (iol_param_row){NAME, 0, IOL_TEXT, 4, 8, 0, 0, OF("***")}), IOL_OUT_OF_RANGE);
    IS(iol_params_open(&device, no_page, rows, 5, rules, 1, NULL, 0, &row), 8);
    for (i = 0; i < 6; i++) {
        blocks_left = (int)i;
        IS(open_with(NULL, 0), i < 5 ? 24 : 0);
    }
    blocks_left = 1000;
    IS(row, 99);
    IS(open_with(NULL, 0), IOL_IS_OPEN);
    IS(iol_params_close(&device), 0);
    IS(iol_params_close(&device), IOL_CLOSED);
    IS(out, 0);
}

/* Some turns of the line, the reply being what the device sends; it works where it is to. */
static void turns(int count, bool works)
{
    while (count-- > 0) {
        iol_message asked;
        iol_reply reply;
        IS(iol_port_asks(&port, &asked), 0);
        if (asked.length == 0) {
            IS(iol_params_wake(&device), 0);
            IS(iol_port_turn_woken(&port, 2), 0);
            continue;
        }
        IS(iol_params_hear(&device, asked.octets, asked.length, &reply), 0);
        if (works && iol_params_work(&device) == IOL_TO_SAVE) {
            IS(iol_params_image(&device, image, SIZE), 0);
            IS(iol_params_saved(&device), 0);
            IS(iol_params_work(&device), 0);
        }
        IS(iol_port_turn_answered(&port, reply.octets, reply.length), 0);
    }
}

/* What becomes of a request: 0, or the AdditionalCode of its ErrorType; the octets of a read are in `outcome`. */
static iol_outcome outcome;

static int request(int kind, uint16_t index, uint8_t sub, const char *octets, size_t count)
{
    uint64_t ticket = 0;
    if (kind == READ)
        IS(iol_port_read(&port, index, sub, &ticket), 0);
    else
        IS(iol_port_write(&port, index, sub, (const uint8_t *)octets, count, &ticket), 0);
    turns(80, true);
    IS(iol_port_collect(&port, ticket, &outcome), 0);
    return outcome.kind == DONE_REFUSED ? outcome.octets[1] : outcome.kind == (kind == READ ? DONE_READ : DONE_WRITTEN)
        ? 0 : -1;
}
#define WRITES(index, sub, octets) request(WRITE, index, sub, octets, sizeof(octets) - 1)

static int value_of(uint16_t index, uint8_t sub)
{
    iol_value value = {7, {7}};
    uint8_t answer = iol_params_value(&device, index, sub, &value, &error);
    return answer != 0 ? -error : value.octets[value.length - 1];
}

static void requests(void)
{
    IS(request(READ, NAME, 0, "", 0), 0);
    IS(outcome.length, 3);
    IS(WRITES(HIGH, 0, "\x00\xF0"), 0);
    IS(value_of(HIGH, 0), 0xF0);
    IS(WRITES(99, 0, "1"), 0x11);
    IS(WRITES(GROUP, 3, "1"), 0x12);
    IS(WRITES(HIGH, 0, "123"), 0x33);
    IS(WRITES(HIGH, 0, "1"), 0x34);
    IS(WRITES(HIGH, 0, "\xFF\xFF"), 0x30);
    IS(WRITES(HIGH, 0, "\x00\x09"), 0x40);
    IS(WRITES(2, 0, "\x06"), 0);
    IS(WRITES(2, 0, "\x04"), 0x36);
    IS(WRITES(2, 0, "\x03"), 0);
    IS(WRITES(HIGH, 0, "\x00\x05"), 0);
    IS(value_of(HIGH, 0), 0xF0);
    IS(iol_params_set(&device, HIGH, 0, (const uint8_t *)"\x00\x10", 2, &error), IOL_WITH_ERROR_TYPE);
    IS(error, 0x36);
    IS(WRITES(LOW, 0, "\x00\x04"), 0);
    IS(WRITES(2, 0, "\x04"), 0);
    IS(value_of(HIGH, 0), 5);
    IS(value_of(LOW, 0), 4);
    IS(value_of(GROUP, 2), 'd');
    IS(value_of(GROUP, 3), -0x12);
    IS(value_of(99, 0), -0x11);
}

/* A write isn't answered before what it changed is saved, and what wasn't saved the power takes. */
static void saving(void)
{
    uint8_t before[SIZE], other[SIZE];
    uint64_t ticket = 0;
    size_t size = 0;
    IS(iol_params_image_size(&device, &size), 0);
    IS(size, SIZE);
    IS(iol_params_image(&device, other, SIZE - 1), IOL_OUT_OF_RANGE);
    IS(iol_params_saved(&device), IOL_NOT_ASKED);
    memcpy(before, image, SIZE);
    IS(iol_port_write(&port, GROUP, 1, (const uint8_t *)"\x05", 1, &ticket), 0);
    turns(5, false);
    IS(iol_params_work(&device), IOL_TO_SAVE);
    turns(20, false);
    IS(iol_params_work(&device), IOL_TO_SAVE);
    IS(iol_port_collect(&port, ticket, &outcome), 26);
    IS(iol_params_set(&device, HIGH, 0, (const uint8_t *)"\x00\x10", 2, &error), IOL_NOT_SAVED);
    IS(iol_params_reset(&device, &error), IOL_NOT_SAVED);
    IS(iol_params_image(&device, image, SIZE), 0);
    IS(iol_params_close(&device), 0);
    IS(open_with(before, SIZE), 0);
    IS(value_of(GROUP, 1), 1);
    IS(iol_params_close(&device), 0);
    IS(open_with(image, SIZE), 0);
    IS(value_of(GROUP, 1), 5);
    turns(30, true);
    IS(WRITES(GROUP, 1, "\x06"), 0);
    image[0] = 0xFF;
    IS(iol_params_close(&device), 0);
    IS(open_with(image, SIZE), 0);
    IS(value_of(GROUP, 1), 1);
    turns(30, true);
}

/* Behind silence in a block all that is left of it is refused, its end too, and the write that was handed over. */
static void cut_off(void)
{
    uint64_t ticket = 0;
    IS(WRITES(2, 0, "\x03"), 0);
    IS(iol_port_write(&port, GROUP, 1, (const uint8_t *)"\x07", 1, &ticket), 0);
    turns(5, false);
    IS(iol_params_silence(&device), 0);
    IS(iol_params_silence(&device), 0);
    turns(80, true);
    IS(iol_port_collect(&port, ticket, &outcome), 0);
    IS(outcome.kind, DONE_REFUSED);
    IS(WRITES(GROUP, 1, "\x07"), 0x36);
    IS(WRITES(2, 0, "\x04"), 0x36);
    IS(value_of(GROUP, 1), 1);
    IS(WRITES(2, 0, "\x06"), 0);
    IS(WRITES(GROUP, 1, "\x07"), 0);
    IS(value_of(GROUP, 1), 7);
    IS(WRITES(2, 0, "\x03"), 0);
    IS(WRITES(GROUP, 1, "\x08"), 0);
    IS(iol_params_reset(&device, &error), IOL_WITH_ERROR_TYPE);
    IS(error, 0x36);
    IS(WRITES(2, 0, "\x04"), 0);
    IS(value_of(GROUP, 1), 8);
}

/* A reset at the device lets nothing in of a block that silence cut off. */
static void reset_behind_silence(void)
{
    IS(WRITES(2, 0, "\x03"), 0);
    IS(iol_params_silence(&device), 0);
    IS(iol_params_reset(&device, &error), 0);
    IS(iol_params_work(&device), IOL_TO_SAVE);
    IS(iol_params_saved(&device), 0);
    IS(WRITES(GROUP, 1, "\x07"), 0x36);
    IS(WRITES(2, 0, "\x04"), 0x36);
    IS(value_of(GROUP, 1), 1);
    IS(WRITES(2, 0, "\x06"), 0);
    IS(WRITES(GROUP, 1, "\x08"), 0);
    IS(value_of(GROUP, 1), 8);
}

static void at_the_device(void)
{
    iol_event event = {0};
    uint8_t octet = 7;
    IS(iol_params_set(&device, HIGH, 0, (const uint8_t *)"\x00\x10", 2, &error), 0);
    IS(iol_params_work(&device), IOL_TO_SAVE);
    IS(iol_params_saved(&device), 0);
    IS(iol_params_work(&device), 0);
    turns(40, true);
    IS(iol_port_take_event(&port, &event), 0);
    IS(event.code, 0xFF91);
    IS(iol_params_set(&device, HIGH, 0, (const uint8_t *)"\x00\x01", 2, &error), IOL_WITH_ERROR_TYPE);
    IS(error, 0x40);
    IS(WRITES(12, 0, "\x00\x0C"), 0);
    IS(iol_params_locks(&device, &octet), 0);
    IS(octet, 0x0C);
    IS(iol_params_set(&device, HIGH, 0, (const uint8_t *)"\x00\x20", 2, &error), IOL_WITH_ERROR_TYPE);
    IS(error, 0x23);
    IS(iol_params_reset(&device, &error), 0);
    IS(iol_params_work(&device), IOL_TO_SAVE);
    IS(iol_params_saved(&device), 0);
    IS(value_of(HIGH, 0), 0xE6);
    IS(iol_params_restart(&device, &octet), 0);
    IS(octet, 0);
    IS(WRITES(2, 0, "\x80"), 0);
    IS(iol_params_restart(&device, &octet), 0);
    IS(octet, 1);
    IS(WRITES(2, 0, "\x83"), 0);
    IS(iol_params_restart(&device, &octet), 0);
    IS(octet, 2);
    IS(WRITES(3, 1, "\x01"), 0);
    IS(iol_params_reset(&device, &error), IOL_WITH_ERROR_TYPE);
    IS(error, 0x36);
    IS(iol_params_silence(&device), 0);
    IS(iol_params_reset(&device, &error), 0);
    IS(iol_params_saved(&device), 0);
}

/* Process data, events and the line, as at a device without a table. */
static void the_rest(void)
{
    iol_image output, input;
    uint8_t octet = 7;
    int i;
    IS(iol_params_mode(&device, &octet), 0);
    IS(octet, 4);
    IS(iol_params_cycle_time(&device, &octet), 0);
    IS(octet, 0x17);
    IS(iol_params_set_input(&device, (const uint8_t *)"123", 3), 29);
    IS(iol_params_set_input(&device, (const uint8_t *)"12", 2), 0);
    IS(iol_port_set_output(&port, (const uint8_t *)"9", 1), 0);
    turns(4, true);
    IS(iol_port_image(&port, &input), 0);
    IS(input.octets[1], '2');
    IS(iol_params_output(&device, &output), 0);
    IS(output.octets[0], '9');
    IS(iol_params_clear_input(&device), 0);
    turns(2, true);
    IS(iol_port_image(&port, &input), 0);
    IS(input.length, 0);
    for (i = 0; i < 40 && iol_params_raise(&device, 0x54, 0x1800) == 0; i++)
        continue;
    IS(iol_params_raise(&device, 0x54, 0x1800), 16);
    IS(iol_params_expects(&device, NULL, 0, &octet), 0);
    IS(octet, 1);
}

/* What a table of 20 parameters takes beside its values, which are there twice, and beside the device itself. */
static void memory(void)
{
    iol_param_row many[20];
    iol_params other = {0};
    size_t i, size = 0, empty;
    for (i = 0; i < 20; i++) {
        many[i] = rows[1];
        many[i].index = (uint16_t)(100 + i);
    }
    out = most_out = 0;
    IS(iol_params_open(&other, page, NULL, 0, NULL, 0, NULL, 0, &row), 0);
    empty = out;
    IS(iol_params_close(&other), 0);
    IS(out, 0);
    IS(iol_params_open(&other, page, many, 20, NULL, 0, NULL, 0, &row), 0);
    IS(iol_params_image_size(&other, &size), 0);
    IS(out - empty - 2 * (size - 1) <= KB, 1);
    printf("a device %zu octets, a table of 20 parameters %zu beside its values, at most %zu\n", empty,
           out - empty - 2 * (size - 1), most_out);
    IS(iol_params_close(&other), 0);
}

int main(void)
{
    refused_tables();
    memory();
    IS(open_with(NULL, 0), 0);
    IS(iol_port_open(&port, 1000, 100, 64, 0), 0);
    turns(30, true);
    requests();
    saving();
    cut_off();
    reset_behind_silence();
    at_the_device();
    the_rest();
    IS(iol_params_close(&device), 0);
    IS(iol_port_close(&port), 0);
    printf("wrong %d\n", wrong);
    return wrong != 0;
}

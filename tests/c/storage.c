/* A port with Data Storage, at a device with parameters: each refusal of its calls, a set that is fetched, saved,
 * restored and told apart, blocks, and how much memory a port takes beside its set. What is printed is compared with
 * storage.stdout. */
#include "iolink_memory.h"
#include "iolink_params.h"
#include "iolink_storage.h"
#include <stdio.h>
#include <stdlib.h>
#include <string.h>

enum { LOW = 40, HIGH = 41, SIZE = 1 + 2 * 3, TURNS = 150, KB = 1024, NO_SET = 44, JOB = 45, UNKNOWN_BLOCK = 46 };
enum { OWNED = 41, TOO_LARGE = 43, NOT_OVER = 47, SMALL = 48, NO_STANDING = 60, UNCOLLECTED = 61, OTHER_SET = 62 };

static int wrong;

static void is(long long got, long long wanted, const char *what, int line)
{
    if (got == wanted)
        return;
    wrong++;
    printf("line %d: %s is %lld, not %lld\n", line, what, got, wanted);
}
#define IS(got, wanted) is((long long)(got), (wanted), #got, __LINE__)

/* Memory, which counts what is out. */
static size_t out;
static int blocks_left = 1000000;

iol_block rattle_alloc(size_t octets, size_t align)
{
    iol_block block = {false, &block};
    size_t *at = blocks_left > 0 ? malloc(octets + 16) : NULL;
    (void)align;
    if (at == NULL)
        return block;
    blocks_left--;
    *at = octets;
    out += octets;
    block.is_given = true;
    block.at = (uint8_t *)at + 16;
    return block;
}

void rattle_dealloc(void *at)
{
    size_t *block = (size_t *)(void *)((uint8_t *)at - 16);
    out -= *block;
    free(block);
}

iol_block rattle_realloc(void *at, size_t kept, size_t octets, size_t align)
{
    iol_block block = rattle_alloc(octets, align);
    if (block.is_given) {
        memcpy(block.at, at, kept);
        rattle_dealloc(at);
    }
    return block;
}

#define OF(octets) (const uint8_t *)(octets), sizeof(octets) - 1
static const iol_param_row rows[] = {{LOW, 0, IOL_UINT16, IOL_STORED, 0, 0, 1000, OF("\x00\x0A")},
    {HIGH, 0, IOL_UINT16, IOL_STORED, 0, 0, 1000, OF("\x00\xE6")}};
static const iol_order_rule rules[] = {{LOW, 0, HIGH, 0}};
static const uint8_t page[10] = {0x17, 0x2D, 0x11, 0x50, 0x08, 0x12, 0x34, 0x00, 0x01, 0x07};
static const uint8_t other_page[10] = {0x17, 0x2D, 0x11, 0x50, 0x08, 0x12, 0x34, 0x00, 0x01, 0x08};

static iol_params device;
static iol_store store;
static bool is_plugged;

static void plug_in(const uint8_t its_page[10])
{
    if (is_plugged)
        IS(iol_params_close(&device), 0);
    IS(iol_params_open(&device, its_page, rows, 2, rules, 1, NULL, 0, &(size_t){0}), 0);
    is_plugged = true;
}

static uint8_t open_with(const uint8_t *octets, size_t count)
{
    return iol_store_open(&store, IOL_DEVICES_ANY, IOL_STORAGE_BOTH, 1000, 100, 64, 0, octets, count);
}

/* One turn; where nothing is plugged in, nothing comes. */
static void turn(void)
{
    uint8_t image[SIZE];
    iol_message asked;
    iol_reply reply = {0};
    uint32_t count, restated;
    iol_event event;
    IS(iol_store_asks(&store, &asked), 0);
    if (asked.length == 0) {
        if (is_plugged)
            IS(iol_params_wake(&device), 0);
        IS(iol_store_turn_woken(&store, is_plugged ? 2 : 0), 0);
    } else {
        if (is_plugged)
            IS(iol_params_hear(&device, asked.octets, asked.length, &reply), 0);
        if (is_plugged && iol_params_work(&device) == IOL_TO_SAVE) {
            IS(iol_params_image(&device, image, SIZE), 0);
            IS(iol_params_saved(&device), 0);
        }
        IS(iol_store_turn_answered(&store, reply.octets, reply.length), 0);
    }
    while (iol_store_take_event(&store, &event) == 0)
        IS(event.code, 0xFF91);
    IS(iol_store_drain(&store, &count, &restated), 0);
}

static void turns(void)
{
    int i;
    for (i = 0; i < TURNS; i++)
        turn();
}

static void unplug(void)
{
    is_plugged = false;
    IS(iol_params_close(&device), 0);
    turns();
}

/* What stands, as one number. */
static int standing(void)
{
    iol_standing it;
    IS(iol_store_standing(&store, &it), 0);
    return 10 * it.kind + it.detail;
}
enum { SERVED = 10 * IOL_SERVED, TROUBLE = 10 * IOL_TROUBLE, RELEASED = 10 * IOL_RELEASED };

static int value_of(uint16_t index)
{
    iol_value value = {0};
    uint8_t error;
    IS(iol_params_value(&device, index, 0, &value, &error), 0);
    return value.octets[0] << 8 | value.octets[1];
}

static iol_set kept, fetched;
static uint64_t number;

static void refused_openings(void)
{
    static const uint8_t owned[] = {1, 2, 3, 4, 0x12, 0x34, 0, 1, 7, 0, 0, 0, 3, 0, 1, 9};
    int i = 0;
    IS(iol_store_open(&store, 2, 2, 1000, 100, 64, 0, NULL, 0), IOL_OUT_OF_RANGE);
    IS(iol_store_open(&store, 1, 4, 1000, 100, 64, 0, NULL, 0), IOL_OUT_OF_RANGE);
    IS(iol_store_open(&store, 1, 2, 3, 100, 64, 0, NULL, 0), IOL_OUT_OF_RANGE);
    IS(iol_store_open(&store, 1, 2, 1000, 1, 64, 0, NULL, 0), IOL_OUT_OF_RANGE);
    IS(iol_store_open(&store, 1, 2, 1000, 100, 65, 0, NULL, 0), IOL_OUT_OF_RANGE);
    IS(iol_store_open(&store, 1, 2, 1000, 100, 2, 0, NULL, 0), SMALL);
    IS(iol_store_open(&store, 1, 2, 11, 100, 64, 0, NULL, 0), SMALL);
    IS(open_with(page, sizeof page), NO_SET);
    IS(open_with(owned, sizeof owned), OWNED);
    for (blocks_left = 0; open_with(NULL, 0) == 24 && i < 9; i++)
        blocks_left = i + 1;
    blocks_left = 1000000;
    IS(i > 0 && i < 9, 1);
    IS(open_with(NULL, 0), IOL_IS_OPEN);
    IS(iol_store_load(&store, owned, sizeof owned), OWNED);
    IS(iol_store_load(&store, owned, 5), NO_SET);
    IS(iol_store_close(&store), 0);
    IS(iol_store_close(&store), IOL_CLOSED);
    IS(out, 0);
}

/* Each call without a pointer, of a handle that is refused. */
static void refused_alone(iol_store *it, uint8_t wanted)
{
    IS(iol_store_turn_woken(it, 9), wanted);
    IS(iol_store_withdraw(it, 1), wanted);
    IS(iol_store_cancel(it, 1), wanted);
    IS(iol_store_abandon(it, 1), wanted);
    IS(iol_store_restart(it), wanted);
    IS(iol_store_clear_output(it), wanted);
    IS(iol_store_saved(it, 1), wanted);
    IS(iol_store_forget(it), wanted);
    IS(iol_store_release(it), wanted);
    IS(iol_store_block_begin(it), wanted);
}

#define OTHER(pointer) (has_others ? (pointer) : NULL)

/* Each other call, of a handle that is refused, or with a pointer that is null: it writes nothing. */
static void refused(iol_store *it, bool has_others, uint8_t wanted)
{
    uint64_t ticket = 7;
    uint32_t count = 7, restated = 7;
    uint8_t counts = 7;
    iol_set set = {.length = 7};
    iol_standing state = {.kind = 7};
    iol_block_end end = {.kind = 7};
    iol_message asked = {.length = 7};
    iol_outcome outcome = {.kind = 7};
    iol_image image = {.length = 7};
    iol_event event = {.code = 7};
    iol_status status = {.mode = 7};
    iol_loss loss = {.why = 7};
    iol_counters counters = {.exchanges = 7};
    iol_page its_page = {.length = 7};
    iol_entry entry = {.kind = 7};
    IS(iol_store_asks(it, OTHER(&asked)), wanted);
    IS(iol_store_turn_answered(it, OTHER(page), 1), wanted);
    IS(iol_store_read(it, 16, 0, OTHER(&ticket)), wanted);
    IS(iol_store_read_urgent(it, 16, 0, OTHER(&ticket)), wanted);
    IS(iol_store_write(it, 16, 0, page, 1, OTHER(&ticket)), wanted);
    IS(iol_store_write(it, 16, 0, OTHER(page), 1, &ticket), wanted);
    IS(iol_store_write_urgent(it, 16, 0, page, 1, OTHER(&ticket)), wanted);
    IS(iol_store_write_urgent(it, 16, 0, OTHER(page), 1, &ticket), wanted);
    IS(iol_store_collect(it, 1, OTHER(&outcome)), wanted);
    IS(iol_store_expect(it, 1, 0x1000000, OTHER(&counts)), wanted);
    IS(iol_store_expect_any(it, OTHER(&counts)), wanted);
    IS(iol_store_set_cycle(it, 200000, OTHER(&counts)), wanted);
    IS(iol_store_page(it, OTHER(&its_page)), wanted);
    IS(iol_store_set_output(it, OTHER(page), 1), wanted);
    IS(iol_store_image(it, OTHER(&image)), wanted);
    IS(iol_store_take_event(it, OTHER(&event)), wanted);
    IS(iol_store_status(it, OTHER(&status)), wanted);
    IS(iol_store_last_loss(it, OTHER(&loss)), wanted);
    IS(iol_store_counters(it, OTHER(&counters)), wanted);
    IS(iol_store_drain(it, &count, OTHER(&restated)), wanted);
    IS(iol_store_drain(it, OTHER(&count), &restated), wanted);
    IS(iol_store_entry(it, OTHER(&entry)), wanted);
    IS(iol_store_standing(it, OTHER(&state)), wanted);
    IS(iol_store_set(it, OTHER(&set)), wanted);
    IS(iol_store_unsaved(it, &ticket, OTHER(&set)), wanted);
    IS(iol_store_unsaved(it, OTHER(&ticket), &set), wanted);
    IS(iol_store_load(it, OTHER(page), 1), wanted);
    IS(iol_store_block_write(it, 16, 0, OTHER(page), 1), wanted);
    IS(iol_store_block_submit(it, 9, OTHER(&ticket)), wanted);
    IS(iol_store_block_collect(it, 1, OTHER(&end)), wanted);
    IS(ticket + count + restated + counts + set.length + state.kind + end.kind + asked.length + outcome.kind, 9 * 7);
    IS(image.length + event.code + status.mode + loss.why + counters.exchanges + its_page.length + entry.kind, 7 * 7);
}

/* Null pointers, closed handles, and copies of open ones. */
static void misused(void)
{
    iol_store copy;
    refused(NULL, true, IOL_NOT_ASKED);
    refused_alone(NULL, IOL_NOT_ASKED);
    refused(&store, false, IOL_NOT_ASKED);
    refused(&store, true, IOL_CLOSED);
    refused_alone(&store, IOL_CLOSED);
    IS(iol_store_open(&store, 1, 2, 1000, 100, 64, 0, NULL, 1), IOL_NOT_ASKED);
    IS(open_with(NULL, 0), 0);
    copy = store;
    refused(&store, false, IOL_NOT_ASKED);
    refused(&copy, true, IOL_COPIED);
    refused_alone(&copy, IOL_COPIED);
    IS(iol_store_close(&copy), IOL_COPIED);
    IS(iol_store_open(&copy, 1, 2, 1000, 100, 64, 0, NULL, 0), IOL_COPIED);
    IS(iol_store_close(&store), 0);
    IS(iol_store_close(NULL), IOL_NOT_ASKED);
}

/* The device is set up at its key; what it has then is fetched, and told once it is saved. */
static void fetch(void)
{
    uint8_t error;
    uint64_t ticket = 0;
    iol_outcome outcome;
    IS(iol_params_set(&device, HIGH, 0, (const uint8_t *)"\x00\xF0", 2, &error), 0);
    IS(iol_params_saved(&device), 0);
    IS(iol_store_block_begin(&store), 0);
    IS(iol_store_block_submit(&store, IOL_KEEP, &ticket), NO_STANDING);
    turns();
    IS(standing(), 0);
    IS(iol_store_read(&store, HIGH, 0, &ticket), 0);
    turns();
    IS(iol_store_collect(&store, ticket, &outcome), 26);
    IS(iol_store_unsaved(&store, &number, &fetched), 0);
    IS(number, 1);
    IS(fetched.length, 11 + 2 * 6);
    IS(iol_store_forget(&store), JOB);
    IS(iol_store_load(&store, fetched.octets, fetched.length), JOB);
    IS(iol_store_saved(&store, 2), OTHER_SET);
    IS(iol_store_saved(&store, number), 0);
    IS(iol_store_saved(&store, number), OTHER_SET);
    turns();
    IS(standing(), SERVED + IOL_FETCHED);
    IS(iol_store_collect(&store, ticket, &outcome), 0);
    IS(outcome.octets[1], 0xF0);
    IS(iol_store_unsaved(&store, &number, &kept), 0);
    IS(number + kept.length, 0);
    IS(iol_store_set(&store, &kept), 0);
    IS(memcmp(&kept, &fetched, kept.length + 2), 0);
}

/* Another unit of its type gets the set, one of another type doesn't. */
static void exchange(void)
{
    iol_image image;
    iol_loss loss;
    unplug();
    IS(standing(), 0);
    IS(iol_store_last_loss(&store, &loss), 0);
    IS(loss.why, 19);
    plug_in(page);
    turns();
    IS(standing(), SERVED + IOL_RESTORED);
    IS(value_of(HIGH), 0xF0);
    unplug();
    plug_in(other_page);
    turns();
    IS(standing(), TROUBLE + IOL_WRONG_IDENTITY);
    IS(iol_params_set_input(&device, (const uint8_t *)"12", 2), 0);
    turns();
    IS(iol_store_image(&store, &image), 0);
    IS(image.length, 0);
    IS(iol_store_release(&store), 0);
    IS(standing(), RELEASED + IOL_WRONG_IDENTITY);
    IS(iol_store_image(&store, &image), 0);
    IS(image.octets[1], '2');
    IS(iol_store_forget(&store), 0);
    IS(iol_store_set(&store, &fetched), 0);
    IS(fetched.length, 0);
    turns();
    IS(iol_store_saved(&store, 2), 0);
    turns();
    IS(standing(), SERVED + IOL_FETCHED);
    unplug();
    IS(iol_store_close(&store), 0);
    IS(open_with(kept.octets, kept.length), 0);
    plug_in(page);
    turns();
    IS(standing(), SERVED + IOL_RESTORED);
    IS(iol_store_load(&store, kept.octets, kept.length), 0);
    IS(iol_store_set_output(&store, (const uint8_t *)"9", 1), 0);
    turns();
    IS(iol_params_output(&device, &image), 0);
    IS(image.octets[0], '9');
    IS(iol_store_clear_output(&store), 0);
}

static int block(int low, int high, iol_block_end *end)
{
    uint64_t ticket = 7;
    IS(iol_store_block_begin(&store), 0);
    IS(iol_store_block_write(&store, LOW, 0, (const uint8_t[2]){(uint8_t)(low >> 8), (uint8_t)low}, 2), 0);
    IS(iol_store_block_write(&store, HIGH, 0, (const uint8_t[2]){(uint8_t)(high >> 8), (uint8_t)high}, 2), 0);
    IS(iol_store_block_submit(&store, IOL_KEEP, &ticket), 0);
    IS(iol_store_block_submit(&store, IOL_KEEP, &ticket), IOL_NOT_ASKED);
    IS(ticket, 0);
    turns();
    IS(iol_store_unsaved(&store, &number, &fetched), 0);
    if (fetched.length > 0)
        IS(iol_store_saved(&store, number), 0);
    turns();
    ticket = low < high ? 1 : 2;
    IS(iol_store_block_collect(&store, ticket, end), 0);
    IS(iol_store_block_collect(&store, ticket, end), UNKNOWN_BLOCK);
    return end->kind;
}

static void blocks(void)
{
    iol_block_end end = {0};
    uint64_t ticket = 7, other = 7;
    uint8_t much[233] = {0};
    int i;
    IS(iol_store_block_write(&store, LOW, 0, much, 2), IOL_NOT_ASKED);
    IS(iol_store_block_submit(&store, IOL_KEEP_NOT, &ticket), IOL_NOT_ASKED);
    IS(block(250, 300, &end), 1);
    IS(value_of(LOW), 250);
    IS(block(400, 350, &end), 3);
    IS(end.refused.error, 0x80);
    IS(end.refused.additional, 0x41);
    IS(value_of(LOW), 250);
    IS(value_of(HIGH), 300);
    IS(iol_store_block_begin(&store), 0);
    IS(iol_store_block_write(&store, LOW, 0, much, 233), TOO_LARGE);
    IS(iol_store_block_write(&store, 3, 1, much, 1), 0);
    IS(iol_store_block_submit(&store, 2, &ticket), IOL_OUT_OF_RANGE);
    IS(iol_store_block_submit(&store, IOL_KEEP_NOT, &ticket), OWNED);
    IS(iol_store_block_begin(&store), 0);
    for (i = 0; i < 76; i++)
        IS(iol_store_block_write(&store, LOW, 0, much, 2), 0);
    IS(iol_store_block_write(&store, LOW, 0, much, 2), TOO_LARGE);
    IS(iol_store_block_submit(&store, IOL_KEEP_NOT, &ticket), 0);
    IS(iol_store_block_begin(&store), 0);
    IS(iol_store_block_submit(&store, IOL_KEEP_NOT, &other), JOB);
    IS(iol_store_block_collect(&store, ticket, &end), NOT_OVER);
    unplug();
    plug_in(page);
    turns();
    IS(iol_store_block_submit(&store, IOL_KEEP_NOT, &other), UNCOLLECTED);
    IS(iol_store_block_collect(&store, ticket, &end), 0);
    IS(end.kind, 4);
    IS(standing(), SERVED + IOL_RESTORED);
    IS(value_of(LOW), 250);
    IS(iol_store_write(&store, 3, 1, much, 1, &other), OWNED);
}

/* Where nothing is kept, and nothing fetched; and where Data Storage isn't used. */
static void modes(void)
{
    IS(iol_store_open(&store, IOL_DEVICES_OWN, IOL_STORAGE_RESTORE, 1000, 100, 64, 0, NULL, 0), 0);
    turns();
    IS(standing(), SERVED + IOL_EMPTY);
    IS(iol_store_close(&store), 0);
    IS(iol_store_open(&store, IOL_DEVICES_OWN, IOL_STORAGE_OFF, 1000, 100, 64, 0, kept.octets, kept.length), 0);
    turns();
    IS(standing(), SERVED + IOL_OFF);
    IS(iol_store_close(&store), 0);
}

/* What is as at a port without Data Storage. */
static void the_rest(void)
{
    uint64_t ticket = 0;
    uint32_t count, restated;
    uint8_t counts;
    iol_message asked;
    iol_outcome outcome;
    iol_status status;
    iol_page its_page;
    iol_counters counters;
    iol_entry entry;
    IS(iol_store_turn_woken(&store, 4), IOL_OUT_OF_RANGE);
    IS(iol_store_turn_woken(&store, 2), IOL_NOT_ASKED);
    IS(iol_store_turn_answered(&store, NULL, 0), IOL_NOT_ASKED);
    IS(iol_store_write(&store, HIGH, 0, page, 233, &ticket), 9);
    IS(iol_store_write_urgent(&store, HIGH, 0, (const uint8_t *)"\x01\x2D", 2, &ticket), 0);
    turns();
    IS(iol_store_collect(&store, ticket, &outcome), 0);
    IS(outcome.kind, 2);
    IS(iol_store_collect(&store, ticket, &outcome), 25);
    IS(iol_store_read_urgent(&store, HIGH, 0, &ticket), 0);
    IS(iol_store_cancel(&store, ticket), 36);
    IS(iol_store_withdraw(&store, ticket), 0);
    IS(iol_store_abandon(&store, ticket), 0);
    IS(iol_store_abandon(&store, ticket), 25);
    IS(iol_store_set_output(&store, page, 0), 29);
    IS(iol_store_set_output(&store, page, 2), 29);
    IS(iol_store_expect(&store, 0x1234, 0x1000000, &counts), IOL_OUT_OF_RANGE);
    IS(iol_store_expect(&store, 0x1234, 0x107, &counts), 0);
    IS(counts, 2);
    IS(iol_store_expect_any(&store, &counts), 0);
    IS(iol_store_set_cycle(&store, 132801, &counts), 39);
    IS(iol_store_set_cycle(&store, 5000, &counts), 0);
    IS(iol_store_page(&store, &its_page), 0);
    IS(its_page.octets[9], 7);
    IS(iol_store_status(&store, &status), 0);
    IS(status.mode, 4);
    IS(iol_store_counters(&store, &counters), 0);
    IS(counters.start_ups, 2);
    IS(iol_store_drain(&store, &count, &restated), 0);
    IS(count >= 3, 1);
    while (count-- > 0)
        IS(iol_store_entry(&store, &entry) + (entry.kind == 0), 0);
    IS(iol_store_entry(&store, &entry) + entry.kind, 0);
    IS(iol_store_asks(&store, &asked), 0);
    IS(iol_store_restart(&store), IOL_NOT_ASKED);
    IS(iol_store_turn_answered(&store, NULL, 0), 0);
    IS(iol_store_restart(&store), 0);
    IS(iol_store_status(&store, &status), 0);
    IS(status.mode, 1);
}

/* What a port takes more than one without Data Storage, beside the room for its set. */
static void memory(void)
{
    iol_store other = {0};
    iol_port port = {0};
    size_t plain, stored, gathering;
    out = 0;
    IS(iol_port_open(&port, 1000, 100, 64, 0), 0);
    plain = out;
    IS(iol_port_close(&port), 0);
    IS(iol_store_open(&other, 1, 2, 1000, 100, 64, 0, NULL, 0), 0);
    stored = out;
    IS(iol_store_block_begin(&other), 0);
    gathering = out - stored;
    IS(iol_store_close(&other), 0);
    IS(out, 0);
    IS(stored - plain - IOL_MOST_SET <= 4 * KB, 1);
    printf("a port %zu octets, with Data Storage %zu more beside a set of %d, and %zu while a block gathers\n", plain,
           stored - plain - IOL_MOST_SET, IOL_MOST_SET, gathering);
}

int main(void)
{
    memory();
    refused_openings();
    misused();
    IS(open_with(NULL, 0), 0);
    plug_in(page);
    fetch();
    exchange();
    blocks();
    the_rest();
    IS(iol_store_close(&store), 0);
    modes();
    IS(iol_params_close(&device), 0);
    IS(out, 0);
    printf("wrong %d\n", wrong);
    return wrong != 0;
}

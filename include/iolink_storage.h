/* A port of an IO-Link master with Data Storage: the next unit of a type gets the parameters of the one before, without
 * a tool; and with blocks, several writes that a device applies together.
 *
 * What you owe, and what is checked, is what iolink_port.h says, of the handle iol_store too. Beside that:
 *
 *   - a set is saved whole or not at all, wherever the power fails: as by a new file that gets the name of the old one
 *   - the journal is drained, where one is kept: a full one takes no request, of Data Storage neither
 *
 * The numbers of refusals are those of iolink_port.h, and of Data Storage
 *   41  the Index of Data Storage, 3, is the port's; nor has a set or a block a SystemCommand, 2
 *   43  too many writes or octets
 *   44  no set has these octets
 *   45  a check of Data Storage, or a block, is under way
 *   46  no such block is outstanding
 *   47  the block isn't over
 *   48  fewer than three tickets may be outstanding, or a journal that is kept has fewer than 12 entries
 *   60  there is no session, or Data Storage hasn't come to its end in it
 *   61  the outcome of the block before was not collected
 *   62  no set of this number waits to be saved
 * The first that holds is answered; what is refused changed nothing, and is written as iolink_port.h says.
 *
 * Behind each turn:
 *
 *     while (iol_store_take_event(&store, &event) == 0)
 *         ..FF91 asks for a fetch: the port sees it here alone..
 *     iol_store_unsaved(&store, &number, &set);
 *     if (set.length > 0) {
 *         ..save the set..
 *         iol_store_saved(&store, number);
 *     }
 *     iol_store_drain(&store, &count, &restated);
 */
#ifndef IOLINK_STORAGE_H
#define IOLINK_STORAGE_H

#include "iolink_port.h"

#ifdef __cplusplus
extern "C" {
#endif

typedef struct { void *at; bool is_open; const void *opened_at; } iol_store;

/* How Data Storage is used: not at all; the kept set is restored, and none is fetched; what was changed at the device
 * replaces the kept set, too; likewise, but only a change at the unit that the set is of. */
enum { IOL_STORAGE_OFF = 0, IOL_STORAGE_RESTORE = 1, IOL_STORAGE_BOTH = 2, IOL_STORAGE_OWN = 3 };

/* Opens a port with Data Storage, whose link is down, with the set that was saved last: `count` octets, 0 where none
 * was. `devices` is IOL_DEVICES_OWN or IOL_DEVICES_ANY; the numbers behind `mode` are those of iol_port_open. Two of
 * the tickets aren't for clients, and each ticket takes four entries of the journal. 253 it is open already, 254 a
 * number is out of its range, 44, 48, 41, 24 no memory. */
uint8_t iol_store_open(iol_store *store, uint8_t devices, uint8_t mode, uint32_t journal, uint16_t busy, uint8_t queue,
    uint64_t given, const uint8_t *octets, size_t count);

/* Ends the port, and gives its memory back. 252. */
uint8_t iol_store_close(iol_store *store);

/* ---- Data Storage */

/* What came of Data Storage in the present session:
 *    IOL_AWAITED   nothing yet: requests of clients wait, and there are no process data
 *    IOL_SERVED    the device is served; `detail` is one of IOL_OFF to IOL_FETCHED
 *    IOL_TROUBLE   requests go on, and there are no process data; `detail` is one of IOL_WRONG_IDENTITY to IOL_ATTEMPTS
 *    IOL_RELEASED  the device is served in spite of that trouble
 * `refused` is what the device refused, where that is the trouble, by its place and its ErrorType; else 0. */
enum { IOL_AWAITED = 0, IOL_SERVED = 1, IOL_TROUBLE = 2, IOL_RELEASED = 3 };
enum { IOL_OFF = 1, IOL_UNSUPPORTED = 2, IOL_EMPTY = 3, IOL_SAME = 4, IOL_RESTORED = 5, IOL_FETCHED = 6 };
enum { IOL_WRONG_IDENTITY = 1, IOL_NO_STORAGE = 2, IOL_LOCKED = 3, IOL_TOO_LARGE = 4, IOL_BAD_LIST = 5, IOL_REFUSED = 6,
    IOL_ATTEMPTS = 7 };
typedef struct { uint16_t index; uint8_t sub; uint8_t error; uint8_t additional; } iol_refusal;
typedef struct { uint8_t kind; uint8_t detail; iol_refusal refused; } iol_standing;

/* How the device and the kept set stand. It changes nothing. 252. */
uint8_t iol_store_standing(iol_store *store, iol_standing *out);

/* A set, as it is saved: `length` octets, none where that is 0. */
#define IOL_MOST_SET 2079
typedef struct { uint16_t length; uint8_t octets[IOL_MOST_SET]; } iol_set;

/* The set that is kept, if one is. It changes nothing. 252. */
uint8_t iol_store_set(iol_store *store, iol_set *out);

/* The set that was fetched, with its number, until it is saved; else no octets and 0. Meanwhile clients wait. It
 * changes nothing. 252. */
uint8_t iol_store_unsaved(iol_store *store, uint64_t *number, iol_set *out);

/* The set of this number is saved: now the device is told. 252, 62. */
uint8_t iol_store_saved(iol_store *store, uint64_t number);

/* Keeps the set of these octets from now on. In trouble another check follows. 252, 44, 45, 41. */
uint8_t iol_store_load(iol_store *store, const uint8_t *octets, size_t count);

/* Keeps no set from now on. In trouble another check follows. 252, 45. */
uint8_t iol_store_forget(iol_store *store);

/* Serves the device in spite of a trouble, up to the end of the session; nothing while a check is under way. 252. */
uint8_t iol_store_release(iol_store *store);

/* ---- blocks: begin, write, write, .., submit; and collect, once it is over */

/* Begins a block, in place of one that wasn't submitted. Its writes take 2,672 octets until they are submitted. 252, 24
 * no memory. */
uint8_t iol_store_block_begin(iol_store *store);

/* One more write of it. 252, 255 no block was begun, 43 the 77th write, more than 232 octets, or more than 2,048 of
 * all, with four of each beside its octets. */
uint8_t iol_store_block_write(iol_store *store, uint16_t index, uint8_t sub, const uint8_t *octets, size_t count);

/* The device is to apply these writes, all or none, in order. A restore undoes them later, unless Data Storage keeps
 * them: IOL_KEEP. Refused, they stay for another submit. 252, 254 `keep` is neither, 255 no block was begun, 45, 60,
 * 61, 41. */
#define IOL_KEEP_NOT 0
#define IOL_KEEP 1
uint8_t iol_store_block_submit(iol_store *store, uint8_t keep, uint64_t *ticket);

/* How a block ended. Where `kind` is
 *    1  applied, all of it
 *    3  refused by the device, none of it; `refused` is which write, or 2/0 the block itself, and the ErrorType
 *    4  not applied: it was cut off before its end
 *    8  unknown: its end was cut off, and all of it is applied, or none; `cause` is as of iol_outcome
 *   16  the device has no ISDU, and nothing was sent
 * Other kinds may come. */
typedef struct { uint8_t kind; uint8_t cause; iol_refusal refused; } iol_block_end;

/* Hands out how a block ended. 252, 46, 47. */
uint8_t iol_store_block_collect(iol_store *store, uint64_t ticket, iol_block_end *out);

/* ---- the rest is as at a port without Data Storage: each call is that of iolink_port.h of its name
 *
 * But a write at Index 3 is refused with 41, and a ticket of Data Storage is unknown to clients: 25. Where the device
 * isn't served there is no image, and an output is wanted once it is. */

uint8_t iol_store_asks(iol_store *store, iol_message *out);
uint8_t iol_store_turn_woken(iol_store *store, uint8_t rate);
uint8_t iol_store_turn_answered(iol_store *store, const uint8_t *octets, size_t count);
uint8_t iol_store_read(iol_store *store, uint16_t index, uint8_t sub, uint64_t *ticket);
uint8_t iol_store_read_urgent(iol_store *store, uint16_t index, uint8_t sub, uint64_t *ticket);
uint8_t iol_store_write(iol_store *store, uint16_t index, uint8_t sub, const uint8_t *octets, size_t count,
    uint64_t *ticket);
uint8_t iol_store_write_urgent(iol_store *store, uint16_t index, uint8_t sub, const uint8_t *octets, size_t count,
    uint64_t *ticket);
uint8_t iol_store_collect(iol_store *store, uint64_t ticket, iol_outcome *out);
uint8_t iol_store_withdraw(iol_store *store, uint64_t ticket);
uint8_t iol_store_cancel(iol_store *store, uint64_t ticket);
uint8_t iol_store_abandon(iol_store *store, uint64_t ticket);
uint8_t iol_store_expect(iol_store *store, uint16_t vendor, uint32_t device, uint8_t *counts);
uint8_t iol_store_expect_any(iol_store *store, uint8_t *counts);
uint8_t iol_store_set_cycle(iol_store *store, uint32_t micros, uint8_t *counts);
uint8_t iol_store_page(iol_store *store, iol_page *out);
uint8_t iol_store_restart(iol_store *store);
uint8_t iol_store_set_output(iol_store *store, const uint8_t *octets, size_t count);
uint8_t iol_store_clear_output(iol_store *store);
uint8_t iol_store_image(iol_store *store, iol_image *out);
uint8_t iol_store_take_event(iol_store *store, iol_event *out);
uint8_t iol_store_status(iol_store *store, iol_status *out);
uint8_t iol_store_last_loss(iol_store *store, iol_loss *out);
uint8_t iol_store_counters(iol_store *store, iol_counters *out);
uint8_t iol_store_drain(iol_store *store, uint32_t *count, uint32_t *restated);
uint8_t iol_store_entry(iol_store *store, iol_entry *out);

/* ---- what is checked before each call, as at the end of iolink_port.h */

IOL_INLINE uint8_t iol_store_misuse(const iol_store *store, bool has_pointers)
{
    if (store == NULL || !has_pointers)
        return IOL_NOT_ASKED;
    return store->is_open && store->opened_at != store ? IOL_COPIED : 0;
}

IOL_CHECKED_OPENING(store, store_open,
    (iol_store *store, uint8_t devices, uint8_t mode, uint32_t journal, uint16_t busy, uint8_t queue, uint64_t given,
    const uint8_t *octets, size_t count),
    iol_store_misuse(store, octets != NULL || count == 0),
    (store, devices, mode, journal, busy, queue, given, iol_octets_at(octets), count))
#define iol_store_open iol_checked_store_open

IOL_CHECKED(store_close, (iol_store *store), iol_store_misuse(store, true), (store))
#define iol_store_close iol_checked_store_close

IOL_CHECKED(store_standing, (iol_store *store, iol_standing *out), iol_store_misuse(store, out != NULL), (store, out))
#define iol_store_standing iol_checked_store_standing

IOL_CHECKED(store_set, (iol_store *store, iol_set *out), iol_store_misuse(store, out != NULL), (store, out))
#define iol_store_set iol_checked_store_set

IOL_CHECKED(store_unsaved, (iol_store *store, uint64_t *number, iol_set *out),
    iol_store_misuse(store, number != NULL && out != NULL), (store, number, out))
#define iol_store_unsaved iol_checked_store_unsaved

IOL_CHECKED(store_saved, (iol_store *store, uint64_t number), iol_store_misuse(store, true), (store, number))
#define iol_store_saved iol_checked_store_saved

IOL_CHECKED(store_load, (iol_store *store, const uint8_t *octets, size_t count),
    iol_store_misuse(store, octets != NULL || count == 0), (store, iol_octets_at(octets), count))
#define iol_store_load iol_checked_store_load

IOL_CHECKED(store_forget, (iol_store *store), iol_store_misuse(store, true), (store))
#define iol_store_forget iol_checked_store_forget

IOL_CHECKED(store_release, (iol_store *store), iol_store_misuse(store, true), (store))
#define iol_store_release iol_checked_store_release

IOL_CHECKED(store_block_begin, (iol_store *store), iol_store_misuse(store, true), (store))
#define iol_store_block_begin iol_checked_store_block_begin

IOL_CHECKED(store_block_write, (iol_store *store, uint16_t index, uint8_t sub, const uint8_t *octets, size_t count),
    iol_store_misuse(store, octets != NULL || count == 0), (store, index, sub, iol_octets_at(octets), count))
#define iol_store_block_write iol_checked_store_block_write

IOL_CHECKED(store_block_submit, (iol_store *store, uint8_t keep, uint64_t *ticket),
    iol_store_misuse(store, ticket != NULL), (store, keep, ticket))
#define iol_store_block_submit iol_checked_store_block_submit

IOL_CHECKED(store_block_collect, (iol_store *store, uint64_t ticket, iol_block_end *out),
    iol_store_misuse(store, out != NULL), (store, ticket, out))
#define iol_store_block_collect iol_checked_store_block_collect

IOL_CHECKED(store_asks, (iol_store *store, iol_message *out), iol_store_misuse(store, out != NULL), (store, out))
#define iol_store_asks iol_checked_store_asks

IOL_CHECKED(store_turn_woken, (iol_store *store, uint8_t rate), iol_store_misuse(store, true), (store, rate))
#define iol_store_turn_woken iol_checked_store_turn_woken

IOL_CHECKED(store_turn_answered, (iol_store *store, const uint8_t *octets, size_t count),
    iol_store_misuse(store, octets != NULL || count == 0), (store, iol_octets_at(octets), count))
#define iol_store_turn_answered iol_checked_store_turn_answered

IOL_CHECKED(store_read, (iol_store *store, uint16_t index, uint8_t sub, uint64_t *ticket),
    iol_store_misuse(store, ticket != NULL), (store, index, sub, ticket))
#define iol_store_read iol_checked_store_read

IOL_CHECKED(store_read_urgent, (iol_store *store, uint16_t index, uint8_t sub, uint64_t *ticket),
    iol_store_misuse(store, ticket != NULL), (store, index, sub, ticket))
#define iol_store_read_urgent iol_checked_store_read_urgent

IOL_CHECKED(store_write,
    (iol_store *store, uint16_t index, uint8_t sub, const uint8_t *octets, size_t count, uint64_t *ticket),
    iol_store_misuse(store, (octets != NULL || count == 0) && ticket != NULL),
    (store, index, sub, iol_octets_at(octets), count, ticket))
#define iol_store_write iol_checked_store_write

IOL_CHECKED(store_write_urgent,
    (iol_store *store, uint16_t index, uint8_t sub, const uint8_t *octets, size_t count, uint64_t *ticket),
    iol_store_misuse(store, (octets != NULL || count == 0) && ticket != NULL),
    (store, index, sub, iol_octets_at(octets), count, ticket))
#define iol_store_write_urgent iol_checked_store_write_urgent

IOL_CHECKED(store_collect, (iol_store *store, uint64_t ticket, iol_outcome *out),
    iol_store_misuse(store, out != NULL), (store, ticket, out))
#define iol_store_collect iol_checked_store_collect

IOL_CHECKED(store_withdraw, (iol_store *store, uint64_t ticket), iol_store_misuse(store, true), (store, ticket))
#define iol_store_withdraw iol_checked_store_withdraw

IOL_CHECKED(store_cancel, (iol_store *store, uint64_t ticket), iol_store_misuse(store, true), (store, ticket))
#define iol_store_cancel iol_checked_store_cancel

IOL_CHECKED(store_abandon, (iol_store *store, uint64_t ticket), iol_store_misuse(store, true), (store, ticket))
#define iol_store_abandon iol_checked_store_abandon

IOL_CHECKED(store_expect, (iol_store *store, uint16_t vendor, uint32_t device, uint8_t *counts),
    iol_store_misuse(store, counts != NULL), (store, vendor, device, counts))
#define iol_store_expect iol_checked_store_expect

IOL_CHECKED(store_expect_any, (iol_store *store, uint8_t *counts),
    iol_store_misuse(store, counts != NULL), (store, counts))
#define iol_store_expect_any iol_checked_store_expect_any

IOL_CHECKED(store_set_cycle, (iol_store *store, uint32_t micros, uint8_t *counts),
    iol_store_misuse(store, counts != NULL), (store, micros, counts))
#define iol_store_set_cycle iol_checked_store_set_cycle

IOL_CHECKED(store_page, (iol_store *store, iol_page *out), iol_store_misuse(store, out != NULL), (store, out))
#define iol_store_page iol_checked_store_page

IOL_CHECKED(store_restart, (iol_store *store), iol_store_misuse(store, true), (store))
#define iol_store_restart iol_checked_store_restart

IOL_CHECKED(store_set_output, (iol_store *store, const uint8_t *octets, size_t count),
    iol_store_misuse(store, octets != NULL || count == 0), (store, iol_octets_at(octets), count))
#define iol_store_set_output iol_checked_store_set_output

IOL_CHECKED(store_clear_output, (iol_store *store), iol_store_misuse(store, true), (store))
#define iol_store_clear_output iol_checked_store_clear_output

IOL_CHECKED(store_image, (iol_store *store, iol_image *out), iol_store_misuse(store, out != NULL), (store, out))
#define iol_store_image iol_checked_store_image

IOL_CHECKED(store_take_event, (iol_store *store, iol_event *out), iol_store_misuse(store, out != NULL), (store, out))
#define iol_store_take_event iol_checked_store_take_event

IOL_CHECKED(store_status, (iol_store *store, iol_status *out), iol_store_misuse(store, out != NULL), (store, out))
#define iol_store_status iol_checked_store_status

IOL_CHECKED(store_last_loss, (iol_store *store, iol_loss *out), iol_store_misuse(store, out != NULL), (store, out))
#define iol_store_last_loss iol_checked_store_last_loss

IOL_CHECKED(store_counters, (iol_store *store, iol_counters *out), iol_store_misuse(store, out != NULL), (store, out))
#define iol_store_counters iol_checked_store_counters

IOL_CHECKED(store_drain, (iol_store *store, uint32_t *count, uint32_t *restated),
    iol_store_misuse(store, count != NULL && restated != NULL), (store, count, restated))
#define iol_store_drain iol_checked_store_drain

IOL_CHECKED(store_entry, (iol_store *store, iol_entry *out), iol_store_misuse(store, out != NULL), (store, out))
#define iol_store_entry iol_checked_store_entry

#ifdef __cplusplus
}
#endif
#endif

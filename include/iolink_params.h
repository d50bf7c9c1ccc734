/* An IO-Link device whose parameters are those of a table: you write the table, and save an image of octets where the
 * library asks for it. It carries the requests of the master out: lengths, ranges, access, blocks, locks, resets, and the
 * device's half of Data Storage. No call comes back to you.
 *
 * What you owe, and what is checked, is what iolink_device.h says, of the handle iol_params too. Beside that:
 *
 *   - the rows of a table, and the octets of its defaults, stay as they are, as a `static const` does
 *   - an image is saved whole or not at all, wherever the power fails: by two places, of which a mark that is written
 *     last tells the newer one
 *
 * The numbers of refusals are those of iolink_device.h, 50 to 58 for the flaws of a table, and
 *   249  refused with the ErrorType 0x80, `error`
 *   250  first what is to be saved has to be
 * The first that holds is answered; what is refused changed nothing. What a call hands out is written only where it
 * answers 0, but for `row` and `error`, which are written where they tell of a refusal.
 *
 * A maker's loop, behind each message or pause:
 *
 *     if (iol_params_work(&device) == IOL_TO_SAVE) {
 *         iol_params_image(&device, image, sizeof image);
 *         ..save the image..
 *         iol_params_saved(&device);
 *     }
 */
#ifndef IOLINK_PARAMS_H
#define IOLINK_PARAMS_H

#include "iolink_device.h"

#ifdef __cplusplus
extern "C" {
#endif

#define IOL_TO_SAVE 1
#define IOL_WITH_ERROR_TYPE 249
#define IOL_NOT_SAVED 250

typedef struct { void *at; bool is_open; const void *opened_at; } iol_params;

/* ---- the table */

/* What the octets of a member are: a number of 1, 2 or 4 octets, the high one first; octets; a text. */
enum { IOL_UINT8 = 1, IOL_UINT16 = 2, IOL_UINT32 = 4, IOL_OCTETS = 5, IOL_TEXT = 6 };

/* Who changes a parameter: the device alone; the master too; and Data Storage keeps it. */
enum { IOL_READ_ONLY = 1, IOL_READ_WRITE = 2, IOL_STORED = 3 };

/* A row: one member of a parameter. A parameter of one member has `sub` 0, one of several 1, 2 and so on, a row for
 * each. A number is `least` to `most`; octets are `count`, a text is at most `count` long. `octets` is its value at
 * first, and after a reset, `length` octets. */
typedef struct {
    uint16_t index;
    uint8_t sub;
    uint8_t data_type;
    uint8_t access;
    uint8_t count;
    uint32_t least;
    uint32_t most;
    const uint8_t *octets;
    size_t length;
} iol_param_row;

/* Two stored numbers of which the first is at most the second, always. */
typedef struct { uint16_t low; uint8_t low_sub; uint16_t high; uint8_t high_sub; } iol_order_rule;

/* Opens a device with direct parameter page 1, the ten octets of its addresses 0x02 to 0x0B, and a table, asleep until
 * it is woken. `image` is what was saved last, of `size` octets; 0 where nothing was. Octets that are no image of
 * values that the table allows keep nothing: then all is as the table has it at first. It takes no memory after this.
 * 253 it is open already, 8, 7, 2 as iol_device_open, 254 `data_type` or `access` of a row is none of the numbers above,
 * 24 no memory, and then the first flaw, members first, the row of which, or of the order rule, 0 first, is in `row`:
 *   50  more than 1,000 rows
 *   51  Indexes 0 to 3 and 12 are the library's
 *   52  one member of an Index has Subindex 0, several have 1, 2 and so on, in order
 *   53  another member of the Index is changed by others
 *   54  no octets, more than 232 in one parameter, or a text beside other members
 *   55  the default doesn't fit the data type
 *   56  the place of an order rule has no stored number
 *   57  the defaults break an order rule
 *   58  more than 76 stored parameters, or more than 2,048 octets of them: `row` is that behind the last member */
uint8_t iol_params_open(iol_params *device, const uint8_t page[10], const iol_param_row *rows, size_t row_count,
    const iol_order_rule *rules, size_t rule_count, const uint8_t *image, size_t size, size_t *row);

/* Ends the device, and gives its memory back. The handle can be opened again: with the image that was saved last this
 * is a power cycle. 252. */
uint8_t iol_params_close(iol_params *device);

/* ---- requests, and what is saved of them */

/* Carries out the request that is handed over, if any, and answers it; but what it changed has to be saved first: then
 * this answers 1, IOL_TO_SAVE, and so it does until iol_params_saved. The master is told "busy" so long. Raises event
 * FF91, where Data Storage is to fetch something new. Behind a 0 what outlives the power is as it was. 252. */
uint8_t iol_params_work(iol_params *device);

/* How many octets an image has: one, and for each row one more than its longest value. It changes nothing. 252. */
uint8_t iol_params_image_size(iol_params *device, size_t *size);

/* The image of what outlives the power: values, locks and the flag of Data Storage. It changes nothing. 252, 254 `size`
 * isn't that of an image. */
uint8_t iol_params_image(iol_params *device, uint8_t *image, size_t size);

/* The image is saved: the write that waits for this is answered. Nothing changes the image between iol_params_work and
 * this. 252, 255 nothing is to be saved. */
uint8_t iol_params_saved(iol_params *device);

/* A change at the device itself, as by its buttons. Then iol_params_work answers 1: save it. 252, 250, 249: `error` is
 * 0x11, 0x12 no such place; 0x23 it is locked; 0x36 the master reads or writes a block, so try again; 0x33, 0x34 too many
 * octets, or too few; 0x30 out of range; 0x40 it would break an order rule. */
uint8_t iol_params_set(iol_params *device, uint16_t index, uint8_t sub, const uint8_t *octets, size_t count,
    uint8_t *error);

/* A factory reset at the device itself, as SystemCommand 82. Then iol_params_work answers 1: save it. 252, 250, 249:
 * `error` is 0x36 the master reads or writes a block, so try again. */
uint8_t iol_params_reset(iol_params *device, uint8_t *error);

/* The value of a parameter: `length` octets. */
typedef struct { uint8_t length; uint8_t octets[232]; } iol_value;

/* The value in force at a place of the table. It changes nothing. 252, 249: `error` is 0x11, 0x12 no such place. */
uint8_t iol_params_value(iol_params *device, uint16_t index, uint8_t sub, iol_value *value, uint8_t *error);

/* What you have to do since the master asked for a reset, once its answer was sent: 0 nothing; 1 begin anew, as after a
 * power cycle; 2 send nothing more until the power is back. It changes nothing. 252. */
uint8_t iol_params_restart(iol_params *device, uint8_t *out);

/* The Device access locks, the low octet of Index 12. You obey bit 3, which locks the buttons and the display. It
 * changes nothing. 252. */
uint8_t iol_params_locks(iol_params *device, uint8_t *out);

/* ---- the rest is as at a device without a table: each call is that of iolink_device.h of its name
 *
 * A wake-up request, silence, and going back end a block of the master, without effect. What it still writes of a block
 * behind silence is refused with 0x36. */

uint8_t iol_params_hear(iol_params *device, const uint8_t *octets, size_t count, iol_reply *out);
uint8_t iol_params_expects(iol_params *device, const uint8_t *octets, size_t count, uint8_t *out);
uint8_t iol_params_wake(iol_params *device);
uint8_t iol_params_silence(iol_params *device);
uint8_t iol_params_mode(iol_params *device, uint8_t *out);
uint8_t iol_params_cycle_time(iol_params *device, uint8_t *out);
uint8_t iol_params_raise(iol_params *device, uint8_t qualifier, uint16_t code);
uint8_t iol_params_set_input(iol_params *device, const uint8_t *octets, size_t count);
uint8_t iol_params_clear_input(iol_params *device);
uint8_t iol_params_output(iol_params *device, iol_image *out);

/* ---- what is checked before each call, as at the end of iolink_device.h; and that no default is null */

IOL_INLINE uint8_t iol_params_misuse(const iol_params *device, bool has_pointers)
{
    if (device == NULL || !has_pointers)
        return IOL_NOT_ASKED;
    return device->is_open && device->opened_at != device ? IOL_COPIED : 0;
}

IOL_INLINE bool iol_has_defaults(const iol_param_row *rows, size_t count)
{
    size_t i;
    for (i = 0; rows != NULL && i < count; i++)
        if (rows[i].octets == NULL)
            return false;
    return rows != NULL || count == 0;
}

/* These rows, or some place where there are none. */
IOL_INLINE const void *iol_place_of(const void *rows)
{
    static const uint64_t none = 0;
    return rows != NULL ? rows : &none;
}

IOL_CHECKED_OPENING(device, params_open,
    (iol_params *device, const uint8_t page[10], const iol_param_row *rows, size_t row_count,
    const iol_order_rule *rules, size_t rule_count, const uint8_t *image, size_t size, size_t *row),
    iol_params_misuse(device, page != NULL && iol_has_defaults(rows, row_count) && (rules != NULL || rule_count == 0)
        && (image != NULL || size == 0) && row != NULL),
    (device, page, (const iol_param_row *)iol_place_of(rows), row_count, (const iol_order_rule *)iol_place_of(rules),
    rule_count, iol_octets_at(image), size, row))
#define iol_params_open iol_checked_params_open

IOL_CHECKED(params_close, (iol_params *device), iol_params_misuse(device, true), (device))
#define iol_params_close iol_checked_params_close

IOL_CHECKED(params_work, (iol_params *device), iol_params_misuse(device, true), (device))
#define iol_params_work iol_checked_params_work

IOL_CHECKED(params_image_size, (iol_params *device, size_t *size), iol_params_misuse(device, size != NULL),
    (device, size))
#define iol_params_image_size iol_checked_params_image_size

IOL_CHECKED(params_image, (iol_params *device, uint8_t *image, size_t size), iol_params_misuse(device, image != NULL),
    (device, image, size))
#define iol_params_image iol_checked_params_image

IOL_CHECKED(params_saved, (iol_params *device), iol_params_misuse(device, true), (device))
#define iol_params_saved iol_checked_params_saved

IOL_CHECKED(params_set, (iol_params *device, uint16_t index, uint8_t sub, const uint8_t *octets, size_t count,
    uint8_t *error), iol_params_misuse(device, (octets != NULL || count == 0) && error != NULL),
    (device, index, sub, iol_octets_at(octets), count, error))
#define iol_params_set iol_checked_params_set

IOL_CHECKED(params_reset, (iol_params *device, uint8_t *error), iol_params_misuse(device, error != NULL),
    (device, error))
#define iol_params_reset iol_checked_params_reset

IOL_CHECKED(params_value, (iol_params *device, uint16_t index, uint8_t sub, iol_value *value, uint8_t *error),
    iol_params_misuse(device, value != NULL && error != NULL), (device, index, sub, value, error))
#define iol_params_value iol_checked_params_value

IOL_CHECKED(params_restart, (iol_params *device, uint8_t *out), iol_params_misuse(device, out != NULL), (device, out))
#define iol_params_restart iol_checked_params_restart

IOL_CHECKED(params_locks, (iol_params *device, uint8_t *out), iol_params_misuse(device, out != NULL), (device, out))
#define iol_params_locks iol_checked_params_locks

IOL_CHECKED(params_hear, (iol_params *device, const uint8_t *octets, size_t count, iol_reply *out),
    iol_params_misuse(device, (octets != NULL || count == 0) && out != NULL),
    (device, iol_octets_at(octets), count, out))
#define iol_params_hear iol_checked_params_hear

IOL_CHECKED(params_expects, (iol_params *device, const uint8_t *octets, size_t count, uint8_t *out),
    iol_params_misuse(device, (octets != NULL || count == 0) && out != NULL),
    (device, iol_octets_at(octets), count, out))
#define iol_params_expects iol_checked_params_expects

IOL_CHECKED(params_wake, (iol_params *device), iol_params_misuse(device, true), (device))
#define iol_params_wake iol_checked_params_wake

IOL_CHECKED(params_silence, (iol_params *device), iol_params_misuse(device, true), (device))
#define iol_params_silence iol_checked_params_silence

IOL_CHECKED(params_mode, (iol_params *device, uint8_t *out), iol_params_misuse(device, out != NULL), (device, out))
#define iol_params_mode iol_checked_params_mode

IOL_CHECKED(params_cycle_time, (iol_params *device, uint8_t *out), iol_params_misuse(device, out != NULL),
    (device, out))
#define iol_params_cycle_time iol_checked_params_cycle_time

IOL_CHECKED(params_raise, (iol_params *device, uint8_t qualifier, uint16_t code), iol_params_misuse(device, true),
    (device, qualifier, code))
#define iol_params_raise iol_checked_params_raise

IOL_CHECKED(params_set_input, (iol_params *device, const uint8_t *octets, size_t count),
    iol_params_misuse(device, octets != NULL || count == 0), (device, iol_octets_at(octets), count))
#define iol_params_set_input iol_checked_params_set_input

IOL_CHECKED(params_clear_input, (iol_params *device), iol_params_misuse(device, true), (device))
#define iol_params_clear_input iol_checked_params_clear_input

IOL_CHECKED(params_output, (iol_params *device, iol_image *out), iol_params_misuse(device, out != NULL), (device, out))
#define iol_params_output iol_checked_params_output

#ifdef __cplusplus
}
#endif
#endif

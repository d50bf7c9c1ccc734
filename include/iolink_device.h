/* An IO-Link device, whose application is yours.
 *
 * What you owe, and what nothing checks:
 *
 *   - one call of a handle at a time, on the thread that opened it, and none from a signal handler: two threads at one
 *     handle break all that stands here
 *   - a handle is zero or was opened, and stays where it is until it is closed
 *   - a pointer with a count has that many octets; what is written through overlaps nothing else that is passed
 *
 * What is checked, in C at the end of this header, which no proof covers: a null pointer is refused with 255, but for
 * one to 0 octets; a copy of an open handle is refused with 251, so that it isn't closed twice. A copy that is put back
 * where the handle was isn't seen. Both are tested before all else, and nothing is written then. A call that doesn't
 * come through this header, as from another language, is the library's own: to it no pointer may be null, not even one
 * to 0 octets, and no handle a copy.
 *
 * What is proved is what the library does behind this: each call's answer, and all that it writes.
 *
 * A handle is a struct of yours, all zero before it is opened: `iol_device device = {0};`. It says itself whether it is
 * open, so a call of a closed handle, and a second close, are refused and do nothing.
 *
 * Every call answers the number of a refusal, 0 where there is none: 1 to 40 are the library's, and
 *   251  the handle is a copy of the one that was opened
 *   252  the handle is closed
 *   253  the handle is open already
 *   254  a number is out of its range
 *   255  nothing came yet, of which a trace could tell, or a pointer is null
 * Beside each call stand its refusals, in the order in which they are tested: the first that holds is answered. Every
 * call but the openings tests 252 first. What is refused changed nothing, and what a call hands out is written only
 * where it answers 0, so that what `out` points to is as it was.
 *
 * What a master sends is any octets whatever: nothing is asked of it, and none does harm.
 *
 * It can be included with iolink_port.h, before it or after it. */
#ifndef IOLINK_DEVICE_H
#define IOLINK_DEVICE_H

#include <stdbool.h>
#include <stddef.h>
#include <stdint.h>

#ifdef __cplusplus
extern "C" {
#endif

/* What both headers have. */
#ifndef IOLINK_SEALED
#define IOLINK_SEALED

/* The version of this header: 10,000 for its first number, 100 for its second, 1 for its third. */
#define IOLINK_VERSION 100

/* The version of the library that is linked, in this form. It needs no handle. */
uint32_t iol_version(void);

#define IOL_COPIED 251
#define IOL_CLOSED 252
#define IOL_IS_OPEN 253
#define IOL_OUT_OF_RANGE 254
#define IOL_NOT_ASKED 255

/* A request: `kind` 1 a read, 2 a write of `length` octets, 0 none. */
typedef struct { uint8_t kind; uint8_t sub; uint16_t index; uint8_t length; uint8_t octets[232]; } iol_request;

/* Process data: `length` octets, none where that is 0. */
typedef struct { uint8_t length; uint8_t octets[32]; } iol_image;

/* What `iolink trace` prints for one call of a line: `length` bytes of text, with no 0 behind them. A wake-up request has
 * one line, a message two, that of what was sent and that of what came back; each ends with a line feed. No call has
 * more bytes than the room here, which is proved. */
#define IOL_MOST_TRACE_LINE 896
typedef struct { uint16_t length; char text[IOL_MOST_TRACE_LINE]; } iol_trace_line;

/* What is checked before a call, at the end of each header. */
#if defined(__cplusplus) || (defined(__STDC_VERSION__) && __STDC_VERSION__ >= 199901L)
#define IOL_INLINE static inline
#else
#define IOL_INLINE static __inline
#endif

/* 255 where a pointer is null. */
IOL_INLINE uint8_t iol_null_refusal(bool has_pointers)
{
    return has_pointers ? 0 : IOL_NOT_ASKED;
}

/* These octets, or some place where there are none. */
IOL_INLINE const uint8_t *iol_octets_at(const uint8_t *octets)
{
    static const uint8_t none = 0;
    return octets != NULL ? octets : &none;
}

/* A call by its name and parameters: why it is misused, or what the library answers. An opening notes where. */
#define IOL_CHECKED(name, parameters, misuse, arguments)                                                               \
    IOL_INLINE uint8_t iol_checked_##name parameters                                                                   \
    {                                                                                                                  \
        uint8_t refusal = misuse;                                                                                      \
        return refusal != 0 ? refusal : iol_##name arguments;                                                          \
    }

#define IOL_CHECKED_OPENING(handle, name, parameters, misuse, arguments)                                               \
    IOL_INLINE uint8_t iol_checked_##name parameters                                                                   \
    {                                                                                                                  \
        uint8_t refusal = misuse;                                                                                      \
        if (refusal == 0)                                                                                              \
            refusal = iol_##name arguments;                                                                            \
        if (refusal == 0)                                                                                              \
            handle->opened_at = handle;                                                                                \
        return refusal;                                                                                                \
    }

#endif

typedef struct { void *at; bool is_open; const void *opened_at; } iol_device;

/* Opens a device with direct parameter page 1, the ten octets of its addresses 0x02 to 0x0B, asleep until it is woken.
 * It keeps no record, so it takes no memory after this. 253 it is open already, 8 the RevisionID is neither 0x11 nor
 * 0x10, 7 ProcessDataIn or ProcessDataOut is no length, 2 its M-sequence codes have no layout, 24 no memory. */
uint8_t iol_device_open(iol_device *device, const uint8_t page[10]);

/* The same, whose first request has the number behind `given`. Give the number of the last request that an earlier
 * handle handed over: then an answer that comes late for one of those is refused with 37. */
uint8_t iol_device_open_from(iol_device *device, const uint8_t page[10], uint64_t given);

/* Ends the device, and gives its memory back. The handle can be opened again. 252. */
uint8_t iol_device_close(iol_device *device);

/* ---- the line */

/* A reply: `length` octets, none where that is 0. */
typedef struct { uint8_t length; uint8_t octets[66]; } iol_reply;

/* These octets came, any number of them: what is sent back, or no octet where the device is asleep or they are no
 * message to it. 252. */
uint8_t iol_device_hear(iol_device *device, const uint8_t *octets, size_t count, iol_reply *out);

/* How many octets the message has that begins with these `count` octets, 2 to 66; 1 where none came yet, 0 where the
 * device is asleep. So read until there are as many as `out` says, and ask again; once it says no more, hand them to
 * iol_device_hear, as you do at a pause. Octets that begin as a command that asked for another mode may be that command
 * again or a message of the new mode: then it is the shorter of the two, until as many came. It changes nothing. 252. */
uint8_t iol_device_expects(iol_device *device, const uint8_t *octets, size_t count, uint8_t *out);

/* The checksum, 0 to 63, of a message or a reply of `count` octets, whose own six bits of it are 0. This is the
 * answer, in place of a refusal; 255 where `octets` is null and `count` isn't 0. */
uint8_t iol_device_checksum(const uint8_t *octets, size_t count);

/* A wake-up request came: the device is awake, in startup, and a request under way is dropped. 252. */
uint8_t iol_device_wake(iol_device *device);

/* The power failed and came back: asleep, with no request, no event and no process data. 252. */
uint8_t iol_device_power_cycle(iol_device *device);

/* What `iolink trace` prints for the last call of the line: for the wake-up request of iol_device_wake, or for what
 * iol_device_hear took, with what it sent back. Write it to your log after each of them, and give `iolink judge` or
 * web/line.html the log. `number` is that of the call: 1 for the first one of a log, for each further one the next.
 * `rate` is that of the device, 1 to 3 for COM1 to COM3, or 0 if it doesn't answer the wake-up request. Of more than 66
 * octets the first 66 are shown. It changes nothing. 252, 254 `rate` is above 3, 255 nothing came yet.
 *
 * What is lost on its way isn't in a device's log. What came damaged is, and a judge takes it for the master's. */
uint8_t iol_device_trace_line(iol_device *device, uint64_t number, uint8_t rate, iol_trace_line *out);

/* No message came for longer than you allow: the master counts as silent, and iol_device_output hands out no octet. The
 * MasterCommand ProcessDataOutputOperate ends this, once it is accepted in operate. All else stays, and a request goes
 * on. 252. */
uint8_t iol_device_silence(iol_device *device);

/* The mode: 1 asleep, 2 startup, 3 preoperate, 4 operate. It changes nothing. 252. */
uint8_t iol_device_mode(iol_device *device, uint8_t *out);

/* MasterCycleTime, the octet of page address 0x01 as the master wrote it last, 0 before. It changes nothing. 252. */
uint8_t iol_device_cycle_time(iol_device *device, uint8_t *out);

/* The microseconds that an octet of MasterCycleTime means, 0 to 132,800. 39 its time base is reserved. */
uint8_t iol_device_cycle_micros(uint8_t octet, uint32_t *micros);

/* ---- requests: look whether one is handed over, carry it out, answer it once, by its number
 *
 * The master may cancel a request that is being carried out, and hand the next one over. So an answer names its request:
 * it is refused with 37 where another one is handed over by then, or none. Drop it. The first request of a device has
 * number 1, or the one behind `given`, each further one the next; behind 2^64 - 1 comes 0. */

/* The request that is handed over and has no answer yet, and its number; where there is none `kind` is 0, `number` 0,
 * and the rest says nothing. A read has `length` 0, a write 0 to 232. It changes nothing. 252. */
uint8_t iol_device_handed(iol_device *device, uint64_t *number, iol_request *out);

/* The read of this number gave these octets, 0 to 232. 252, 9 more than 232 octets, 37 another request is handed over, or
 * none, 14 it is a write. */
uint8_t iol_device_answer_read(iol_device *device, uint64_t number, const uint8_t *octets, size_t count);

/* The write of this number is done. 252, 37 another request is handed over, or none, 14 it is a read. */
uint8_t iol_device_answer_written(iol_device *device, uint64_t number);

/* The request of this number is refused, with ErrorCode and AdditionalCode. 252, 37 another request is handed over, or
 * none. */
uint8_t iol_device_answer_refused(iol_device *device, uint64_t number, uint8_t code, uint8_t additional);

/* ---- events and process data */

/* Raises an event. 252, 16 the event memory is full: 32 events wait. */
uint8_t iol_device_raise(iol_device *device, uint8_t qualifier, uint16_t code);

/* The process data in from now on, as many octets as the page says. 252, 29 another length, or the page has none. */
uint8_t iol_device_set_input(iol_device *device, const uint8_t *octets, size_t count);

/* No valid process data in from now on. 252. */
uint8_t iol_device_clear_input(iol_device *device);

/* The process data out, no octet while none is valid or the master is silent. It changes nothing. 252. */
uint8_t iol_device_output(iol_device *device, iol_image *out);

/* ---- what is checked before each call: that no pointer is null, and that the handle is where it was opened
 *
 * From here on each name above is that of the call with its checks. */

IOL_INLINE uint8_t iol_device_misuse(const iol_device *device, bool has_pointers)
{
    if (device == NULL || !has_pointers)
        return IOL_NOT_ASKED;
    return device->is_open && device->opened_at != device ? IOL_COPIED : 0;
}

IOL_CHECKED_OPENING(device, device_open, (iol_device *device, const uint8_t page[10]),
    iol_device_misuse(device, page != NULL), (device, page))
#define iol_device_open iol_checked_device_open

IOL_CHECKED_OPENING(device, device_open_from, (iol_device *device, const uint8_t page[10], uint64_t given),
    iol_device_misuse(device, page != NULL), (device, page, given))
#define iol_device_open_from iol_checked_device_open_from

IOL_CHECKED(device_close, (iol_device *device), iol_device_misuse(device, true), (device))
#define iol_device_close iol_checked_device_close

IOL_CHECKED(device_hear, (iol_device *device, const uint8_t *octets, size_t count, iol_reply *out),
    iol_device_misuse(device, (octets != NULL || count == 0) && out != NULL),
    (device, iol_octets_at(octets), count, out))
#define iol_device_hear iol_checked_device_hear

IOL_CHECKED(device_expects, (iol_device *device, const uint8_t *octets, size_t count, uint8_t *out),
    iol_device_misuse(device, (octets != NULL || count == 0) && out != NULL),
    (device, iol_octets_at(octets), count, out))
#define iol_device_expects iol_checked_device_expects

IOL_CHECKED(device_checksum, (const uint8_t *octets, size_t count), iol_null_refusal(octets != NULL || count == 0),
    (iol_octets_at(octets), count))
#define iol_device_checksum iol_checked_device_checksum

IOL_CHECKED(device_trace_line, (iol_device *device, uint64_t number, uint8_t rate, iol_trace_line *out),
    iol_device_misuse(device, out != NULL), (device, number, rate, out))
#define iol_device_trace_line iol_checked_device_trace_line

IOL_CHECKED(device_wake, (iol_device *device), iol_device_misuse(device, true), (device))
#define iol_device_wake iol_checked_device_wake

IOL_CHECKED(device_power_cycle, (iol_device *device), iol_device_misuse(device, true), (device))
#define iol_device_power_cycle iol_checked_device_power_cycle

IOL_CHECKED(device_silence, (iol_device *device), iol_device_misuse(device, true), (device))
#define iol_device_silence iol_checked_device_silence

IOL_CHECKED(device_mode, (iol_device *device, uint8_t *out), iol_device_misuse(device, out != NULL), (device, out))
#define iol_device_mode iol_checked_device_mode

IOL_CHECKED(device_cycle_time, (iol_device *device, uint8_t *out), iol_device_misuse(device, out != NULL),
    (device, out))
#define iol_device_cycle_time iol_checked_device_cycle_time

IOL_CHECKED(device_cycle_micros, (uint8_t octet, uint32_t *micros), iol_null_refusal(micros != NULL), (octet, micros))
#define iol_device_cycle_micros iol_checked_device_cycle_micros

IOL_CHECKED(device_handed, (iol_device *device, uint64_t *number, iol_request *out),
    iol_device_misuse(device, number != NULL && out != NULL), (device, number, out))
#define iol_device_handed iol_checked_device_handed

IOL_CHECKED(device_answer_read, (iol_device *device, uint64_t number, const uint8_t *octets, size_t count),
    iol_device_misuse(device, octets != NULL || count == 0), (device, number, iol_octets_at(octets), count))
#define iol_device_answer_read iol_checked_device_answer_read

IOL_CHECKED(device_answer_written, (iol_device *device, uint64_t number), iol_device_misuse(device, true),
    (device, number))
#define iol_device_answer_written iol_checked_device_answer_written

IOL_CHECKED(device_answer_refused, (iol_device *device, uint64_t number, uint8_t code, uint8_t additional),
    iol_device_misuse(device, true), (device, number, code, additional))
#define iol_device_answer_refused iol_checked_device_answer_refused

IOL_CHECKED(device_raise, (iol_device *device, uint8_t qualifier, uint16_t code), iol_device_misuse(device, true),
    (device, qualifier, code))
#define iol_device_raise iol_checked_device_raise

IOL_CHECKED(device_set_input, (iol_device *device, const uint8_t *octets, size_t count),
    iol_device_misuse(device, octets != NULL || count == 0), (device, iol_octets_at(octets), count))
#define iol_device_set_input iol_checked_device_set_input

IOL_CHECKED(device_clear_input, (iol_device *device), iol_device_misuse(device, true), (device))
#define iol_device_clear_input iol_checked_device_clear_input

IOL_CHECKED(device_output, (iol_device *device, iol_image *out), iol_device_misuse(device, out != NULL),
    (device, out))
#define iol_device_output iol_checked_device_output

#ifdef __cplusplus
}
#endif
#endif

/* A port of an IO-Link master.
 *
 * What you owe, and what nothing checks:
 *
 *   - one call of a handle at a time, on the thread that opened it, and none from a signal handler: two threads at one
 *     handle break all that stands here
 *   - a handle is zero or was opened, and stays where it is until it is closed
 *   - a pointer with a count has that many octets; what is written through overlaps nothing else that is passed
 *
 * What is checked, in C at the end of this header, which no proof covers: a null pointer is refused with 255, but for
 * one to 0 octets; a copy of an open handle is refused with 251, so that it isn't closed twice. A copy that is put back
 * where the handle was isn't seen. Both are tested before all else, and nothing is written then. A call that doesn't
 * come through this header, as from another language, is the library's own: to it no pointer may be null, not even one
 * to 0 octets, and no handle a copy.
 *
 * What is proved is what the library does behind this: each call's answer, and all that it writes.
 *
 * A handle is a struct of yours, all zero before it is opened: `iol_port port = {0};`. It says itself whether it is
 * open, so a call of a closed handle, and a second close, are refused and do nothing.
 *
 * Every call answers the number of a refusal, 0 where there is none: 1 to 40 are the library's, and
 *   251  the handle is a copy of the one that was opened
 *   252  the handle is closed
 *   253  the handle is open already
 *   254  a number is out of its range
 *   255  the call doesn't fit what waits for its answer, or a pointer is null
 * Beside each call stand its refusals, in the order in which they are tested: the first that holds is answered. What is
 * refused changed nothing of the port. Every call but iol_port_open tests 252 first, and then writes nothing at all; by
 * any other refusal a ticket or a count that a call hands out is 0, and anything else that it hands out is as it was.
 *
 * What came on a line is any octets whatever: nothing is asked of it, and none does harm.
 *
 * It can be included with iolink_device.h, before it or after it. A port with Data Storage has the calls of
 * iolink_storage.h, which includes this header. */
#ifndef IOLINK_PORT_H
#define IOLINK_PORT_H

#include <stdbool.h>
#include <stddef.h>
#include <stdint.h>

#ifdef __cplusplus
extern "C" {
#endif

/* What both headers have. */
#ifndef IOLINK_SEALED
#define IOLINK_SEALED

/* The version of this header: 10,000 for its first number, 100 for its second, 1 for its third. */
#define IOLINK_VERSION 100

/* The version of the library that is linked, in this form. It needs no handle. */
uint32_t iol_version(void);

#define IOL_COPIED 251
#define IOL_CLOSED 252
#define IOL_IS_OPEN 253
#define IOL_OUT_OF_RANGE 254
#define IOL_NOT_ASKED 255

/* A request: `kind` 1 a read, 2 a write of `length` octets, 0 none. */
typedef struct { uint8_t kind; uint8_t sub; uint16_t index; uint8_t length; uint8_t octets[232]; } iol_request;

/* Process data: `length` octets, none where that is 0. */
typedef struct { uint8_t length; uint8_t octets[32]; } iol_image;

/* What `iolink trace` prints for one call of a line: `length` bytes of text, with no 0 behind them. A wake-up request has
 * one line, a message two, that of what was sent and that of what came back; each ends with a line feed. No call has
 * more bytes than the room here, which is proved. */
#define IOL_MOST_TRACE_LINE 896
typedef struct { uint16_t length; char text[IOL_MOST_TRACE_LINE]; } iol_trace_line;

/* What is checked before a call, at the end of each header. */
#if defined(__cplusplus) || (defined(__STDC_VERSION__) && __STDC_VERSION__ >= 199901L)
#define IOL_INLINE static inline
#else
#define IOL_INLINE static __inline
#endif

/* 255 where a pointer is null. */
IOL_INLINE uint8_t iol_null_refusal(bool has_pointers)
{
    return has_pointers ? 0 : IOL_NOT_ASKED;
}

/* These octets, or some place where there are none. */
IOL_INLINE const uint8_t *iol_octets_at(const uint8_t *octets)
{
    static const uint8_t none = 0;
    return octets != NULL ? octets : &none;
}

/* A call by its name and parameters: why it is misused, or what the library answers. An opening notes where. */
#define IOL_CHECKED(name, parameters, misuse, arguments)                                                               \
    IOL_INLINE uint8_t iol_checked_##name parameters                                                                   \
    {                                                                                                                  \
        uint8_t refusal = misuse;                                                                                      \
        return refusal != 0 ? refusal : iol_##name arguments;                                                          \
    }

#define IOL_CHECKED_OPENING(handle, name, parameters, misuse, arguments)                                               \
    IOL_INLINE uint8_t iol_checked_##name parameters                                                                   \
    {                                                                                                                  \
        uint8_t refusal = misuse;                                                                                      \
        if (refusal == 0)                                                                                              \
            refusal = iol_##name arguments;                                                                            \
        if (refusal == 0)                                                                                              \
            handle->opened_at = handle;                                                                                \
        return refusal;                                                                                                \
    }

#endif

typedef struct { void *at; bool is_open; const void *opened_at; } iol_port;

/* Opens a port for any device by the standard, whoever made it, whose link is down. A start-up writes DeviceStartup
 * before it reads the page, and a START write of a whole request isn't repeated, but asked for. Its journal has at
 * most `journal` entries, 4 to 1,000,000, or none is kept where that is 0: then it is never full, and never handed out. A
 * request is cut off after `busy` busy replies, 2 to 65,535; `queue` tickets may be outstanding at a time, 1 to 64; the
 * first ticket is `given` + 1. 253 it is open already, 254 `journal`, `busy` or `queue` is out of its range, 24 no
 * memory. */
uint8_t iol_port_open(iol_port *port, uint32_t journal, uint16_t busy, uint8_t queue, uint64_t given);

/* The same, for `devices` by name: IOL_DEVICES_OWN for devices of our own kind alone, which need neither, or
 * IOL_DEVICES_ANY. 254 also where it is neither. */
#define IOL_DEVICES_OWN 0
#define IOL_DEVICES_ANY 1
uint8_t iol_port_open_for(iol_port *port, uint8_t devices, uint32_t journal, uint16_t busy, uint8_t queue,
    uint64_t given);

/* Ends the port, and gives its memory back. 252. */
uint8_t iol_port_close(iol_port *port);

/* ---- the line: ask, use the line once, bring what came. One such turn a cycle.
 *
 *                          iol_port_asks
 *     +----------------+ ------------------> +-------------------+ ---+
 *     | nothing is out |                     | a wake is out, or |    | iol_port_asks: the same again;
 *     +----------------+ <------------------ | a message is      |    | every other call but
 *       |  ^        iol_port_turn_woken      +-------------------+    | iol_port_restart
 *       |  |        for a wake,                 ^                     |
 *       +--+        iol_port_turn_answered      +---------------------+
 *   every other     for a message
 *
 * What iol_port_asks gives is out until it is answered, and what comes is taken as the answer to that and to nothing
 * else. So every other call may come between the two but a restart, and changes nothing of what is out: a request, a
 * cancel's ABORT and another output go with a later message.
 *
 * To ask again is always right: it gives the same octets, changes nothing and counts as no repeat. So a driver that
 * starts anew, over the same handle, asks. Where it knows that the octets did not go out, it sends them. Where it
 * doesn't know, it first answers that nothing came, and asks then: that is a lost reply, after which the port repeats
 * the message. Never send twice for one answer. */

/* A message: `length` octets. `reply` is how many octets a good reply has, 1 to 65: then it is whole. The rest is the
 * layout of the mode: the M-sequence type, and the octets of on-request data and of process data in and out. */
typedef struct {
    uint8_t length;
    uint8_t octets[66];
    uint8_t reply;
    uint8_t kind;
    uint8_t od;
    uint8_t pd_in;
    uint8_t pd_out;
} iol_message;

/* What goes out: a message, or a wake-up request where `length` is 0, the rest as it was. It waits for its answer from
 * then on, and is given again until it is answered. 252. */
uint8_t iol_port_asks(iol_port *port, iol_message *out);

/* What came of the wake that is out: `rate` is 1, 2, 3 for a device that answered at COM1, COM2, COM3, and 0 where none
 * answered. 252, 254 a rate above 3, 255 no wake is out.
 *
 * Your duty: a rate above 0 says that the device was reset. A pulse and a test read, `A2 00`, don't show that: a device
 * that runs type 0 in OPERATE answers the test read though it missed the pulse, and stays in its mode. It may then carry
 * out what was cut off, after `unknown` was told of it. So send DeviceStartup, `20 17 97`, until it is answered, and then
 * the test read; or open the port for any device, which sends it first in each start-up. */
uint8_t iol_port_turn_woken(iol_port *port, uint8_t rate);

/* What came back, in the time of a reply, to the message that is out: these octets, or nothing where `count` is 0. Of
 * more than 66 give the first 66. Without a good reply the message is asked for again; the third time in a row has lost
 * the link. 252, 254 more than 66 octets, 255 no message is out.
 *
 * Your duty: what you bring came in answer to this message. After a miss wait out the longest time of a reply before you
 * send the next message, and drop what comes meanwhile; to empty the receiver is not enough. Else a late reply counts for
 * the next message: an event that no device raised may be handed out, and a read may end with wrong octets though CHKPDU
 * is right, as two equal segments cancel each other in it. */
uint8_t iol_port_turn_answered(iol_port *port, const uint8_t *octets, size_t count);

/* What `iolink trace` prints for the last call of the line: for what iol_port_turn_woken or iol_port_turn_answered took
 * last. Write it to your log after each of them that answers 0, and give `iolink judge` or web/line.html the log.
 * `number` is that of the call: 1 for the first one of a log, for each further one the next. It changes nothing. 252,
 * 255 nothing was taken yet. */
uint8_t iol_port_trace_line(iol_port *port, uint64_t number, iol_trace_line *out);

/* The checksum, 0 to 63, of a message or a reply of `count` octets, whose own six bits of it are 0. This is the
 * answer, in place of a refusal; 255 where `octets` is null and `count` isn't 0. */
uint8_t iol_port_checksum(const uint8_t *octets, size_t count);

/* ---- requests */

/* Enters a read and answers its ticket, which is never 0; the urgent one goes before those that wait and aren't urgent.
 * 252, 21 `queue` tickets are outstanding, 22 the journal is full, 23 no ticket is left, 24 no memory. */
uint8_t iol_port_read(iol_port *port, uint16_t index, uint8_t sub, uint64_t *ticket);
uint8_t iol_port_read_urgent(iol_port *port, uint16_t index, uint8_t sub, uint64_t *ticket);

/* The same of a write of 0 to 232 octets. 252, 9 more than 232 octets, 21, 22, 23, 24. */
uint8_t iol_port_write(iol_port *port, uint16_t index, uint8_t sub, const uint8_t *octets, size_t count,
                       uint64_t *ticket);
uint8_t iol_port_write_urgent(iol_port *port, uint16_t index, uint8_t sub, const uint8_t *octets, size_t count,
                              uint64_t *ticket);

/* How a request ended. Where `kind` is
 *    1  read: `octets` are those that were read
 *    2  written
 *    3  refused by the device: two octets, ErrorCode and AdditionalCode
 *    8  unknown: whether the device carried it out; `cause` is 1 the link was lost, 2 restarted, 3 busy too long,
 *       4 no text of an answer, 5 cancelled
 *   12  withdrawn, and never sent
 *   16  the device has no ISDU, and it was never sent
 * There are `length` octets, none but of 1 and 3. 0 is none, and other kinds may come. */
typedef struct { uint8_t kind; uint8_t cause; uint8_t length; uint8_t octets[232]; } iol_outcome;

/* Hands out the outcome of a ticket, which is outstanding no more. 252, 25 no such ticket is outstanding, 26 it has no
 * outcome yet. */
uint8_t iol_port_collect(iol_port *port, uint64_t ticket, iol_outcome *out);

/* Takes back a request that waits. 252, 25 no such ticket is outstanding, 27 it waits no longer. */
uint8_t iol_port_withdraw(iol_port *port, uint64_t ticket);

/* Asks to cut off the request under way; the outcome follows in a later turn. 252, 25 no such ticket is outstanding,
 * 36 it waits, or has an outcome. */
uint8_t iol_port_cancel(iol_port *port, uint64_t ticket);

/* Gives up the outcome of a ticket, as for a client that is gone: whatever comes of the request is dropped, and the
 * ticket is unknown from then on. What waits is never sent; what is under way goes on, and keeps its place until its
 * outcome comes. 252, 25 no such ticket is outstanding. */
uint8_t iol_port_abandon(iol_port *port, uint64_t ticket);

/* ---- the device: which one is expected, its cycle time, its page
 *
 * Each start-up reads the device's page, and checks it before it writes anything. What is expected, and the cycle time,
 * are those that hold then. So `counts` says from when on a call counts:
 *    1  now: no page of the present session was checked yet
 *    2  later: one was. The call counts from the next start-up on, and iol_port_restart leads to one
 * Where a call is refused, `counts` stays as it was. */

/* Expects the device with this VendorID and DeviceID. A start-up that reads another page takes the link down, with
 * `why` 38, and writes nothing to that device. The port wakes it again and again; no request goes to it, and those that
 * wait stay. A port is opened expecting any device. 252, 254 a DeviceID above 24 bits. */
uint8_t iol_port_expect(iol_port *port, uint16_t vendor, uint32_t device, uint8_t *counts);

/* Expects any device. 252. */
uint8_t iol_port_expect_any(iol_port *port, uint8_t *counts);

/* Chooses what a start-up writes to MasterCycleTime: the shortest cycle time that takes at least so many microseconds.
 * Where that is less than the device's MinCycleTime, and for 0, it writes MinCycleTime. A port is opened with 0.
 * 252, 39 above 132,800. */
uint8_t iol_port_set_cycle(iol_port *port, uint32_t micros, uint8_t *counts);

/* The microseconds that an octet of MinCycleTime or MasterCycleTime means, 0 to 132,800: that of a page is its first.
 * 39 its time base is reserved. */
uint8_t iol_port_cycle_micros(uint8_t octet, uint32_t *micros);

/* Direct parameter page 1, its addresses 0x02 to 0x0B: `length` is 10, or 0 where there is none. */
typedef struct { uint8_t length; uint8_t octets[10]; } iol_page;

/* The page that the start-up of the present session has read and checked. There is none before that, and none in down.
 * 252. */
uint8_t iol_port_page(iol_port *port, iol_page *out);

/* ---- the link, process data, events */

/* Cuts off the request under way, if any, and leaves the link in down. 252, 255 a wake or a message is out: answer it
 * first. The answer may be that nothing came: a rate of 0, or no octets. */
uint8_t iol_port_restart(iol_port *port);

/* Wants this output of the device. 252, 29 not 1 to 32 octets, 34 no start-up has told the lengths yet, 29 another
 * length than the device has. */
uint8_t iol_port_set_output(iol_port *port, const uint8_t *octets, size_t count);

/* Wants no output of the device. 252. */
uint8_t iol_port_clear_output(iol_port *port);

/* The device's input by the last good reply in OPERATE; none in any other mode. 252. */
uint8_t iol_port_image(iol_port *port, iol_image *out);

typedef struct { uint8_t qualifier; uint16_t code; } iol_event;

/* Hands out the event that was kept longest, which is kept no more. 252, 30 none is kept. */
uint8_t iol_port_take_event(iol_port *port, iol_event *out);

/* `mode` is 1 down, 2 startup, 3 preoperate, 4 operate; `why` the number of the fault that led down, 0 where none did;
 * `event_form` says that a reading of events met a form that the master doesn't know. Of a link that is down `why` is
 *   18  no device answered the wake
 *   19  three attempts in a row brought no good reply
 *   38  another device is expected than the one that is there
 *   40  its page asks for interleaved process data, at a port for any device
 *    8  the RevisionID of its page is neither 0x11 nor 0x10
 *    7  ProcessDataIn or ProcessDataOut of its page is no length
 *    2  the M-sequence codes of its page have no layout */
typedef struct { uint8_t mode; uint8_t why; bool event_form; } iol_status;

/* How the link is. 252. */
uint8_t iol_port_status(iol_port *port, iol_status *out);

/* Why a session ended: `why` is a number as of iol_status, or 0; with 38 `vendor` and `device` are the VendorID and the
 * DeviceID that were found, else 0. */
typedef struct { uint8_t why; uint16_t vendor; uint32_t device; } iol_loss;

/* Why the last session ended, until OPERATE is reached: start-ups that follow don't hide it, as they do in the status.
 * `why` is 0 if iol_port_restart ended it, in OPERATE, and before any session ended. A wake-up request in vain, 18, ends
 * no session. 252. */
uint8_t iol_port_last_loss(iol_port *port, iol_loss *out);

/* ---- what was counted, for diagnosis */

/* What a port has counted since it was opened. Each count stays at 2^64 - 1. An exchange has a good reply or a bad one
 * of one kind. The last five are requests that were cut off, by the cause. */
typedef struct {
    uint64_t exchanges;             /* messages that went out, repeats as well */
    uint64_t good_replies;          /* good replies */
    uint64_t repeats;               /* messages that went out a second or third time in a row */
    uint64_t no_reply;              /* exchanges to which no reply came in time */
    uint64_t wrong_length;          /* replies with more or fewer octets than a good one has */
    uint64_t wrong_checksum;        /* replies of the right length with a wrong checksum */
    uint64_t links_lost;            /* links lost: three attempts in a row brought no good reply */
    uint64_t start_ups;             /* start-ups: wake-up requests that a device answered */
    uint64_t done;                  /* requests that have their device's answer */
    uint64_t unknown_link_lost;     /* the device no longer replied */
    uint64_t unknown_restarted;     /* the port was restarted */
    uint64_t unknown_busy_too_long; /* the device was busy for as many replies as the port allows */
    uint64_t unknown_protocol;      /* the device sent no text of an answer */
    uint64_t unknown_cancelled;     /* a client asked for it */
} iol_counters;

/* What was counted. What is out counts once it is answered. 252. */
uint8_t iol_port_counters(iol_port *port, iol_counters *out);

/* ---- the journal */

/* An entry of the journal. Where `kind` is 1 the request was submitted, 2 submitted as urgent; 8 the master began to
 * send it; 9 it has this outcome; 12 it was withdrawn while it waited; 16 its outcome was handed out; 17 it was
 * abandoned; 0 there is no further entry. Other kinds may come. `request` counts for 1 and 2, `outcome` for 9; the kind
 * of the other is 0. */
typedef struct { uint64_t ticket; uint8_t kind; iol_request request; iol_outcome outcome; } iol_entry;

/* Begins a new journal, and keeps the old one, of `count` entries, for iol_port_entry; one that was kept before is given
 * up. 252, 28 a ticket is outstanding, or a request that was cut off may still be carried out, 63 the port keeps no
 * journal: the one that was kept before stays then. */
uint8_t iol_port_archive(iol_port *port, uint32_t *count);

/* Keeps the journal, of `count` entries, for iol_port_entry at any time, in place of the one that was kept before, and
 * begins a new one with what is restated: the entries of the tickets that are outstanding or in doubt (a request that was
 * cut off and may still be carried out). The first `restated` of those that are kept now were so at the last drain. 252,
 * 24 there is no memory for the list that is kept, 63 the port keeps no journal: both counts are 0 then, and all stays
 * as it was. */
uint8_t iol_port_drain(iol_port *port, uint32_t *count, uint32_t *restated);

/* The next entry of the journal that was archived or drained last, the oldest first. At the end `kind` is 0, and the memory of that
 * journal is given back. 252. */
uint8_t iol_port_entry(iol_port *port, iol_entry *out);

/* ---- what is checked before each call: that no pointer is null, and that the handle is where it was opened
 *
 * From here on each name above is that of the call with its checks. */

IOL_INLINE uint8_t iol_port_misuse(const iol_port *port, bool has_pointers)
{
    if (port == NULL || !has_pointers)
        return IOL_NOT_ASKED;
    return port->is_open && port->opened_at != port ? IOL_COPIED : 0;
}

IOL_CHECKED_OPENING(port, port_open, (iol_port *port, uint32_t journal, uint16_t busy, uint8_t queue, uint64_t given),
    iol_port_misuse(port, true), (port, journal, busy, queue, given))
#define iol_port_open iol_checked_port_open

IOL_CHECKED_OPENING(port, port_open_for,
    (iol_port *port, uint8_t devices, uint32_t journal, uint16_t busy, uint8_t queue, uint64_t given),
    iol_port_misuse(port, true), (port, devices, journal, busy, queue, given))
#define iol_port_open_for iol_checked_port_open_for

IOL_CHECKED(port_close, (iol_port *port), iol_port_misuse(port, true), (port))
#define iol_port_close iol_checked_port_close

IOL_CHECKED(port_asks, (iol_port *port, iol_message *out), iol_port_misuse(port, out != NULL), (port, out))
#define iol_port_asks iol_checked_port_asks

IOL_CHECKED(port_turn_woken, (iol_port *port, uint8_t rate), iol_port_misuse(port, true), (port, rate))
#define iol_port_turn_woken iol_checked_port_turn_woken

IOL_CHECKED(port_turn_answered, (iol_port *port, const uint8_t *octets, size_t count),
    iol_port_misuse(port, octets != NULL || count == 0), (port, iol_octets_at(octets), count))
#define iol_port_turn_answered iol_checked_port_turn_answered

IOL_CHECKED(port_trace_line, (iol_port *port, uint64_t number, iol_trace_line *out),
    iol_port_misuse(port, out != NULL), (port, number, out))
#define iol_port_trace_line iol_checked_port_trace_line

IOL_CHECKED(port_checksum, (const uint8_t *octets, size_t count), iol_null_refusal(octets != NULL || count == 0),
    (iol_octets_at(octets), count))
#define iol_port_checksum iol_checked_port_checksum

IOL_CHECKED(port_read, (iol_port *port, uint16_t index, uint8_t sub, uint64_t *ticket),
    iol_port_misuse(port, ticket != NULL), (port, index, sub, ticket))
#define iol_port_read iol_checked_port_read

IOL_CHECKED(port_read_urgent, (iol_port *port, uint16_t index, uint8_t sub, uint64_t *ticket),
    iol_port_misuse(port, ticket != NULL), (port, index, sub, ticket))
#define iol_port_read_urgent iol_checked_port_read_urgent

IOL_CHECKED(port_write,
    (iol_port *port, uint16_t index, uint8_t sub, const uint8_t *octets, size_t count, uint64_t *ticket),
    iol_port_misuse(port, (octets != NULL || count == 0) && ticket != NULL),
    (port, index, sub, iol_octets_at(octets), count, ticket))
#define iol_port_write iol_checked_port_write

IOL_CHECKED(port_write_urgent,
    (iol_port *port, uint16_t index, uint8_t sub, const uint8_t *octets, size_t count, uint64_t *ticket),
    iol_port_misuse(port, (octets != NULL || count == 0) && ticket != NULL),
    (port, index, sub, iol_octets_at(octets), count, ticket))
#define iol_port_write_urgent iol_checked_port_write_urgent

IOL_CHECKED(port_collect, (iol_port *port, uint64_t ticket, iol_outcome *out), iol_port_misuse(port, out != NULL),
    (port, ticket, out))
#define iol_port_collect iol_checked_port_collect

IOL_CHECKED(port_withdraw, (iol_port *port, uint64_t ticket), iol_port_misuse(port, true), (port, ticket))
#define iol_port_withdraw iol_checked_port_withdraw

IOL_CHECKED(port_cancel, (iol_port *port, uint64_t ticket), iol_port_misuse(port, true), (port, ticket))
#define iol_port_cancel iol_checked_port_cancel

IOL_CHECKED(port_abandon, (iol_port *port, uint64_t ticket), iol_port_misuse(port, true), (port, ticket))
#define iol_port_abandon iol_checked_port_abandon

IOL_CHECKED(port_expect, (iol_port *port, uint16_t vendor, uint32_t device, uint8_t *counts),
    iol_port_misuse(port, counts != NULL), (port, vendor, device, counts))
#define iol_port_expect iol_checked_port_expect

IOL_CHECKED(port_expect_any, (iol_port *port, uint8_t *counts), iol_port_misuse(port, counts != NULL), (port, counts))
#define iol_port_expect_any iol_checked_port_expect_any

IOL_CHECKED(port_set_cycle, (iol_port *port, uint32_t micros, uint8_t *counts), iol_port_misuse(port, counts != NULL),
    (port, micros, counts))
#define iol_port_set_cycle iol_checked_port_set_cycle

IOL_CHECKED(port_cycle_micros, (uint8_t octet, uint32_t *micros), iol_null_refusal(micros != NULL), (octet, micros))
#define iol_port_cycle_micros iol_checked_port_cycle_micros

IOL_CHECKED(port_page, (iol_port *port, iol_page *out), iol_port_misuse(port, out != NULL), (port, out))
#define iol_port_page iol_checked_port_page

IOL_CHECKED(port_restart, (iol_port *port), iol_port_misuse(port, true), (port))
#define iol_port_restart iol_checked_port_restart

IOL_CHECKED(port_set_output, (iol_port *port, const uint8_t *octets, size_t count),
    iol_port_misuse(port, octets != NULL || count == 0), (port, iol_octets_at(octets), count))
#define iol_port_set_output iol_checked_port_set_output

IOL_CHECKED(port_clear_output, (iol_port *port), iol_port_misuse(port, true), (port))
#define iol_port_clear_output iol_checked_port_clear_output

IOL_CHECKED(port_image, (iol_port *port, iol_image *out), iol_port_misuse(port, out != NULL), (port, out))
#define iol_port_image iol_checked_port_image

IOL_CHECKED(port_take_event, (iol_port *port, iol_event *out), iol_port_misuse(port, out != NULL), (port, out))
#define iol_port_take_event iol_checked_port_take_event

IOL_CHECKED(port_status, (iol_port *port, iol_status *out), iol_port_misuse(port, out != NULL), (port, out))
#define iol_port_status iol_checked_port_status

IOL_CHECKED(port_last_loss, (iol_port *port, iol_loss *out), iol_port_misuse(port, out != NULL), (port, out))
#define iol_port_last_loss iol_checked_port_last_loss

IOL_CHECKED(port_counters, (iol_port *port, iol_counters *out), iol_port_misuse(port, out != NULL), (port, out))
#define iol_port_counters iol_checked_port_counters

IOL_CHECKED(port_archive, (iol_port *port, uint32_t *count), iol_port_misuse(port, count != NULL), (port, count))
#define iol_port_archive iol_checked_port_archive

IOL_CHECKED(port_drain, (iol_port *port, uint32_t *count, uint32_t *restated),
            iol_port_misuse(port, count != NULL && restated != NULL), (port, count, restated))
#define iol_port_drain iol_checked_port_drain

IOL_CHECKED(port_entry, (iol_port *port, iol_entry *out), iol_port_misuse(port, out != NULL), (port, out))
#define iol_port_entry iol_checked_port_entry

#ifdef __cplusplus
}
#endif
#endif

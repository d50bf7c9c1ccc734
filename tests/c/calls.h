/* The calls of a port that may come at any time, each once: between.c, misuse.c, noise.c and stack.c make them from
 * this list. A row has the name; how a run ends in which the call comes between (between.c); and the arguments. Each
 * program says what PORT is, the handle, and what stands for a pointer, P. */
#ifndef CALLS_H
#define CALLS_H

#include "iolink_port.h"

/* What the calls are given. */
struct given {
    uint16_t index;
    uint64_t ticket;
    uint8_t octets[32];
    size_t count;
    uint8_t output;
    uint16_t vendor;
    uint32_t device;
    uint32_t micros;
};

/* Where they write. */
struct room {
    uint64_t ticket;
    iol_outcome outcome;
    iol_event event;
    iol_status status;
    iol_image image;
    iol_page page;
    iol_counters counters;
    iol_loss loss;
    iol_entry entry;
    iol_trace_line line;
    uint32_t entries;
    uint32_t restated;
    uint8_t counts;
};

/* How a run ends: by the state of a request, as between.stdout shows it, or in each state with this answer, this
 * output at the device and so many events left, and else as without the call. */
struct end {
    bool is_shown;
    uint8_t answer;
    uint8_t output;
    int events;
};

enum { OUTPUT = 0x5A, OUTPUT_BETWEEN = 0xA5 };

#define BY_STATE {true, 0, 0, 0}
#define ALWAYS(answer, output, events) {false, answer, output, events}
#define LOOKS ALWAYS(0, OUTPUT, 1)

#define EACH_CALL(X)                                                                                                   \
    X(read, BY_STATE, (PORT, given.index, 0, P(&room.ticket)))                                                         \
    X(read_urgent, BY_STATE, (PORT, given.index, 0, P(&room.ticket)))                                                  \
    X(write, BY_STATE, (PORT, given.index, 0, P(given.octets), given.count, P(&room.ticket)))                          \
    X(write_urgent, BY_STATE, (PORT, given.index, 0, P(given.octets), given.count, P(&room.ticket)))                   \
    X(cancel, BY_STATE, (PORT, given.ticket))                                                                          \
    X(withdraw, BY_STATE, (PORT, given.ticket))                                                                        \
    X(collect, BY_STATE, (PORT, given.ticket, P(&room.outcome)))                                                       \
    X(abandon, BY_STATE, (PORT, given.ticket))                                                                         \
    X(archive, BY_STATE, (PORT, P(&room.entries)))                                                                     \
    X(drain, LOOKS, (PORT, P(&room.entries), P(&room.restated)))                                                       \
    X(take_event, ALWAYS(0, OUTPUT, 0), (PORT, P(&room.event)))                                                        \
    X(set_output, ALWAYS(0, OUTPUT_BETWEEN, 1), (PORT, P(&given.output), 1))                                           \
    X(clear_output, ALWAYS(0, 0, 1), (PORT))                                                                           \
    X(restart, ALWAYS(IOL_NOT_ASKED, OUTPUT, 1), (PORT))                                                               \
    X(expect, LOOKS, (PORT, given.vendor, given.device, P(&room.counts)))                                              \
    X(expect_any, LOOKS, (PORT, P(&room.counts)))                                                                      \
    X(set_cycle, LOOKS, (PORT, given.micros, P(&room.counts)))                                                         \
    X(status, LOOKS, (PORT, P(&room.status)))                                                                          \
    X(image, LOOKS, (PORT, P(&room.image)))                                                                            \
    X(entry, LOOKS, (PORT, P(&room.entry)))                                                                            \
    X(page, LOOKS, (PORT, P(&room.page)))                                                                              \
    X(counters, LOOKS, (PORT, P(&room.counters)))                                                                      \
    X(last_loss, LOOKS, (PORT, P(&room.loss)))                                                                         \
    X(trace_line, LOOKS, (PORT, 1, P(&room.line)))

#define PLACE(name, end, arguments) CALL_##name,
enum call { NOTHING, EACH_CALL(PLACE) CALLS };

#endif

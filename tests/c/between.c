/* Every other call between what a port asks for and its answer, in each state of a request: a port against a device,
 * both through C, over a line of this program. The calls are those of calls.h. One whose row there says how a run with
 * it ends is held against that; of any other one line is printed for each state, first of a write, then of a read: the
 * number that the call answers; the outcome of each request, by its ticket; the tickets that the device's application
 * carried out, in order; the output that the device has then; how many events are left; and how many entries the
 * journal has. What is printed is compared with between.stdout. */
#include "calls.h"
#include "iolink_device.h"
#include <stdio.h>
#include <string.h>

/* What is out, and how far the request is: `QUEUED` was submitted while an idle message was out, `ENDED` has its
 * outcome and is not collected. */
enum state { NONE, WAKE, STARTUP, QUEUED, FIRST, SEGMENT, ASKED, BUSY, ANSWER, ENDED, STATES };

static const char *const state_names[STATES] = {
    [NONE] = "none",       [WAKE] = "wake",   [STARTUP] = "startup", [QUEUED] = "queued", [FIRST] = "first",
    [SEGMENT] = "segment", [ASKED] = "asked", [BUSY] = "busy",       [ANSWER] = "answer", [ENDED] = "ended",
};

#define NAME(name, end, arguments) [CALL_##name] = #name,
static const char *const call_names[CALLS] = {[NOTHING] = "nothing", EACH_CALL(NAME)};

#define END(name, end, arguments) [CALL_##name] = end,
static const struct end ends[CALLS] = {[NOTHING] = BY_STATE, EACH_CALL(END)};

/* The first octet of a message on the ISDU channel (IEC 61131-9, A.1.2, 7.3.6); a count stands in its low four bits. */
enum { WRITE_START = 0x70, WRITE_COUNT = 0x60, READ_START = 0xF0, READ_COUNT = 0xE0, READ_IDLE = 0xF1 };

/* The request in that state, at parameter 24, and one that is submitted between, at parameter 40: its ticket, 0 where
 * there is none, its outcome, how often it was carried out, and the octet that a read was answered with last. */
struct job {
    uint64_t ticket;
    bool reads, collected, abandoned;
    iol_outcome outcome;
    int carried_out;
    uint8_t answer;
};

enum { INDEX = 24, INDEX_BETWEEN = 40, OCTETS = 3, RECORD = 32, OUTCOMES = 80 };

/* What is left of a run: the outcomes of its requests, what was carried out, the output that the device has, and how
 * many events and entries there are. */
struct left { char outcomes[OUTCOMES]; char record[RECORD]; uint8_t output; int events; uint32_t entries; };

/* The device that is there, and a cycle time that it allows. */
enum { VENDOR = 0x1234, DEVICE = 0x000107, MICROS = 10000 };

static const uint8_t page[10] = {0x17, 1, 0x11, 0x10, 8, 0x12, 0x34, 0, 1, 7};
static const uint8_t written[OCTETS] = {0xB1, 0xB2, 0xB3}, output = OUTPUT;

static iol_port port;
static iol_device device;
static iol_message sent;
static struct job jobs[2];
static char record[RECORD]; /* the tickets that the application carried out */
static uint8_t answers;     /* so many reads were answered, each with the next number */
static int polls;           /* how often an answer was asked for */
static bool lazy;           /* the application leaves requests unanswered */
static bool reads;          /* the request in that state is a read, else a write */
static const char *where;   /* the state and the call that are tried */
static int wrong;

static void is(long long got, long long wanted, const char *what, int line)
{
    if (got == wanted)
        return;
    wrong++;
    printf("line %d, %s: %s is %lld, not %lld\n", line, where, what, got, wanted);
}
#define IS(got, wanted) is((long long)(got), (wanted), #got, __LINE__)

static void write_down(uint64_t ticket)
{
    size_t at = strlen(record);
    snprintf(record + at, RECORD - at, " %d", (int)ticket);
}

/* The application carries out what was handed over, at once unless it is lazy. No two reads have the same answer. */
static void work(void)
{
    uint64_t number;
    iol_request asked;
    struct job *job;
    IS(iol_device_handed(&device, &number, &asked), 0);
    if (asked.kind == 0 || lazy)
        return;
    job = &jobs[asked.index == INDEX_BETWEEN];
    job->carried_out++;
    write_down(job->ticket);
    if (asked.kind == 1) {
        job->answer = ++answers;
        IS(iol_device_answer_read(&device, number, &job->answer, 1), 0);
        return;
    }
    IS(asked.length, OCTETS);
    IS(memcmp(asked.octets, written, OCTETS), 0);
    IS(iol_device_answer_written(&device, number), 0);
}

static void ask(void)
{
    IS(iol_port_asks(&port, &sent), 0);
}

/* What is out is asked for again, octet for octet. */
static void ask_again(void)
{
    iol_message again;
    memset(&again, 0xEE, sizeof again);
    IS(iol_port_asks(&port, &again), 0);
    IS(again.length, sent.length);
    IS(memcmp(again.octets, sent.octets, sent.length), 0);
}

/* What is out goes over the line, and what came is brought; nothing is where it was lost on the way back. */
static void answer(bool lost)
{
    iol_reply reply;
    if (sent.length == 0) {
        IS(iol_device_wake(&device), 0);
        IS(iol_port_turn_woken(&port, lost ? 0 : 2), 0);
        return;
    }
    polls += sent.octets[0] == READ_START;
    IS(iol_device_hear(&device, sent.octets, sent.length, &reply), 0);
    work();
    IS(iol_port_turn_answered(&port, reply.octets, lost ? 0 : reply.length), 0);
}

static void turns(int count)
{
    while (count-- > 0) {
        ask();
        answer(false);
    }
}

/* What doesn't fit what is out is refused. */
static void misfits_while_out(void)
{
    if (sent.length == 0) {
        IS(iol_port_turn_answered(&port, page, 0), IOL_NOT_ASKED);
        IS(iol_port_turn_answered(&port, page, 10), IOL_NOT_ASKED);
    } else {
        IS(iol_port_turn_woken(&port, 0), IOL_NOT_ASKED);
        IS(iol_port_turn_woken(&port, 2), IOL_NOT_ASKED);
    }
    IS(iol_port_restart(&port), IOL_NOT_ASKED);
    ask_again();
}

/* And so is every answer where nothing is out. */
static void misfits_while_nothing_is_out(void)
{
    IS(iol_port_turn_answered(&port, page, 0), IOL_NOT_ASKED);
    IS(iol_port_turn_answered(&port, page, 10), IOL_NOT_ASKED);
    IS(iol_port_turn_woken(&port, 0), IOL_NOT_ASKED);
    IS(iol_port_turn_woken(&port, 2), IOL_NOT_ASKED);
}

/* Whether what is out is that of the state. */
static bool is_at(enum state state)
{
    uint8_t first = sent.octets[0];
    switch (state) {
    case WAKE: return sent.length == 0;
    case STARTUP: return sent.length > 0;
    case FIRST: return first == WRITE_START;
    case SEGMENT: return (first & 0xF0) == WRITE_COUNT;
    case ASKED: return first == READ_START;
    case BUSY: return first == READ_START && polls > 0;
    case ANSWER: return (first & 0xF0) == READ_COUNT;
    case ENDED: return first == READ_IDLE && polls > 0;
    default: return first == READ_IDLE;
    }
}

static void submit(void)
{
    jobs[0].reads = reads;
    if (reads)
        IS(iol_port_read(&port, INDEX, 0, &jobs[0].ticket), 0);
    else
        IS(iol_port_write(&port, INDEX, 0, written, OCTETS, &jobs[0].ticket), 0);
}

/* Both ends run in OPERATE with an output and an event, which the port keeps; then the state is reached, and what is
 * out there waits for its answer. */
static void reach(enum state state)
{
    int count = 100;
    memset(jobs, 0, sizeof jobs);
    record[0] = 0;
    answers = 0;
    IS(iol_device_open(&device, page), 0);
    IS(iol_port_open(&port, 1000, 100, 64, 0), 0);
    turns(20);
    IS(iol_port_set_output(&port, &output, 1), 0);
    IS(iol_device_raise(&device, 0xF4, 0x4210), 0);
    turns(20);
    if (state == WAKE || state == STARTUP)
        IS(iol_port_restart(&port), 0);
    if (state != NONE && state != QUEUED)
        submit();
    polls = 0;
    lazy = state == BUSY;
    for (ask(); !is_at(state) && count-- > 0; ask())
        answer(false);
    lazy = false;
    IS(is_at(state), true);
    if (state == QUEUED)
        submit();
}

static uint8_t collect(struct job *job)
{
    uint8_t number = iol_port_collect(&port, job->ticket, &job->outcome);
    job->collected = job->collected || number == 0;
    return number;
}

/* Whether a page of the present session was checked. */
static bool has_page(void)
{
    iol_page found;
    IS(iol_port_page(&port, &found), 0);
    return found.length > 0;
}

/* From when on what is asked of the device counts is known by the page. */
static bool configures(enum call call)
{
    return call == CALL_expect || call == CALL_expect_any || call == CALL_set_cycle;
}

static uint8_t call_between(enum call call)
{
    struct given given = {INDEX_BETWEEN, jobs[0].ticket, {0}, OCTETS, OUTPUT_BETWEEN, VENDOR, DEVICE, MICROS};
    struct room room;
    bool checked = has_page();
    uint8_t answered = 0;
    memcpy(given.octets, written, OCTETS);
    memset(&room, 0, sizeof room);
    switch (call) {
#define PORT &port
#define P(pointer) (pointer)
#define MAKE(name, end, arguments) case CALL_##name: answered = iol_port_##name arguments; break;
    EACH_CALL(MAKE)
    default: break;
    }
    IS(room.counts, !configures(call) ? 0 : checked ? 2 : 1);
    jobs[1].reads = call == CALL_read || call == CALL_read_urgent;
    jobs[1].ticket = room.ticket;
    jobs[0].abandoned = call == CALL_abandon && answered == 0;
    if (call == CALL_collect && answered == 0) {
        jobs[0].collected = true;
        jobs[0].outcome = room.outcome;
    }
    return answered;
}

/* A request that is done was carried out once, and has the answer of that time; one whose outcome is unknown was
 * carried out once at most, and one that was withdrawn never. */
static const char *judge(const struct job *job)
{
    switch (job->outcome.kind) {
    case 1:
    case 2:
        IS(job->outcome.kind, job->reads ? 1 : 2);
        IS(job->carried_out, 1);
        IS(job->outcome.length, job->reads ? 1 : 0);
        if (job->reads)
            IS(job->outcome.octets[0], job->answer);
        return "done";
    case 8: IS(job->carried_out <= 1, true); return "unknown";
    case 12: IS(job->carried_out, 0); return "withdrawn";
    default: IS(job->outcome.kind, 1); return "neither";
    }
}

/* The outcome of a request, as it is printed; its ticket is collected then. One that was abandoned is unknown. */
static size_t tell_job(struct job *job, char *outcomes, size_t room)
{
    const char *name;
    if (job->ticket == 0) {
        IS(job->carried_out, 0);
        return 0;
    }
    if (job->abandoned) {
        IS(collect(job), 25);
        IS(job->carried_out <= 1, true);
        return (size_t)snprintf(outcomes, room, "%d abandoned; ", (int)job->ticket);
    }
    if (!job->collected)
        IS(collect(job), 0);
    name = judge(job);
    if (job->outcome.cause != 0)
        return (size_t)snprintf(outcomes, room, "%d %s, cause %d; ", (int)job->ticket, name, job->outcome.cause);
    return (size_t)snprintf(outcomes, room, "%d %s; ", (int)job->ticket, name);
}

/* Every request ends, both ends are closed, and this is what is left of the run. */
static void finish(struct left *left)
{
    iol_image image;
    iol_event event;
    size_t at;
    memset(left, 0, sizeof *left);
    turns(100);
    at = tell_job(&jobs[0], left->outcomes, OUTCOMES);
    tell_job(&jobs[1], left->outcomes + at, OUTCOMES - at);
    strcpy(left->record, record[0] ? record : " none");
    IS(iol_device_output(&device, &image), 0);
    left->output = image.length ? image.octets[0] : 0;
    while (iol_port_take_event(&port, &event) == 0)
        left->events++;
    IS(iol_port_archive(&port, &left->entries), 0);
    IS(iol_port_close(&port), 0);
    IS(iol_device_close(&device), 0);
}

static void is_same(const struct left *left, const struct left *wanted)
{
    IS(strcmp(left->outcomes, wanted->outcomes), 0);
    IS(strcmp(left->record, wanted->record), 0);
    IS(left->output, wanted->output);
    IS(left->events, wanted->events);
    IS(left->entries, wanted->entries);
}

/* The state is reached, the call is made, and what is out is answered, or its answer is lost once. What doesn't fit is
 * tried before and after. */
static uint8_t run(enum state state, enum call call, bool lost, struct left *left)
{
    uint8_t answered;
    reach(state);
    answered = call_between(call);
    ask_again();
    misfits_while_out();
    answer(lost);
    misfits_while_nothing_is_out();
    finish(left);
    return answered;
}

/* The state is reached and left with no call between, and none that is refused. */
static void run_plainly(enum state state, struct left *left)
{
    reach(state);
    answer(false);
    finish(left);
}

/* What was refused changed nothing. A lost answer changes nothing of how it ends. What is expected is there, so that to
 * expect it changes nothing either; and no cycle time changes what is left. */
static void try_call(enum state state, enum call call, const struct left *plain)
{
    char name[40];
    struct left left, left_if_lost, wanted = *plain;
    uint8_t answered;
    snprintf(name, sizeof name, "%s %s", state_names[state], call_names[call]);
    where = name;
    answered = run(state, call, false, &left);
    IS(run(state, call, true, &left_if_lost), answered);
    is_same(&left_if_lost, &left);
    if (!ends[call].is_shown) {
        IS(answered, ends[call].answer);
        wanted.output = ends[call].output;
        wanted.events = ends[call].events;
    }
    if (!ends[call].is_shown || answered != 0 || call == NOTHING)
        is_same(&left, &wanted);
    if (ends[call].is_shown)
        printf("%-8s%-13s%3d: %scarried out%s; output %02X, events %d, entries %u\n", state_names[state],
               call_names[call], answered, left.outcomes, left.record, left.output, left.events,
               (unsigned)left.entries);
}

static void try_state(enum state state)
{
    struct left plain;
    int call;
    where = state_names[state];
    run_plainly(state, &plain);
    for (call = 0; call < CALLS; call++)
        try_call(state, call, &plain);
}

int main(void)
{
    int state, kind;
    for (kind = 0; kind < 2; kind++) {
        reads = kind == 1;
        printf("of a %s\n", reads ? "read" : "write");
        for (state = 0; state < STATES; state++)
            try_state(state);
    }
    printf("wrong %d\n", wrong);
    return wrong != 0;
}

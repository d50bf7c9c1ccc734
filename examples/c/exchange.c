/* A sensor is exchanged, and gets its parameters back: its set is in a file, which outlives the master.
 *
 *     exchange FILE
 *
 * This program is the machine: it plugs sensors in and pulls them out, presses their keys, gives the master its orders,
 * and ends it. Each sensor (sensor_process) and each master (master_process) is a process of its own. The line between
 * them is a socket that takes messages whole; a message of no octets is a wake-up request, or its answer. */
#define _GNU_SOURCE
#include "iolink_params.h"
#include "iolink_storage.h"
#include <fcntl.h>
#include <poll.h>
#include <signal.h>
#include <stdio.h>
#include <stdlib.h>
#include <string.h>
#include <sys/prctl.h>
#include <sys/socket.h>
#include <sys/wait.h>
#include <time.h>
#include <unistd.h>

enum { LOWER = 40, UPPER = 41, PRESS = 5, MOST = 66, TEXT = 128 };

/* For how many milliseconds the master waits for a reply, which covers a machine that is busy with other things; and
 * the least time of a cycle. */
enum { REPLY_TIME = 500, CYCLE = 1 };

/* The ends of a socket: of the line, or between the machine and a process. */
typedef struct { int near; int far; } ends;

static ends connected(void)
{
    int both[2];
    if (socketpair(AF_UNIX, SOCK_SEQPACKET | SOCK_CLOEXEC, 0, both) != 0)
        perror("a socket"), exit(1);
    return (ends){both[0], both[1]};
}

/* What came within so many milliseconds; -1 where nothing did. */
static int received(int socket, void *octets, size_t most, int milliseconds)
{
    struct pollfd waits = {.fd = socket, .events = POLLIN};
    return poll(&waits, 1, milliseconds) > 0 ? (int)recv(socket, octets, most, MSG_DONTWAIT) : -1;
}

static void drop_all(int socket)
{
    uint8_t octets[TEXT];
    while (received(socket, octets, sizeof octets, 0) >= 0)
        continue;
}

/* ---- a sensor: a thermometer with two limits, and a key that raises the upper one */

#define OF(octets) (const uint8_t *)(octets), sizeof(octets) - 1
#define LIMIT(index, octets) {index, 0, IOL_UINT16, IOL_STORED, 0, 0, 1000, OF(octets)}
static const iol_param_row rows[] = {LIMIT(LOWER, "\x00\x64"), LIMIT(UPPER, "\x00\xE6")};
static const iol_order_rule rules[] = {{LOWER, 0, UPPER, 0}};
static const uint8_t page[10] = {0x17, 0x2D, 0x11, 0x10, 0x00, 0x12, 0x34, 0x00, 0x01, 0x07};

static iol_params device;

static int limit(uint16_t index)
{
    iol_value value = {0};
    uint8_t error;
    iol_params_value(&device, index, 0, &value, &error);
    return value.octets[0] << 8 | value.octets[1];
}

/* The machine asks for both limits, or presses the key. */
static void sensor_told(int machine)
{
    char words[TEXT] = "";
    uint8_t error;
    int upper = limit(UPPER) + PRESS, length;
    if (received(machine, words, sizeof words - 1, 0) <= 0)
        return;
    if (strcmp(words, "press") == 0)
        iol_params_set(&device, UPPER, 0, (const uint8_t[2]){(uint8_t)(upper >> 8), (uint8_t)upper}, 2, &error);
    length = snprintf(words, sizeof words, "its limits are %d and %d tenths", limit(LOWER), limit(UPPER));
    send(machine, words, (size_t)length, 0);
}

static void sensor_heard(int line, const uint8_t *octets, size_t count)
{
    iol_reply reply = {0};
    if (count == 0)
        iol_params_wake(&device);
    else
        iol_params_hear(&device, octets, count, &reply);
    if (iol_params_work(&device) == IOL_TO_SAVE)
        iol_params_saved(&device); /* where a sensor of yours saves its image */
    if (count == 0 || reply.length > 0)
        send(line, reply.octets, reply.length, 0);
}

static int sensor_process(int line, int machine)
{
    struct pollfd waits[2] = {{.fd = line, .events = POLLIN}, {.fd = machine, .events = POLLIN}};
    uint8_t octets[MOST];
    int count;
    iol_params_open(&device, page, rows, 2, rules, 1, NULL, 0, &(size_t){0});
    iol_params_set_input(&device, (const uint8_t *)"\x00\xC8", 2);
    for (drop_all(line); poll(waits, 2, -1) > 0; sensor_told(machine))
        if ((count = received(line, octets, sizeof octets, 0)) >= 0)
            sensor_heard(line, octets, (size_t)count);
    return 1;
}

/* ---- the master */

static iol_store store;
static const char *file;
static int to_machine;

/* Tells the machine one line. */
#define TELL(...)                                                                                                      \
    do {                                                                                                               \
        char words[TEXT];                                                                                              \
        send(to_machine, words, (size_t)snprintf(words, sizeof words, __VA_ARGS__), 0);                                \
    } while (0)

/* The set of the file; none where there is no file. */
static void load(iol_set *set)
{
    FILE *it = fopen(file, "rb");
    set->length = it == NULL ? 0 : (uint16_t)fread(set->octets, 1, sizeof set->octets, it);
    if (it != NULL)
        fclose(it);
}

/* Saves a set whole, or not at all: a new file, once it is on the disk, takes the place of the old one. */
static bool save(const iol_set *set)
{
    char other[TEXT * 4];
    int it;
    bool is_saved;
    snprintf(other, sizeof other, "%s.new", file);
    it = open(other, O_WRONLY | O_CREAT | O_TRUNC | O_CLOEXEC, 0600);
    is_saved = write(it, set->octets, set->length) == set->length && fsync(it) == 0;
    return close(it) == 0 && is_saved && rename(other, file) == 0;
}

/* What the port asks for goes out, and what came back goes to the port. */
static void turn(int line)
{
    iol_message sent;
    uint8_t came[MOST];
    int count;
    iol_store_asks(&store, &sent);
    drop_all(line);
    send(line, sent.octets, sent.length, 0);
    count = received(line, came, sizeof came, REPLY_TIME);
    if (sent.length == 0)
        iol_store_turn_woken(&store, count >= 0 ? 2 : 0);
    else
        iol_store_turn_answered(&store, came, count > 0 ? (size_t)count : 0);
}

static void tell_standing(void)
{
    static const char *const served[] = {"", "off", "unsupported", "empty", "same", "restored", "fetched"};
    static iol_standing last;
    iol_standing it;
    iol_store_standing(&store, &it);
    if (it.kind != last.kind || it.detail != last.detail) {
        if (it.kind == IOL_AWAITED)
            TELL("Data Storage: awaited");
        else if (it.kind == IOL_SERVED)
            TELL("Data Storage: %s", served[it.detail]);
        else
            TELL("Data Storage: trouble %d", it.detail);
    }
    last = it;
}

/* Behind each turn: events are taken, what was fetched is saved, and the journal is drained. */
static void tend(void)
{
    iol_event event;
    iol_set set;
    uint64_t number;
    uint32_t count, restated;
    while (iol_store_take_event(&store, &event) == 0)
        TELL("event %04X", event.code);
    iol_store_unsaved(&store, &number, &set);
    if (set.length > 0 && save(&set)) {
        TELL("saved a set of %d octets", set.length);
        iol_store_saved(&store, number);
    }
    iol_store_drain(&store, &count, &restated);
    tell_standing();
}

/* The machine orders a block of both limits, as "400 450". */
static void order(uint64_t *block)
{
    char words[TEXT] = "", *next;
    unsigned long value;
    int index;
    if (received(to_machine, words, sizeof words - 1, 0) <= 0)
        return;
    iol_store_block_begin(&store);
    for (index = LOWER, next = words; index <= UPPER; index++) {
        value = strtoul(next, &next, 10);
        iol_store_block_write(&store, (uint16_t)index, 0, (const uint8_t[2]){(uint8_t)(value >> 8), (uint8_t)value}, 2);
    }
    if (iol_store_block_submit(&store, IOL_KEEP, block) != 0)
        TELL("block not taken");
}

static void tell_block(uint64_t block)
{
    iol_block_end end;
    if (block == 0 || iol_store_block_collect(&store, block, &end) != 0)
        return;
    if (end.kind == 3)
        TELL("block refused at %d/%d by %02X %02X", end.refused.index, end.refused.sub, end.refused.error,
            end.refused.additional);
    else
        TELL("block %s", end.kind == 1 ? "applied" : "cut off");
}

static int master_process(int line, int machine)
{
    static iol_set set;
    const struct timespec cycle = {.tv_nsec = CYCLE * 1000000};
    uint64_t block = 0;
    uint8_t refusal;
    to_machine = machine;
    load(&set);
    refusal = iol_store_open(&store, IOL_DEVICES_ANY, IOL_STORAGE_BOTH, 1000, 100, 64, 0, set.octets, set.length);
    TELL("begun with a set of %d octets: %d", set.length, refusal);
    for (; refusal == 0; nanosleep(&cycle, NULL)) {
        turn(line);
        tend();
        order(&block);
        tell_block(block);
    }
    return 1;
}

/* ---- the machine */

typedef struct { pid_t process; int to; } party;

/* Begins a process at its end of the line. */
static party begun(int process(int line, int machine), int line)
{
    ends its = connected();
    party it = {fork(), its.near};
    if (it.process == 0 && prctl(PR_SET_PDEATHSIG, SIGKILL) == 0)
        _exit(process(line, its.far));
    close(its.far);
    return it;
}

static void end(party it)
{
    kill(it.process, SIGKILL);
    waitpid(it.process, NULL, 0);
    close(it.to);
}

/* Prints what a process tells, up to the line that begins so. */
static void wait_for(party it, const char *name, const char *begin)
{
    char words[TEXT];
    ssize_t count;
    do {
        if ((count = recv(it.to, words, sizeof words - 1, 0)) <= 0)
            exit(printf("%s is gone\n", name) < 0 ? 2 : 1);
        words[count] = 0;
        printf("%s: %s\n", name, words);
    } while (strncmp(words, begin, strlen(begin)) != 0);
}

static void tell(party it, const char *words)
{
    send(it.to, words, strlen(words), 0);
}

int main(int count, char **words)
{
    ends line = connected();
    party master, sensor;
    if (count < 2)
        return fputs("exchange FILE\n", stderr), 2;
    file = words[1];
    setvbuf(stdout, NULL, _IONBF, 0);

    master = begun(master_process, line.near);
    sensor = begun(sensor_process, line.far);
    wait_for(master, "master", "Data Storage: ");
    tell(sensor, "press");
    wait_for(sensor, "sensor A", "its limits");
    wait_for(master, "master", "saved");

    end(sensor);
    wait_for(master, "master", "Data Storage: awaited");
    sensor = begun(sensor_process, line.far);
    wait_for(master, "master", "Data Storage: ");
    tell(sensor, "limits");
    wait_for(sensor, "sensor B", "its limits");

    tell(master, "250 300");
    wait_for(master, "master", "Data Storage: fetched");
    tell(master, "400 350");
    wait_for(master, "master", "block refused");

    end(master);
    end(sensor);
    master = begun(master_process, line.near);
    sensor = begun(sensor_process, line.far);
    wait_for(master, "master", "Data Storage: ");
    tell(sensor, "limits");
    wait_for(sensor, "sensor C", "its limits");
    end(master);
    end(sensor);
    return 0;
}

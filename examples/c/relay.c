/* A cable between a master and a device, which loses, damages and delays:
 *
 *     relay [LOST DAMAGED DELAY [SEED]]
 *
 * It prints the pseudo terminals of its two ends, and ends by SIGTERM; then it prints what it did. LOST and DAMAGED are
 * of ten thousand messages and replies, DELAY is in microseconds. Octets at a rate that the other end hasn't chosen are
 * lost. A damaged message has a bit changed, as a checksum finds it. */
#define _GNU_SOURCE
#include <errno.h>
#include <fcntl.h>
#include <poll.h>
#include <signal.h>
#include <stdint.h>
#include <stdio.h>
#include <stdlib.h>
#include <termios.h>
#include <time.h>
#include <unistd.h>

/* An end: the relay's side of a pseudo terminal, and the other side, which it keeps open while nobody else has it. */
typedef struct { int ours, theirs; } end_of_line;

static volatile sig_atomic_t is_ended;
static uint64_t state;
static unsigned long carried, lost, damaged;

static void end(int number)
{
    (void)number;
    is_ended = 1;
}

static int open_end(end_of_line *it, const char *name)
{
    struct termios how;
    it->ours = posix_openpt(O_RDWR | O_NOCTTY);
    if (it->ours < 0 || grantpt(it->ours) != 0 || unlockpt(it->ours) != 0)
        return 0;
    it->theirs = open(ptsname(it->ours), O_RDWR | O_NOCTTY);
    if (it->theirs < 0 || tcgetattr(it->theirs, &how) != 0)
        return 0;
    cfmakeraw(&how);
    printf("%s %s\n", name, ptsname(it->ours));
    return tcsetattr(it->theirs, TCSANOW, &how) == 0;
}

/* Whether this happens, so many times of ten thousand. */
static int happens(unsigned long times)
{
    state = state * 6364136223846793005u + 1442695040888963407u;
    return (state >> 33) % 10000 < times;
}

static int have_one_rate(const end_of_line *one, const end_of_line *other)
{
    struct termios here, there;
    if (tcgetattr(one->ours, &here) != 0 || tcgetattr(other->ours, &there) != 0)
        return 0;
    return cfgetospeed(&here) == cfgetospeed(&there);
}

static void wait_for(unsigned long micros)
{
    struct timespec time = {(time_t)(micros / 1000000), (long)(micros % 1000000) * 1000};
    nanosleep(&time, NULL);
}

/* Carries what came at one end to the other. */
static void carry(const end_of_line *from, const end_of_line *to, const unsigned long *faults)
{
    uint8_t octets[256];
    ssize_t count = read(from->ours, octets, sizeof octets);
    if (count <= 0 || (count > 1 && !have_one_rate(from, to)))
        return; /* a wake-up request, one octet, has no rate */
    carried++;
    if (happens(faults[0])) {
        lost++;
        return;
    }
    if (happens(faults[1])) {
        damaged++;
        octets[count - 1] ^= 1;
    }
    wait_for(faults[2]);
    if (write(to->ours, octets, (size_t)count) != count)
        perror("relay");
}

int main(int count, char **words)
{
    struct sigaction ends = {.sa_handler = end};
    unsigned long faults[4] = {0, 0, 0, 1};
    end_of_line master, device;
    for (int at = 1; at < count && at <= 4; at++)
        faults[at - 1] = strtoul(words[at], NULL, 10);
    state = faults[3];
    sigaction(SIGTERM, &ends, NULL);
    setvbuf(stdout, NULL, _IOLBF, 0);
    if (!open_end(&master, "master") || !open_end(&device, "device"))
        return perror("relay"), 1;
    while (!is_ended) {
        struct pollfd waits[2] = {{.fd = master.ours, .events = POLLIN}, {.fd = device.ours, .events = POLLIN}};
        if (poll(waits, 2, -1) < 0 && errno != EINTR)
            return perror("relay"), 1;
        if (waits[0].revents & POLLIN)
            carry(&master, &device, faults);
        if (waits[1].revents & POLLIN)
            carry(&device, &master, faults);
    }
    printf("carried %lu lost %lu damaged %lu\n", carried, lost, damaged);
    return 0;
}

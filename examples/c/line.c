#define _GNU_SOURCE
#include "line.h"
#include <errno.h>
#include <fcntl.h>
#include <poll.h>
#include <termios.h>
#include <time.h>
#include <unistd.h>

static const struct { speed_t speed; uint64_t bits_a_second; } rates[] = {
    {B0, 1}, {B4800, 4800}, {B38400, 38400}, {B230400, 230400}};

bool line_open(line *it, const char *path, uint64_t slack)
{
    it->slack = slack;
    it->file = open(path, O_RDWR | O_NOCTTY | O_NONBLOCK | O_CLOEXEC);
    if (it->file >= 0 && line_set_rate(it, COM3))
        return true;
    line_close(it);
    return false;
}

bool line_set_rate(line *it, int rate)
{
    struct termios how;
    it->rate = rate;
    if (tcgetattr(it->file, &how) != 0)
        return false;
    cfmakeraw(&how);
    /* An octet with a parity or framing error is dropped: then the reply is too short, as it should be. */
    how.c_iflag |= INPCK | IGNPAR | IGNBRK;
    how.c_cflag |= PARENB | CLOCAL | CREAD;
    how.c_cflag &= ~(tcflag_t)(PARODD | CSTOPB);
    cfsetspeed(&how, rates[rate].speed);
    /* It may say that it failed where a pseudo terminal has no parity. The rate is what counts. */
    tcsetattr(it->file, TCSADRAIN, &how);
    return tcgetattr(it->file, &how) == 0 && cfgetospeed(&how) == rates[rate].speed;
}

void line_close(line *it)
{
    if (it->file >= 0)
        close(it->file);
    it->file = -1;
}

uint64_t now(void)
{
    struct timespec time;
    clock_gettime(CLOCK_MONOTONIC, &time);
    return (uint64_t)time.tv_sec * 1000000 + (uint64_t)time.tv_nsec / 1000;
}

void wait_until(uint64_t time)
{
    struct timespec until = {(time_t)(time / 1000000), (long)(time % 1000000) * 1000};
    while (clock_nanosleep(CLOCK_MONOTONIC, TIMER_ABSTIME, &until, NULL) == EINTR)
        ;
}

uint64_t line_bits(const line *it, uint64_t count)
{
    return count * 1000000 / rates[it->rate].bits_a_second;
}

bool line_send(const line *it, const uint8_t *octets, size_t count)
{
    struct pollfd waits = {.fd = it->file, .events = POLLOUT};
    while (count > 0) {
        ssize_t gone = write(it->file, octets, count);
        if (gone < 0 && errno != EAGAIN && errno != EINTR)
            return false;
        if (gone > 0)
            octets += gone, count -= (size_t)gone;
        else
            poll(&waits, 1, -1);
    }
    return true;
}

size_t line_receive(const line *it, uint8_t *octets, size_t most, uint64_t deadline)
{
    struct pollfd waits = {.fd = it->file, .events = POLLIN};
    for (;;) {
        uint64_t time = now();
        uint64_t left = time < deadline ? deadline - time : 0;
        struct timespec until = {(time_t)(left / 1000000), (long)(left % 1000000) * 1000};
        if (ppoll(&waits, 1, &until, NULL) > 0) {
            ssize_t came = read(it->file, octets, most);
            if (came > 0)
                return (size_t)came;
        }
        if (left == 0)
            return 0;
    }
}

void line_drain(const line *it)
{
    tcflush(it->file, TCIFLUSH);
}

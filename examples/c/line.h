/* A serial line of IO-Link, for both ends: 8 data bits, even parity, one stop bit, at one of three rates. Times are in
 * microseconds. */
#ifndef LINE_H
#define LINE_H

#include <stdbool.h>
#include <stddef.h>
#include <stdint.h>

/* COM1 is 4.8 kbit/s, COM2 38.4 kbit/s, COM3 230.4 kbit/s: the numbers of iol_port_turn_woken. */
enum { COM1 = 1, COM2 = 2, COM3 = 3 };

/* `slack` is what the system adds to the times of the line: scheduling, the buffers of a USB adapter. */
typedef struct { int file; int rate; uint64_t slack; } line;

/* Opens the line raw. False with errno where that fails. */
bool line_open(line *it, const char *path, uint64_t slack);
bool line_set_rate(line *it, int rate);
void line_close(line *it);

/* The time, from any beginning; and waiting for one. */
uint64_t now(void);
void wait_until(uint64_t time);

/* So many bits in time. */
uint64_t line_bits(const line *it, uint64_t count);

/* Sends these octets. False where the line is gone. */
bool line_send(const line *it, const uint8_t *octets, size_t count);

/* The octets that came until `deadline`, up to `most`: 0 where there is none by then. */
size_t line_receive(const line *it, uint8_t *octets, size_t most, uint64_t deadline);

/* Drops what came. */
void line_drain(const line *it);

/* To fill in for your transceiver, in wake.c: makes the wake-up request, a pulse of 75 to 85 microseconds, and says
 * whether a device sees one in this octet, the first of a message. */
void wake_up_pulse(const line *it);
bool is_wake_up_pulse(uint8_t octet);

#endif

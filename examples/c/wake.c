/* The wake-up request. A UART can't make the pulse, nor see it: fill in what your transceiver has for it, a pin or a
 * register. As it stands it is for a line without transceivers, such as pseudo terminals: an octet with which no
 * master's message begins. */
#include "line.h"

enum { PULSE = 0x5F };

void wake_up_pulse(const line *it)
{
    uint8_t octet = PULSE;
    line_send(it, &octet, 1);
}

bool is_wake_up_pulse(uint8_t octet)
{
    return octet == PULSE;
}

/* What a client wants of a port, as lines of standard input say it, one of them in a cycle:
 *
 *     read INDEX                      (decimal; octets are hexadecimal)
 *     write INDEX OCTETS
 *     input                           prints the device's process data
 *     output OCTETS
 *     expect VENDORID DEVICEID        (hexadecimal)
 *     turns N                         the next one is taken N turns later
 *     counters */
#ifndef CLIENT_H
#define CLIENT_H

#include "iolink_port.h"

/* How many tickets a client has at most. */
enum { CLIENT_TICKETS = 64 };

/* Prints what is new: the link, whose device answered at this rate, events, outcomes. Answers the mode. */
uint8_t client_tell(iol_port *port, int rate);

/* Takes the next line, if one is there. False where there is no further one, and each request has its outcome. */
bool client_goes_on(iol_port *port);

#endif

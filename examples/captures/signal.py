#!/usr/bin/env python3
"""Writes the signal of a UART line as a VCD file on standard output.

    signal.py BAUD < OCTETS

OCTETS are lines `SECONDS OCTET`, as those of examples/octets. `SECONDS OCTET parity` has a wrong parity bit, and
`SECONDS OCTET framing` a wrong stop bit. Other lines are passed over. Frames are 8E1, and samples are taken each 0.1 us.
"""
import sys

SAMPLE = 100


def bits_of(octet, error):
    data = [octet >> place & 1 for place in range(8)]
    parity = sum(data) & 1 ^ (error == "parity")
    return [0, *data, parity, int(error != "framing")]


def levels_of(lines, bit):
    for line in lines:
        seconds, octet, *error = line.split()
        begin = float(seconds) * 1e9
        for place, level in enumerate(bits_of(int(octet, 16), *(error or [None]))):
            yield round((begin + place * bit) / SAMPLE), level
        yield round((begin + 11 * bit) / SAMPLE), 1


def main():
    bit = 1e9 / int(sys.argv[1])
    lines = [line for line in sys.stdin if line[0].isdigit() and "wake" not in line]
    print("$timescale 100 ns $end\n$scope module line $end\n$var wire 1 ! CQ $end")
    print("$upscope $end\n$enddefinitions $end\n#0\n1!")
    last = 1
    for time, level in levels_of(lines, bit):
        if level != last:
            print(f"#{time}\n{level}!")
            last = level
    print(f"#{time + 10000}")


main()

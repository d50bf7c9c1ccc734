"""Reads a parameter of a device at a serial line: read.py LINE INDEX"""
import sys

import iolink

path, index = sys.argv[1], int(sys.argv[2])
with iolink.Serial(path, slack=0.2) as line, iolink.Port() as port:
    print(port.read(line, index).hex(" ").upper())

"""Makes a PNG smaller without another look: its rows as they are, without the filters that suit photographs."""
import struct
import zlib

SIGNATURE = b"\x89PNG\r\n\x1a\n"
# Octets of a pixel by the colour type: RGB, and RGB with alpha.
DEPTHS = {2: 3, 6: 4}


def chunks(octets):
    """The parts of a PNG: the kind and the content of each."""
    at = len(SIGNATURE)
    while at < len(octets):
        (size,) = struct.unpack(">I", octets[at : at + 4])
        yield octets[at + 4 : at + 8], octets[at + 8 : at + 8 + size]
        at += 12 + size


def chunk(kind, content):
    return struct.pack(">I", len(content)) + kind + content + struct.pack(">I", zlib.crc32(kind + content))


def nearest(left, above, corner):
    """The neighbour that is next to left + above - corner, as filter 4 takes it."""
    guess = left + above - corner
    return min((abs(guess - left), 0, left), (abs(guess - above), 1, above), (abs(guess - corner), 2, corner))[2]


def unfiltered(kind, row, before, depth):
    """The octets of a row that was filtered in this way, behind the row before."""
    for at in range(len(row)):
        left = row[at - depth] if at >= depth else 0
        above = before[at]
        if kind == 1:
            row[at] = (row[at] + left) & 255
        elif kind == 2:
            row[at] = (row[at] + above) & 255
        elif kind == 3:
            row[at] = (row[at] + (left + above) // 2) & 255
        elif kind == 4:
            corner = before[at - depth] if at >= depth else 0
            row[at] = (row[at] + nearest(left, above, corner)) & 255
    return row


def make_smaller(path):
    """Writes a PNG anew: the same pixels."""
    with open(path, "rb") as it:
        parts = list(chunks(it.read()))
    head = parts[0][1]
    width, height = struct.unpack(">II", head[:8])
    depth = DEPTHS[head[9]]
    data = zlib.decompress(b"".join(content for kind, content in parts if kind == b"IDAT"))
    size = width * depth + 1
    row, rows = bytearray(size - 1), []
    for at in range(0, height * size, size):
        row = unfiltered(data[at], bytearray(data[at + 1 : at + size]), row, depth)
        rows.append(b"\0" + bytes(row))
    packed = zlib.compress(b"".join(rows), 9)
    with open(path, "wb") as it:
        it.write(SIGNATURE + chunk(b"IHDR", head) + chunk(b"IDAT", packed) + chunk(b"IEND", b""))

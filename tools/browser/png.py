"""The pixels of a PNG as browsers write them: eight bits a colour, not interlaced (the PNG specification, 9)."""
import struct
import zlib

CHANNELS = {2: 3, 6: 4}


def paeth(a, b, c):
    p = a + b - c
    nearest = min(abs(p - a), abs(p - b), abs(p - c))
    return a if abs(p - a) == nearest else b if abs(p - b) == nearest else c


def unfiltered(kind, line, above, size):
    """A line of bytes without its filter, of which a pixel has `size`."""
    if kind == 1:
        for k in range(size, len(line)):
            line[k] = (line[k] + line[k - size]) & 255
    elif kind == 2:
        line = bytearray((x + y) & 255 for x, y in zip(line, above))
    elif kind in (3, 4):
        for k in range(len(line)):
            left, corner = (line[k - size], above[k - size]) if k >= size else (0, 0)
            line[k] = (line[k] + ((left + above[k]) // 2 if kind == 3 else paeth(left, above[k], corner))) & 255
    return line


def lines_of(png):
    """The lines of a picture, each the bytes of red, green and blue of its pixels."""
    place, packed = 8, b""
    while place < len(png):
        length, kind = struct.unpack(">I4s", png[place : place + 8])
        part = png[place + 8 : place + 8 + length]
        if kind == b"IHDR":
            width, height, _, colour = struct.unpack(">IIBB", part[:10])
        packed += part if kind == b"IDAT" else b""
        place += 12 + length
    size = CHANNELS[colour]
    raw, step, above = zlib.decompress(packed), width * size + 1, bytearray(width * size)
    lines = []
    for y in range(height):
        above = unfiltered(raw[y * step], bytearray(raw[y * step + 1 : (y + 1) * step]), above, size)
        lines.append(bytes(above) if size == 3 else bytes(it for k, it in enumerate(above) if k % 4 != 3))
    return lines

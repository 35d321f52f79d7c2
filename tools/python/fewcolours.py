"""Pictures of the form PNG with few colours, so that they are small."""
import collections
import struct
import zlib

CHANNELS = {2: 3, 6: 4}  # by the kind of a picture: colours, and colours with how much is seen through them
# How much colours of the palette differ at least, at first and then, while there is place in it.
APART = (60, 36, 20, 8, 0)


def parts_of(data):
    """The parts of a picture, each with its name."""
    at = 8
    while at < len(data):
        length, name = struct.unpack(">I4s", data[at : at + 8])
        yield name, data[at + 8 : at + 8 + length]
        at += length + 12


def unfiltered(kind, line, above, step):
    """A line as it is, of what is written: each byte's difference from one or two of its neighbours."""
    for at in range(len(line)):
        left, over, corner = (line[at - step] if at >= step else 0), above[at], (above[at - step] if at >= step else 0)
        near = left + over - corner
        likely = min((left, over, corner), key=lambda it: abs(near - it))
        line[at] = (line[at] + (0, left, over, (left + over) // 2, likely)[kind]) & 255
    return line


def read(data):
    """The width of a picture, and its lines of colours."""
    parts = list(parts_of(data))
    width, height, _, kind = struct.unpack(">IIBB", dict(parts)[b"IHDR"][:10])
    step = CHANNELS[kind]
    raw = zlib.decompress(b"".join(it for name, it in parts if name == b"IDAT"))
    lines, above = [], bytes(width * step)
    for number in range(height):
        at = number * (width * step + 1)
        above = unfiltered(raw[at], bytearray(raw[at + 1 : at + 1 + width * step]), above, step)
        lines.append([bytes(above[it : it + 3]) for it in range(0, len(above), step)])
    return width, lines


def palette_of(counts, most):
    """So many colours: the most frequent ones that differ."""
    chosen = []
    for apart in APART:
        for colour, _ in counts.most_common():
            if len(chosen) < most and all(sum(abs(a - b) for a, b in zip(colour, it)) > apart for it in chosen):
                chosen.append(colour)
    return chosen


def part(name, data):
    return struct.pack(">I", len(data)) + name + data + struct.pack(">I", zlib.crc32(name + data))


def with_few_colours(data, most=64):
    """A picture with at most so many colours, 256 at most."""
    width, lines = read(data)
    counts = collections.Counter(it for line in lines for it in line)
    palette = palette_of(counts, most)
    nearest = {colour: min(range(len(palette)), key=lambda it: sum((a - b) ** 2 for a, b in zip(colour, palette[it]))) for colour in counts}
    packed = zlib.compress(b"".join(b"\0" + bytes(nearest[it] for it in line) for line in lines), 9)
    head = struct.pack(">IIBBBBB", width, len(lines), 8, 3, 0, 0, 0)
    return data[:8] + part(b"IHDR", head) + part(b"PLTE", b"".join(palette)) + part(b"IDAT", packed) + part(b"IEND", b"")

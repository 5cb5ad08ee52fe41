#!/usr/bin/env python3
"""Makes the samples of the listing program, and its own case in crates/list: for each the bytes, and the text that has to be printed.

It follows document 01 and shares no code with the crates. Two widths that 01 leaves to document 002 are those of document 004: a state of
the switch in a point has one byte (R-29), and the extended data's length has two (R-30). Run it as samples/make.py; it overwrites what it
made before."""
import os

SAMPLES = os.path.dirname(os.path.abspath(__file__))
CASE = os.path.join(os.path.dirname(SAMPLES), "crates", "list")

CHANNELS = "X Y Z VX VY AX AY T DT F S TX TY Az El R".split()
SIGNED = "X Y VX VY AX AY TX TY".split()
IDENTIFIER = bytes([0x53, 0x44, 0x49, 0x00])
VERSION = bytes([0x20, 0x31, 0x30, 0x00])

# ---- What is printed for some bytes


class Short(Exception):
    pass


class Refused(Exception):
    pass


class Bytes:
    """Bytes that are taken one by one."""

    def __init__(self, data, place):
        self.data, self.place = data, place

    def take(self, number=None, passes=None):
        """The next byte. Where it does not pass it is refused with the number."""
        if self.place == len(self.data):
            raise Short()
        byte = self.data[self.place]
        if passes is not None and not passes(byte):
            raise Refused(number, self.place)
        self.place += 1
        return byte

    def take_number(self, width):
        number = 0
        for _ in range(width):
            number = number * 256 + self.take()
        return number


def read_descriptor(source):
    """Whether the channel is constant."""
    flags = source.take(5, lambda byte: byte % 2 == 0)
    for bit in (128, 64, 32, 16, 8):
        if flags & bit:
            source.take_number(2)
    return bool(flags & 4)


def read_channels(source):
    """The included channels in order, each with whether it is constant."""
    first = source.take(4, lambda byte: byte & 128 and byte & 64)
    inclusion = first * 256 + source.take()
    included = [c for i, c in enumerate(CHANNELS) if inclusion >> (15 - i) & 1]
    return [(c, read_descriptor(source)) for c in included]


def read_sample(source, channel):
    if channel == "S":
        return source.take(8, lambda byte: byte in (0, 1))
    stored = source.take_number(2)
    return stored - 32768 if channel in SIGNED else stored


def read_record(source):
    """The count of points, and the fields of each point that has bytes."""
    for expected in IDENTIFIER:
        source.take(2, lambda byte: byte == expected)
    for expected in VERSION:
        source.take(3, lambda byte: byte == expected)
    channels = read_channels(source)
    source.take(6, lambda byte: byte == 0)
    opening = source.take(7, lambda byte: byte % 128 == 0)
    count = source.take_number(3)
    points = []
    if not all(constant for _, constant in channels):
        for _ in range(count):
            points.append(["-" if constant else str(read_sample(source, c)) for c, constant in channels])
    if opening:
        for _ in range(source.take_number(2)):
            source.take()
    return count, points


def listing(data):
    if len(data) > 65536:
        return "large\n"
    lines = []
    place = 0
    try:
        while place < len(data):
            source = Bytes(data, place)
            count, points = read_record(source)
            lines.append(f"record {place} {source.place - place} {count}")
            for index, fields in enumerate(points):
                lines.append(f"point {index} " + " ".join(fields))
            place = source.place
        lines.append(f"end {place}")
    except Short:
        lines.append(f"short {place}")
    except Refused as refusal:
        lines.append(f"refused {refusal.args[0]} {refusal.args[1]}")
    return "".join(line + "\n" for line in lines)


# ---- Bytes to print something for


def descriptor(channel, scaling=None, minimum=None, maximum=None, mean=None, deviation=None, constant=False, detrended=False):
    offset = 32768 if channel in SIGNED else 0
    flags, numbers = 0, b""
    for bit, number, added in ((128, scaling, 0), (64, minimum, offset), (32, maximum, offset), (16, mean, offset), (8, deviation, 0)):
        if number is not None:
            flags += bit
            numbers += (number + added).to_bytes(2, "big")
    return bytes([flags + 4 * constant + 2 * detrended]) + numbers


def sample(channel, value):
    if channel == "S":
        return bytes([value])
    return (value + (32768 if channel in SIGNED else 0)).to_bytes(2, "big")


def header(channels, announced, count):
    """Through the count. Each channel has its attributes."""
    inclusion = sum(1 << (15 - i) for i, c in enumerate(CHANNELS) if c in channels)
    descriptors = b"".join(descriptor(c, **channels[c]) for c in CHANNELS if c in channels)
    return IDENTIFIER + VERSION + inclusion.to_bytes(2, "big") + descriptors + bytes([0, 128 if announced else 0]) + count.to_bytes(3, "big")


def record(channels, points, extended=None):
    """Each point has the values of the channels that are not constant."""
    stored = [c for c in CHANNELS if c in channels and not channels[c].get("constant")]
    body = b"".join(sample(c, value) for point in points for c, value in zip(stored, point, strict=True))
    behind = b"" if extended is None else len(extended).to_bytes(2, "big") + extended
    return header(channels, extended is not None, len(points)) + body + behind


def changed(data, place, byte):
    return data[:place] + bytes([byte]) + data[place + 1 :]


CONSTANT = {"constant": True}

# M and P8 of document 01
M = bytes.fromhex("53 44 49 00 20 31 30 00 C0 00 00 00 00 00 00 00 00")
P8 = bytes.fromhex("53 44 49 00 20 31 30 00 C0 00 00 00 00 00 00 00 01 7F FF 80 00")

# every channel, with each kind of attribute, at the ends of the ranges and between them
EVERY = record(
    {
        "X": dict(scaling=26 * 2048 + 1952, minimum=-32768, maximum=32767, mean=-1, deviation=65535),
        "Y": dict(scaling=26 * 2048 + 1952, minimum=-300, maximum=300),
        "Z": dict(minimum=0, maximum=65535, mean=9),
        "VX": {},
        "VY": {},
        "AX": dict(detrended=True),
        "AY": dict(detrended=True, mean=-7),
        "T": dict(scaling=26 * 2048),
        "DT": {},
        "F": dict(maximum=1023),
        "S": dict(minimum=0, maximum=1),
        "TX": dict(minimum=-90, maximum=90),
        "TY": dict(minimum=-90, maximum=90),
        "Az": dict(maximum=3599),
        "El": dict(maximum=900),
        "R": dict(deviation=12),
    },
    [
        (-32768, 32767, 0, -1, 1, -12345, 12345, 0, 10, 0, 0, -90, 90, 0, 900, 359),
        (0, -1, 65535, 0, 0, 0, 0, 10, 10, 1023, 1, 0, 0, 3599, 0, 65535),
        (32767, -32768, 256, 255, -256, 7, -7, 20, 65535, 512, 0, 45, -45, 1800, 450, 0),
    ],
)

# azimuth is declared constant, so it has no bytes in a point
AZIMUTH = record(
    {"X": dict(scaling=22 * 2048 + 1151), "Y": dict(scaling=22 * 2048 + 1151), "DT": {}, "F": dict(maximum=1023), "S": {}, "Az": CONSTANT, "El": {}},
    [(1200, -850, 10, 301, 1, 610), (1214, -861, 10, 333, 1, 612), (1231, -870, 10, 0, 0, 615)],
)

# every channel is constant: points have no bytes, and any count is good
NO_BYTES = header({"X": CONSTANT, "Y": CONSTANT}, False, 16777215)

EXTENDED = record({"X": {}, "Y": {}, "T": {}}, [(-5, 6, 0), (-4, 7, 10)], b"left hand")
EXTENDED_NO_BYTES = changed(NO_BYTES, 13, 128) + b"\x00\x00"
SWITCH = record({"X": CONSTANT, "Y": CONSTANT, "S": {}}, [(1,), (0,), (1,)])

SAMPLE_FILES = {
    "point_then_unfinished": P8 + b"\x53",
    "every_channel": EVERY,
    "constant_azimuth": AZIMUTH,
    "points_without_bytes": NO_BYTES + EXTENDED_NO_BYTES,
    "extended_data": EXTENDED + M,
    "joined": AZIMUTH + EVERY,
    "truncated": EXTENDED + AZIMUTH[:-1],
    "damaged": AZIMUTH + changed(EVERY, 10, 0xF9) + P8,
    "empty": b"",
    "wrong_identifier": b"\x53\x45",
    "wrong_version": changed(M, 5, 0x32),
    "x_not_included": changed(M, 8, 0x40),
    "reserved_bit": changed(M, 10, 0x01),
    "reserved_byte": changed(M, 12, 0x01),
    "opening_bits": changed(M, 13, 0x01),
    "switch_of_two": SWITCH + changed(SWITCH, len(SWITCH) - 2, 2),
}

# the program's own case: every kind of line but `end`, `short` and `large`
OWN_CASE = P8 + AZIMUTH + EVERY + NO_BYTES + EXTENDED + SWITCH + M + changed(SWITCH, len(SWITCH) - 1, 255)


def write(folder, name, data):
    with open(os.path.join(folder, name), "wb") as file:
        file.write(data)


for name, data in SAMPLE_FILES.items():
    write(SAMPLES, name + ".bin", data)
    write(SAMPLES, name + ".txt", listing(data).encode())
write(CASE, "stdin", OWN_CASE)
write(CASE, "stdout", listing(OWN_CASE).encode())

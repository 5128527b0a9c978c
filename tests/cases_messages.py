"""Calls of the reader and the writer: every map with each field at and around its range, every first byte, every length,
plans at and past their limits, and two refusals at once.
"""

from calls import WRITTEN, call_reader, call_writer
from model import MAPS, ORDER

GOOD_PLANS = [(1, 1, 1), (16, 7, 4), (16, 1, 4), (1, 7, 1), (5, 3, 2), (2, 6, 3)]
BAD_PLANS = [
    (0, 3, 2), (17, 3, 2), (255, 3, 2),
    (5, 0, 2), (5, 8, 2), (5, 255, 2),
    (5, 3, 0), (5, 3, 5), (5, 3, 255),
    (0, 0, 0), (255, 255, 255),
]
MIDDLE = (5, 3, 2)


def ends(plan):
    """Fields in range: the lowest (a ballot of 1, which a 1a may have too), and the highest."""
    n, a, _ = plan[:3]
    return [0, 0, 0, 1, 1], [n - 1, a - 1, 255, 255, 2]


def slice_of(first, fields):
    """The first byte, a byte for each field whose bit stands in it, in order, and the order number."""
    number = ORDER.to_bytes(2, "big") if first >> 5 & 1 else b""
    return bytes([first] + [x for bit, x in enumerate(fields) if first >> bit & 1]) + number


def with_field(fields, bit, value):
    return fields[:bit] + [value] + fields[bit + 1:]


def both(label, plan, map_byte, fields, number=None):
    """The reader on the message's bytes, and the writer on the message."""
    call_reader(label, plan, slice_of(map_byte, fields), number)
    call_writer(label, plan, map_byte, fields, number)


def examples():
    """The examples 1 to 6 of "Proved examples"."""
    for text, number in (("390000010102", 0), ("270000010102", 0), ("00", 15), ("3900000102", 16), ("390000030102", 17),
                         ("2900000102", 17)):
        call_reader("example", (1, 1, 1), bytes.fromhex(text), number)


def fields():
    """Each field of each message at and around the ranges, the others at the low or the high end of theirs."""
    for plan in GOOD_PLANS:
        n, a, _ = plan[:3]
        for map_byte in WRITTEN:
            for bit in range(5):
                if map_byte >> bit & 1:
                    # a ballot has no range but a 1a's
                    for value in (0, 1, 255) if bit in (2, 3) else (0, 1, 2, 3, n - 1, n, a - 1, a, 255):
                        for end in ends(plan):
                            both("field", plan, map_byte, with_field(end, bit, value))
    # every value of an instance and of a value
    for map_byte, bit in ((0x39, 0), (0x30, 4)):
        for value in range(256):
            call_reader("every value", MIDDLE, slice_of(map_byte, with_field(ends(MIDDLE)[1], bit, value)))


def two_fields():
    """Two fields out of range."""
    wrong = [MIDDLE[0], MIDDLE[1], 0, 0, 3]
    for map_byte in WRITTEN:
        for low in range(5):
            for high in range(low + 1, 5):
                fields = with_field(with_field(ends(MIDDLE)[0], low, wrong[low]), high, wrong[high])
                both("two fields", MIDDLE, map_byte, fields)
        both("every field", MIDDLE, map_byte, wrong, 17)


def first_bytes():
    """Every first byte with the length that its bits ask for; the known maps and others at every length to 8."""
    n, a, _ = MIDDLE
    for first in range(256):
        call_reader("first byte", MIDDLE, slice_of(first, [1, 1, 1, 1, 1]), 0 if first in MAPS else 15)
    choices = [[0] * 5, [255] * 5, *ends(MIDDLE), [0, 0, 0, 0, 1], [n, 0, 0, 1, 1], [0, a, 0, 1, 1], [0, 0, 0, 1, 3]]
    for first in [*WRITTEN, 0x00, 0x01, 0x19, 0x1F, 0x20, 0x3E, 0x79, 0xFF]:
        for length in range(11):
            for fields in choices if first in MAPS else choices[:3]:
                call_reader("length", MIDDLE, (slice_of(first, fields) + bytes(10))[:length])


def long_slices():
    """Slices longer than a slot, and such whose length is right in its lower byte alone: 16, or 15 for an unknown map."""
    for map_byte in WRITTEN:
        message = slice_of(map_byte, ends(MIDDLE)[0])
        call_reader("long", MIDDLE, message + bytes(6), 16)
        call_reader("long", MIDDLE, message + bytes(256), 16)
        call_reader("long", MIDDLE, message * 2, 16)
    call_reader("long", MIDDLE, bytes(300), 15)
    call_reader("long", MIDDLE, bytes([0x39]) + bytes(999), 16)


def plans():
    """Each number of the plan through its range and past it, and plans out of range with sound and with refused input: 1."""
    message = [4, 2, 0, 1, 1]
    for at in range(3):
        for value in [*range(20), 31, 32, 63, 64, 127, 128, 254, 255]:
            call_reader("plan", MIDDLE[:at] + (value,) + MIDDLE[at + 1:], slice_of(0x3B, message))
        for value in (0, 1, 2, 3, 4, 5, 7, 8, 16, 17, 255):
            plan = MIDDLE[:at] + (value,) + MIDDLE[at + 1:]
            for part in (b"", b"\x1b\4\2\1\1", b"\x3b\4\2\1\1\1\2\0", b"\x3b\4\2\1\3\1\2"):
                call_reader("plan", plan, part)
            for map_byte in (0x3B, 0x29, 0x30):
                call_writer("plan", plan, map_byte, message)
                call_writer("plan", plan, map_byte, with_field(with_field(message, 3, 0), 4, 3))
    for plan in BAD_PLANS:
        for map_byte in WRITTEN:
            both("bad plan", plan, map_byte, [0, 0, 0, 1, 1], 1)
            both("bad plan", plan, map_byte, [255, 255, 0, 0, 3], 1)
            call_reader("bad plan", plan, bytes([map_byte]), 1)
        call_reader("bad plan", plan, b"", 1)
        call_reader("bad plan", plan, b"\0", 1)


def orders():
    """Order numbers at their ends, and a message of another: 18, and 17 where a field is out of range too."""
    for order in (0, 1, 255, 256, 258, 0xFF00, 0xFFFF):
        plan = (*MIDDLE, order)
        for map_byte in WRITTEN:
            for end in ends(MIDDLE):
                part = slice_of(map_byte, end)[:-2]
                call_writer("order", plan, map_byte, end, 0)
                for number in (order, order ^ 1, order ^ 0x100, order ^ 0x8000, (order & 255) * 256 + order // 256):
                    call_reader("order", plan, part + number.to_bytes(2, "big"), 0 if number == order else 18)
        for number in (order, order ^ 1):
            call_reader("order and value", plan, b"\x39\0\0\3" + number.to_bytes(2, "big"), 17)
            call_reader("order and length", plan, b"\x39\0\1" + number.to_bytes(2, "big"), 16)
            call_reader("order and map", plan, b"\x19\0\0\1" + number.to_bytes(2, "big"), 15)


SECTIONS = [orders, examples, fields, two_fields, first_bytes, long_slices, plans]

"""Shifts with their listings, as document 02 (S-12) has them: each a name, the bytes, and what is printed."""
import struct

# document 01's sample, and its listing
OK = struct.pack("<6I", 0x20080200, 0x40000200, 0x60000001, 0x80002000, 0xA0000000, 0xC0000000)
LISTED = b"bale 1 1 1\npart 0 empty 0\n0 3F000000 3F000000\n"


def words(*numbers):
    return struct.pack(f"<{len(numbers)}I", *numbers)


def refused(number, place):
    return b"refused %d at %d\n" % (number, place)


DIRTY_END = OK[:20] + words(0xC0000001)
DISORDER = words(0x20080200, 0x60000001, 0x40000200, 0xC0001234)
CROWDED = words(0x20080200, 0x40000200, 0x60000019, 0xC0000000)
NO_ALPHA = words(0x20000200) + OK[4:]
BROKEN_OFF = OK[:8]

SHIFTS = [
    ("nothing", b"", b""),
    ("one bale", OK, LISTED),
    ("two bales", OK + OK, LISTED + LISTED),
    ("a bale and two bytes", OK + b"\0\0", LISTED + refused(9, 0)),
    ("three bytes", b"\xc0\xc0\xc0", refused(9, 0)),
    ("an end word first", words(0xC0000000) + OK, refused(9, 0) + LISTED),
    ("two end words more", OK + words(0xC0000000, 0xDFFFFFFF) + OK, LISTED + 2 * refused(9, 0) + LISTED),
    ("an end word with a bit set", DIRTY_END + OK, refused(9, 5) + LISTED),
    ("a bad word, an end word with bits set", DISORDER + OK, refused(9, 1) + LISTED),
    ("broken off", OK + BROKEN_OFF, LISTED + refused(9, 2)),
    ("broken off within a word", BROKEN_OFF + b"\0\0\0", refused(9, 2)),
    ("a zero word between", OK + words(0) + OK, LISTED + refused(9, 0)),
    ("a zero byte between", OK + b"\0" + OK, LISTED + refused(9, 0)),
    ("a kind 7 between", OK + words(0xE0000000) + OK + OK, LISTED + refused(9, 0) + LISTED),
    ("25 grades", CROWDED + OK, refused(1, 0) + LISTED),
    ("alpha 0", NO_ALPHA + OK, refused(3, 0) + LISTED),
    ("a long bale that breaks off", OK[:12] + words(0xA0000000) * 200 + words(0) + OK, refused(9, 203)),
]

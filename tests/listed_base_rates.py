"""Bale files with a base rate, and shifts with such bales (document 02, S-16): each a name, the bytes, and what is printed; a belief's bits are the Rust's."""
from listed_shifts import LISTED, OK, refused, words

ALPHA_0, SETTINGS, PRIOR, GRADE, CROWDED, PAIR, END = 0x20000200, 0x20080200, 0x40000200, 0x60000001, 0x60000019, 0xA0000000, 0xC0000000


def base(b):
    return 0xE0000000 + b


def marker(e):
    return 0x80000000 + e


def sample(b, e):
    """Document 01's sample with a base rate, and this read."""
    return words(SETTINGS, PRIOR, base(b), GRADE, marker(e), PAIR, END)


def listed(absent, present):
    return LISTED[:-18] + f"{absent} {present}\n".encode()


LEAST, LEAST_LISTED = sample(1, 8192), listed("3ECCE14C", "3F198F59")

BALES = [
    ("a half, and a read of a half", sample(512, 8192), LISTED),
    ("the least", LEAST, LEAST_LISTED),
    ("the largest", sample(1023, 8192), listed("3F2A8E47", "3EAAE390")),
    ("300, and a read of 3/4", sample(300, 12288), listed("3ED73FBF", "3F146020")),
    ("1, the largest read", sample(1, 15360), listed("3ECCCE2B", "3F1998EA")),
    ("1, a read one larger", sample(1, 15361), refused(5, 0)),
    ("1, the least read", sample(1, 2), listed("3F1EE7A6", "3EC230B5")),
    ("1, a read one less", sample(1, 1), refused(5, 0)),
    ("1,023, the least read", sample(1023, 1024), listed("3F2AA8CE", "3EAAAE80")),
    ("1,023, a read one less", sample(1023, 1023), refused(5, 0)),
    ("1,023, the largest read", sample(1023, 16382), listed("3ED6516A", "3F14D74A")),
    ("1,023, a read one larger", sample(1023, 16383), refused(5, 0)),
    ("a read of 0", sample(512, 0), refused(5, 0)),
    ("a read of 1", sample(512, 16384), refused(5, 0)),
    ("a read over 1", sample(512, 16385), refused(5, 0)),
    ("the largest number for a read", sample(1023, 32767), refused(5, 0)),
    ("0", sample(0, 8192), refused(11, 2)),
    ("0, and 25 grades", words(SETTINGS, PRIOR, base(0), CROWDED, END), refused(11, 2)),
    ("0, and alpha 0", words(ALPHA_0, PRIOR, base(0), GRADE, END), refused(11, 2)),
    ("0, and a read over 1", sample(0, 16385), refused(11, 2)),
    ("0, and a bad word behind it", words(SETTINGS, PRIOR, base(0), GRADE, marker(32768), END), refused(9, 4)),
    ("0, and no end", sample(0, 8192)[:-4], refused(9, 6)),
    ("0, and a byte behind the end", sample(0, 8192) + b"\0", refused(9, 7)),
    ("before the prior", words(SETTINGS, base(1), PRIOR, GRADE, END), refused(9, 1)),
    ("behind the grades", words(SETTINGS, PRIOR, GRADE, base(1), END), refused(9, 3)),
    ("behind a marker", words(SETTINGS, PRIOR, GRADE, marker(8192), base(1), PAIR, END), refused(9, 4)),
    ("in the grades' place", words(SETTINGS, PRIOR, base(1), marker(8192), END), refused(9, 3)),
    ("twice", words(SETTINGS, PRIOR, base(1), base(1), GRADE, END), refused(9, 3)),
    ("twice, the first 0", words(SETTINGS, PRIOR, base(0), base(1), GRADE, END), refused(9, 3)),
    ("1,024", sample(1024, 8192), refused(9, 2)),
    ("with the highest bit under the kind set", sample(1 + (1 << 28), 8192), refused(9, 2)),
]

ENDED = [bale for bale in BALES if bale[1].endswith(words(END))]

SHIFTS = [
    ("0 in the second bale", LEAST + sample(0, 8192) + LEAST, LEAST_LISTED + refused(11, 2) + LEAST_LISTED),
    ("in one bale and not in the next", LEAST + OK, LEAST_LISTED + LISTED),
    ("of 0, and none in the next bale", sample(0, 8192) + OK, refused(11, 2) + LISTED),
    ("in a bale with a bad word, and none in the next", words(SETTINGS, PRIOR, base(1), PAIR, END) + OK, refused(9, 3) + LISTED),
    ("two", LEAST + sample(300, 12288), LEAST_LISTED + listed("3ED73FBF", "3F146020")),
    ("of 0 in a bale that breaks off", OK + sample(0, 8192)[:-4], LISTED + refused(9, 6)),
    ("each of the bales with an end word", b"".join(data for _, data, _ in ENDED), b"".join(text for _, _, text in ENDED)),
]

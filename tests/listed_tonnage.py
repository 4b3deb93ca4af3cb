"""Mornings, each a name, the CSV, the shift, and what `depot` prints of them (document 02, S-33); a belief's bits are the Rust's."""
from listed_base_rates import LEAST
from listed_shifts import BROKEN_OFF, CROWDED, DIRTY_END, NO_ALPHA, OK, refused, words


def bale(alpha, beta, prior, grades, reads, pairs, base=()):
    """Settings in 1,024ths, reads in 16,384ths, pairs of grade and marker, and a base rate or none."""
    head = [1 << 29 | alpha << 10 | beta, 2 << 29 | prior, *(7 << 29 | b for b in base), 3 << 29 | grades]
    return words(*head, *(4 << 29 | e for e in reads), *(5 << 29 | g << 10 | m for g, m in pairs), 6 << 29)


def totals(*grams):
    return b"".join(b"%d %d\n" % entry for entry in enumerate(grams) if entry[1])


# examples/film.txt
FILM = bale(768, 64, 256, 5, [15360, 1024, 14336, 8192], [(0, 0), (1, 0), (1, 1), (2, 1), (3, 2), (4, 3)])
SURE = bale(1023, 1, 1023, 1, [16383] * 24, [(0, m) for m in range(24)])
BASED = bale(900, 10, 300, 2, [9000, 3000], [(0, 0), (1, 0), (1, 1)], [200])
# grades 0 and 3 are one part, grade 2 is the next, and grade 1 is in no pair
CROSSED = bale(768, 64, 256, 4, [15360, 1024], [(0, 0), (3, 0), (2, 1)])
NO_PAIR = bale(512, 512, 512, 2, [8192], [])

LONG = b"".join(b"%d,%d\n" % (i, 1 + i % 2000) for i in range(10000))

MALFORMED = [
    b"0,5\r\n", b"00,5\n", b"0,05\n", b"0,0\n", b"0,2001\n", b"10000,5\n", b"0,5,\n", b" 0,5\n", b"0, 5\n", b"0 ,5\n", b"0,5 \n", b"\t0,5\n", b"0,5",
    b"18446744073709551616,5\n", b"0,18446744073709551617\n", b"4294967296,5\n", b"0,4294967297\n", b"65536,5\n", b"\n", b",\n", b"0\n", b"0,\n", b",5\n", b"0;5\n",
    b"+0,5\n", b"0,+5\n", b"-0,5\n", b"0,5.0\n", b"0x0,5\n", b"bale,kilograms\n", b"\xef\xbb\xbf0,5\n", b"\x000,5\n", b"0,5\x00\n", b"0,5\x85\n", b"\xb0,5\n",
    b"9000,2001\n", b"0" * 200000 + b",5\n", b"0," + b"1" * 200000,
]

MORNINGS = [
    ("half of three kilograms", b"0,3\n", OK, totals(1500)),
    ("the film bale", b"0,250\n", FILM, totals(146632, 57398, 24798, 143890, 62499)),
    ("the film bale, the heaviest", b"0,2000\n", FILM, totals(1173063, 459190, 198388, 1151125, 499998)),
    ("the film bale three times", b"0,1\n1,1\n2,1\n", FILM * 3, totals(1758, 687, 297, 1725, 747)),
    ("a belief of 1", b"0,2000\n", SURE, totals(2000000)),
    ("a base rate", b"0,1000\n", BASED, totals(489167, 466258)),
    ("beliefs not in the grades' order, and a grade without one", b"0,1000\n", CROSSED, totals(486705, 0, 91761, 486705)),
    ("a bale without beliefs", b"0,1000\n1,1\n", NO_PAIR + OK, totals(500)),
    ("no line, no bale", b"", b"", b""),
    ("no line", b"", OK, b""),
    ("no line, a refused bale", b"", NO_ALPHA, b""),
    ("no bale", b"0,5\n", b"", refused(15, 0)),
    ("the second of one bale", b"0,5\n1,5\n", OK, refused(15, 1)),
    ("the last number there is", b"9999,2000\n", OK, refused(15, 0)),
    ("a refused bale that no line names", b"0,7\n2,9\n", OK + NO_ALPHA + OK, totals(8000)),
    ("a refused bale", b"0,7\n1,9\n", OK + NO_ALPHA + OK, refused(15, 1)),
    ("a refused bale, and a malformed line behind it", b"0,7\n1,9\nx\n", OK + NO_ALPHA + OK, refused(15, 1)),
    ("a malformed line, and a refused bale behind it", b"0,7\nx\n1,9\n", OK + NO_ALPHA + OK, refused(14, 1)),
    ("a malformed line of a refused bale", b"0,7\n1,2001\n", OK + NO_ALPHA + OK, refused(14, 1)),
    ("a bale again", b"0,1\n1,1\n1,1\n", OK + OK, refused(14, 2)),
    ("a bale again that is refused", b"0,1\n1,1\n0,1\n", OK + NO_ALPHA, refused(15, 1)),
    ("bales that fall", b"1,1\n0,1\n", OK + OK, refused(14, 1)),
    ("a good line behind an empty one", b"\n0,5\n", OK, refused(14, 0)),
    ("an empty line behind a good one", b"0,5\n\n", OK, refused(14, 1)),
    ("a last line without its line feed", b"0,5\n1,5", OK + OK, refused(14, 1)),
    ("an end word with a bit set", b"0,5\n", DIRTY_END + OK, refused(15, 0)),
    ("a bale behind an end word with a bit set", b"1,5\n", OK[:20] + words(0xC0000005) + OK, totals(2500)),
    ("an end word alone", b"0,5\n", words(0xC0000000), refused(15, 0)),
    ("a bale behind an end word alone", b"1,5\n", words(0xC0000000) + OK, totals(2500)),
    ("25 grades", b"0,5\n", CROWDED, refused(15, 0)),
    ("a bale that breaks off", b"0,5\n1,5\n", OK + BROKEN_OFF, refused(15, 1)),
    ("a bale that breaks off, not named", b"0,5\n", OK + BROKEN_OFF, totals(2500)),
    ("a byte behind the last bale", b"1,5\n", OK + b"\0", refused(15, 0)),
    ("a byte between two bales", b"0,5\n1,5\n", OK + b"\0" + OK, refused(15, 1)),
    ("some of many", b"1,4\n3,2\n4,8\n", OK + LEAST + NO_ALPHA + OK + FILM + DIRTY_END, totals(2399 + 1000 + 4692, 1836, 793, 4604, 1999)),
    ("10,000 lines", LONG, OK * 10000, totals(5002500000)),
    ("a line more", LONG + b"10000,1\n", OK * 10001, refused(14, 10000)),
    ("20,000 lines", LONG * 2, OK * 10000, refused(14, 10000)),
    ("10,000 lines, and a bale less", LONG, OK * 9999, refused(15, 9999)),
] + [(f"malformed, {line[:24]}", line, OK, refused(14, 0)) for line in MALFORMED]

"""Histories by hand, and the number of the line that is bad, or None where none is (docs/FORMATS.md, "Histories")."""


def line(mark, digits):
    """The line of a message or a reply that begins with these digits."""
    return mark + digits.ljust(80, b"0") + b"0000002800000000\n"


UNTAGGED = b"02000000000102000000000208004500"
TWO, THREE, FOUR = (b"f 1 00\n" * count for count in (2, 3, 4))
UNASKED = line(b"r ", b"0001240a010c0401")
# Port 257 is made, message by message, each with its reply.
SET_UP = b"".join(line(mark, digits) for mark, digits in (
    (b"o ", b"0001440a010c04010400800103"), (b"r ", b"0001240a010c0401"), (b"o ", b"0002440a010a05010401050601"),
    (b"r ", b"0002240a010a0501"), (b"o ", b"0003440a00820601010105010501050105010501050105010501010001"), (b"r ", b"0003240a00820601"),
    (b"o ", b"0004440a00ab0701020101"), (b"r ", b"0004240a00ab0701")))

ROWS = [
    # Frames that end, each once and behind the line that sent it.
    (b"g 0 1 00", 1), (b"d 0", 1), (b"f 1 00\nd 0\nd 0", 3), (b"f 1 00\nd 0\ng 0 1 00", 3), (b"f 1 00\ng 0 1 00\nd 0", 3),
    (b"f 1 00\ng 0 1 00\ng 0 1 00\n", 3), (b"f 1 00\nd 1\nf 1 00", 2), (b"f 1 00\nf 1 00\nd 1\nd 0\nf 1 00\nd 2\nd 1", 7),
    (b"f 1 00\nd 4294967295", 2), (b"f 1 00\nf 1 00\nd 1\ng 0 1 ", None),
    (b"l 0", 1), (b"f 1 00\nl 0", None), (b"f 1 00\nl 0\nl 0", 3), (b"f 1 00\nl 0\nd 0", 3), (b"f 1 00\nd 0\nl 0", 3), (b"f 1 00\nl 1", 2),
    (b"f 1 00\nf 1 00\nl 1\ng 0 any 00\nl 0", 5), (b"f 1 00..\nl 0\ng 0 1 00", 3), (b"s 1 00\nl 0", 2),
    # One of several frames left, each sent above and open, by numbers that ascend.
    (TWO + b"a 1 00 0 1", None), (TWO + b"a 1 00 0 1\r\n", None), (TWO + b"a any 00.. 0 1\n", None), (TWO + b"a 1  0 1", None),
    (TWO + b"a 1 .. 0 1", None), (TWO + b"a 00009 aB 0000000000 0000000001", None), (THREE + b"a 1 00 0 2", None), (b"a 1 00 0 1", 1),
    (b"f 1 00\na 1 00 0 1", 2), (TWO + b"a 1 00 1 0", 3), (TWO + b"a 1 00 1 1", 3), (TWO + b"a 1 00 0 00", 3), (TWO + b"a 1 00 0 1 1", 3),
    (TWO + b"a 1 00 0 2", 3), (TWO + b"a 1 00 0 1 4294967295", 3), (TWO + b"d 1\na 1 00 0 1", 4), (TWO + b"l 0\na 1 00 0 1", 4),
    (TWO + b"g 0 1 00\na 1 00 0 1", 4), (b"f 1 00..\nf 1 00\nl 0\na 1 00 0 1", 4), (TWO + b"e\na 1 00 0 1", 4),
    # One alone only where it is doubtful; and a doubtful frame has no other line.
    (b"f 1 00\na 1 00 0", 2), (TWO + b"a 1 00 1", 3), (TWO + b"a 1 00 0 1\na 1 00 0", None), (THREE + b"a 1 00 0 1\na 1 00 2", 5),
    (TWO + b"a 1 00 0 1\ng 0 1 00", 4), (TWO + b"a 1 00 0 1\nd 1", 4), (TWO + b"a 1 00 0 1\nl 0", 4), (THREE + b"a 1 00 0 1\nd 2", None),
    (THREE + b"a 1 00 0 1\na 1 00 0 2\nd 2", 6), (THREE + b"a 1 00 0 2\ng 1 1 00\nl 2", 6),
    # Frames are used up by as many lines that name only frames among them, or more; those of other lines aren't.
    (TWO + b"a 1 00 0 1\n" * 2, None), (TWO + b"a 1 00 0 1\n" * 3, 5), (TWO + b"a 1 00 0 1\n" * 2 + b"a 1 00 0", 5),
    (TWO + b"a 1 00 0 1\na 1 00 0\na 1 00 0", 5), (TWO + b"a 1 00 0 1\na 1 00 0\na 1 00 1", 5), (THREE + b"a 1 00 0 1 2\n" * 4, 7),
    (THREE + b"a 1 00 0 1\na 1 00 0\na 1 00 1 2", 6), (THREE + b"a 1 00 0 1\na 1 00 0 1\na 1 00 0 2", 6),
    (THREE + b"a 1 00 0 1\na 1 00 1 2\na 1 00 0\na 1 00 2\na 1 00 2", 8), (THREE + b"a 1 00 0 1\na 1 00 1 2\na 1 00 0\na 1 00 1 2", 7),
    (THREE + b"a 1 00 0 1 2\na 1 00 0 1\na 1 00 0 1\na 1 00 2", 7), (THREE + b"a 1 00 0 1\na 1 00 1 2\na 1 00 0 2\na 1 00 0 1", None),
    (THREE + b"a 1 00 0 1\na 1 00 1 2\na 1 00 0 2\na 1 00 0 1 2\na 1 00 2", 8),
    (FOUR + b"a 1 00 0 1 2 3\na 1 00 0 1\na 1 00 0 1\na 1 00 2\na 1 00 3", 9), (FOUR + b"a 1 00 0 1\na 1 00 0 1\na 1 00 2 3\nl 2", 8),
    (FOUR + b"a 1 00 0 1\na 1 00 0 1\na 1 00 2 3\na 1 00 2 3\na 1 00 3", 9), (FOUR + b"a 1 00 0 1\na 1 00 0 1\nl 2\nd 3", None),
    # Nothing but what says nothing stands behind the end.
    (b"e", None), (b"e\r\n", None), (b"e\n# e\n\n\r\n", None), (b"e\ne", 2), (b"e\nw", 2), (b"e\no 00", 2), (b"e\nf 1 00", 2),
    (b"f 1 00\ne\nd 0", 3), (b"e\ns 1 00", 2), (b"e\n\nr ", 3), (b"f 1 00\ne", None), (b"e\nx", 2),
    # Replies are waited for once they were seen.
    (b"w 1", 1), (b"w 0", None), (b"w", None), (b"r 00\nw 1\nw 2\nr 00", 3), (b"r 00\nr \nw 2\nw 1\nw 2", None), (b"o 00\nw 1", 2),
    (b"r 00\nw 4294967295", 2),
    # A number has few digits and is small.
    (b"f 65536 00", 1), (b"f 99999 00", 1), (b"f 000001 00", 1), (b"f  00", 1), (b"f +1 00", 1), (b"f 1a 00", 1), (b"d 12345678901", 1),
    (b"f 1 \nd 00000000000", 2), (b"f 1 \nd 4294967296", 2), (b"f 1 \nd 9999999999", 2), (b"f 1 \nd ", 2), (b"f 1 \nd -0", 2),
    (b"f 1 \ng 0 65536 00", 2), (b"f 1 \ng 0 000000 00", 2), (b"f 1 \ng 00000000000 1 00", 2), (b"w 00000000000", 1), (b"w 4294967296", 1),
    (b"f 1 \nl 00000000000", 2), (b"f 1 \nl 4294967296", 2), (b"f 1 \nl ", 2), (b"f 1 \nl any", 2), (b"s 65536 00", 1), (b"s 000001 00", 1),
    (b"s -1 00", 1), (b"s 00000 00", None), (b"s 65535 ", None),
    # A GEM port that wasn't seen, and the front of a frame.
    (b"f 1 \ng 0 any \ns any 00", None), (b"s Any 00", 1), (b"s ANY 00", 1), (b"s an 00", 1), (b"s anyx 00", 1), (b"s 1any 00", 1),
    (b"f any 00", 1), (b"f 1 \ng any 1 00", 2), (b"f 1 \ng 0 any", 2), (b"f 1 \ng 0 any00", 2), (b"f 1 \nd any", 2), (b"w any", 1),
    (b"f 1 00..\ng 0 1 00..\ns 1 00..", None), (b"f 1 ..\ng 0 any ..\ns any ..\r\n", None), (b"s 1 00.", 1), (b"s 1 00...", 1),
    (b"s 1 00 ..", 1), (b"s 1 00.. ", 1), (b"s 1 0..", 1), (b"s 1 00..00", 1), (b"s 1 ..00", 1), (b"s 1..", 1), (b"f 1 00 ..", 1),
    (b"f 1 0..", 1), (b"f 1..", 1), (b"o 00..", 1), (b"r 00..", 1), (b"o ..", 1), (b"f 1 \nd 0..", 2), (b"f 1 \nl 0..", 2), (b"e..", 1),
    (TWO + b"a 65536 00 0 1", 3), (TWO + b"a 000001 00 0 1", 3), (TWO + b"a Any 00 0 1", 3), (TWO + b"a 1 0 0 1", 3), (TWO + b"a 1 0.. 0 1", 3),
    (TWO + b"a 1 00. 0 1", 3), (TWO + b"a 1 00... 0 1", 3), (TWO + b"a 1 00 .. 0 1", 3), (TWO + b"a 1 00 00000000000 1", 3),
    (TWO + b"a 1 00 0 4294967296", 3), (TWO + b"a 1 00 0 9999999999", 3), (TWO + b"a 1 00 any", 3), (TWO + b"a 1 00 -0 1", 3),
    # One space separates, and nothing follows.
    (TWO + b"a", 3), (TWO + b"a ", 3), (TWO + b"a 1", 3), (TWO + b"a 1 00", 3), (TWO + b"a 1 00 ", 3), (TWO + b"a 1 00 0 1 ", 3),
    (TWO + b"a 1 00 0  1", 3), (TWO + b"a 1 00  0 1", 3), (TWO + b"a  1 00 0 1", 3), (TWO + b"a 1 00 0\t1", 3), (TWO + b"a 1 00 0,1", 3),
    (TWO + b"a 1 00 0 1 # one", 3), (TWO + b"a 1 00 0 1..", 3), (TWO + b"A 1 00 0 1", 3), (TWO + b"a1 00 0 1", 3), (TWO + b"a 1 0 1", 3),
    (b"o", 1), (b"r", 1), (b"f", 1), (b"g", 1), (b"d", 1), (b"x", 1), (b" w", 1), (b"w ", 1), (b"w 0 ", 1), (b"w  0", 1), (b"ww", 1),
    (b"O 00", 1), (b"o00", 1), (b"o  00", 1), (b"o 00 ", 1), (b"o 00 00", 1), (b"o\t00", 1), (b"o 00\r\r\n", 1), (b"r 0", 1), (b"r 0g", 1),
    (b"f 1", 1), (b"f 1  00", 1), (b"f 1 00 ", 1), (b"f 1 \nd 0 ", 2), (b"f 1 \ng 0", 2), (b"f 1 \ng 0 1", 2), (b"f 1 \ng 0  1 00", 2),
    (b"f 1 \ng 0 1 00 ", 2), (b"s", 1), (b"s ", 1), (b"s 1", 1), (b"s any", 1), (b"s  1 00", 1), (b"s 1  00", 1), (b"s 1 00 ", 1),
    (b"s 0 1 00", 1), (b"l", 1), (b"f 1 \nl 0 ", 2), (b"f 1 \nl  0", 2), (b"e ", 1), (b"E", 1), (b"ee", 1), (b"e 0", 1), (b" e", 1),
    (b"- \n", 1), (b"m 3", 1), (b"\n#\n\no 0\nx", 4),
    # A line ends in a line feed, with or without a carriage return, or where the text does.
    (b"", None), (b"\n", None), (b"\r", None), (b"\r\n\n", None), (b"w", None), (b"w\r", None), (b"w 0\r\n# \r\r\n", None),
    (b"o 12\r\nr \r\n", None), (b"f 1 00\r\nd 0", None),
    # A line has at most 20,000 bytes without its line feed.
    (b"o " + b"0" * 19998 + b"\n", None), (b"o " + b"0" * 19998 + b"\r\n", 1), (b"o " + b"0" * 19997 + b"\r\n", 1),
    (b"o " + b"0" * 19996 + b"\r\n", None), (b"o " + b"0" * 20000, 1), (b"#" + b"0" * 19999, None), (b"#" + b"0" * 20000, 1),
    (b"\n#" + b"0" * 19999 + b"\r", 2), (b"f 65535 " + b"0" * 19992 + b"\nd 0\n", None), (b"f 65535 " + b"0" * 19994 + b"\nd 0\n", 1),
    (b"s any " + b"0" * 19992 + b"..\n", None), (b"s any " + b"0" * 19992 + b"..\r\n", 1), (b"s any " + b"0" * 19994 + b"..\n", 1),
    (TWO + b"a any " + b"0" * 19990 + b" 0 1\n", None), (TWO + b"a any " + b"0" * 19990 + b" 0 1\r\n", 3),
    (TWO + b"a any " + b"0" * 19992 + b" 0 1\n", 3), (b"f 1 \n" * 3000 + b"a 1 00 " + b" ".join(b"%d" % n for n in range(3000)) + b"\nd 2999", 3002),
    # A line of each kind, some with digits of both cases and numbers with zeros in front.
    (b"# a history\no 0001440a010c0401\nr 0001240A010C0401ff\nf 257 AD0800\nf 00000 \nw\nw 1\nw 0000000000\n\ng 0000000001 00009 \n"
     b"g 0 65535 aDfE\nf 65535 12\nd 2\no \nr \nf 7 \nl 0000000003\nf 1 aB..\ng 4 any Cd..\ns 00009 \ns any 0F..\n"
     b"f 7 cD\nf 7 \na 00009 eF.. 0000000005 6\na any  6\ne\n# the end\n", None),
    # The first bad line counts.
    (b"o \nw\nx 00\nw\n", 3),
    # A bad line is said before all else, also where a line above it deviates, and however the history is judged.
    (UNASKED + b"w 2\nw 9", 2), (UNASKED + SET_UP + b"x", 10),
    (b"f 257 %s\ng 0 1 %s\ng 0 1 %s" % (UNTAGGED, UNTAGGED, UNTAGGED), 3), (b"f 1 00\nd 1", 2),
]

# The end of a reply behind 36 bytes that are right, and whether it is: one has 48 bytes with any trailer, or 44.
REPLY_ENDS = [
    ("000000000000002800000000", True), ("00000000ffFFffffFFffffff", True), ("00000001000000280000000000", False),
    ("000000010000002800000000", False), ("0000000000000028", True), ("0000000012345678", True), ("00000000000028", False),
    ("000000000000002800", False), ("00000000000000280000000000", False),
]
CREATE = "o 0001440a010c04010400800103" + "00" * 27 + "0000002800000000\n"
REPLY = "r 0001240A010c0401" + "00" * 28

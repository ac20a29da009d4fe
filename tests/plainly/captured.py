"""Frames that are captured or forwarded, and what is written of them (docs/FORMATS.md, "Frames forwarded" and "Captures to a history")."""
from capture_files import ADDRESSES


def bytes_of(short):
    """Bytes in short: AD are addresses, and 0*N are N bytes of zeros."""
    return b"".join(ADDRESSES if part == "AD" else bytes(int(part[2:])) if part.startswith("0*") else bytes.fromhex(part)
                    for part in short.split("+"))


# Which word of a line is bytes.
BYTES_AT = {"o": 1, "r": 1, "f": 2, "g": 3, "s": 2, "a": 2}


def line_of(line):
    """A line of a history, in which bytes are in short. Two dots may stand behind them."""
    words = line.split(" ")
    place = BYTES_AT.get(line[0]) if line[1:2] == " " else None
    if place is not None:
        short, dots, _ = words[place].partition("..")
        words[place] = bytes_of(short).hex() + dots
    return " ".join(words)


UNWAITED = "without --wait it isn't judged whether what was set by a reply is in force for the frames behind it"
UNLOST = "without --lost it isn't judged whether a frame left that wasn't seen to leave"
OTHER = "frames of the management channel hold no OMCI message"
UNREAD = "frames are unread, since too little of them was stored"
EARLY = "frames left that may have been sent unseen"
BEGUN_LATE = "was the sender on before the captures of --into began? --late, with --lost"
LEFT_OUT = "frames are left out, since a history can't hold them"
DOUBT = "frames are matched in doubt"
STRAYS = "frames are strays, which no open frame can be"
ENDED_EARLY = "did the sender go on behind the ends of the captures of --into? --early"
OFFLOAD = "no frame has a tag, though frames were sent with one: does its card take tags off (VLAN offload)?"
OPEN = "frames are still open"


def place_line(name, words, records):
    """What is said of records of a file, of which ten are named at most."""
    named = ", ".join(str(record) for record in records[:10]) + (", .." if len(records) > 10 else "")
    return f"{name}: {len(records)} {words}: record{'' if len(records) == 1 else 's'} {named}"


def unjudged(options):
    """What is said of options that are missing."""
    return [said for option, said in (("--wait", UNWAITED), ("--lost", UNLOST)) if option not in options]


UNTAGGED = bytes_of("AD+0800+4500")
TAGGED = bytes_of("AD+81000064+0800+4500")
PRIORITY_5 = bytes_of("AD+8100a064+0800+4500")
TWO_TAGS = bytes_of("AD+88a80064+810000c8+0800+45")
RUNT = bytes_of("AD+08")
CUT_TAG = bytes_of("AD+8100")

# Port 257: a GEM port of port-ID 1024, an interworking point, a mapper, and a table that changes nothing; then an entry that pushes a tag of VID
# 100 on frames without one.
SET_UP = ["0001440a010c04010400800103", "0002440a010a05010401050601", "0003440a00820601010105010501050105010501050105010501010001",
          "0004440a00ab0701020101"]
PUSHING = [*SET_UP, "0005480a00ab07010400f8000000f8000000000f000000000324"]
# Two GEM ports: 1024 for priority 0, and 7 for priority 5. The port has no table.
TWO_GEM_PORTS = ["0001440a010c04010400800103", "0002440a010c04020007800103", "0003440a010a05010401050601", "0004440a010a05020402050601",
                 "0005440a00820601010105010501050105010501050205010501010001"]
DISCARDING = [*SET_UP, "0005480a00ab07010400e0000000e0000000c00f0000000f0000"]
WITHOUT_ENTRY = [*DISCARDING, "0005480a00ab07010400e0000000e0000000ffffffffffffffff"]
NULL_POINTER = [*WITHOUT_ENTRY, "0006480a008206014000ffff"]
TO_NO_POINT = [*NULL_POINTER, "0006480a0082060140000599"]
TO_NO_GEM_PORT = [*TO_NO_POINT, "0006480a0082060140000501", "0006480a010a050180000499"]
NOT_UPSTREAM = [*TO_NO_GEM_PORT, "0006480a010a050180000401", "0006480a010c0401200002"]


def whole(data, time=0):
    return (time // 1000000000, time % 1000000000, len(data), data)


# A section header of version 1.0 with a section of unknown length, and the interface `gem 1024`.
FRONT = ("0a0d0d0a 1c000000 4d3c2b1a 0100 0000 ffffffffffffffff 1c000000"
         "01000000 2c000000 0100 0000 00000000 0200 0800 67656d2031303234 0900 0100 09000000 00000000 2c000000").replace(" ", "")
# The first frame, which leaves with a tag, at 1,000,000,007 nanoseconds, 0x3b9aca07. Behind it stand the comment `frame 1`, padded with one byte, and
# the end of the options.
FIRST = ("06000000 44000000 00000000 00000000 07ca9a3b 14000000 14000000 020000000001020000000002 81000064 0800 4500"
         "0100 0700 6672616d652031 00 00000000 44000000").replace(" ", "")
# The fourth frame, which leaves as it came, at 4,705,032,706 nanoseconds, 0x1_1871_1a02. Its 23 bytes are padded with one.
FOURTH = ("06000000 48000000 00000000 01000000 021a7118 17000000 17000000 020000000001020000000002 88a80064 810000c8 0800 45 00"
          "0100 0700 6672616d652034 00 00000000 48000000").replace(" ", "")
# The two that are dropped, behind a section header and the interface `port 257`: 13 bytes at 1,000,000,008 nanoseconds, and 14 of 60 bytes at
# 2,000,000,000, 0x77359400. The comments are `frame 2: drop 1` and `frame 3: drop 2`.
DROPPED = ("0a0d0d0a 1c000000 4d3c2b1a 0100 0000 ffffffffffffffff 1c000000"
           "01000000 2c000000 0100 0000 00000000 0200 0800 706f727420323537 0900 0100 09000000 00000000 2c000000"
           "06000000 48000000 00000000 00000000 08ca9a3b 0d000000 0d000000 020000000001020000000002 08 000000"
           "0100 0f00 6672616d6520323a2064726f702031 00 00000000 48000000"
           "06000000 48000000 00000000 00000000 00943577 0e000000 3c000000 020000000001020000000002 8100 0000"
           "0100 0f00 6672616d6520333a2064726f702032 00 00000000 48000000").replace(" ", "")
FOUR = [(1, 7, 16, UNTAGGED), (1, 8, 13, RUNT), (2, 0, 60, CUT_TAG), (4, 705032706, 60, TWO_TAGS)]
TAG_100 = "tag=8100:0:0:100"
BOTH_TAGS = "tag=88a8:0:0:100 tag=8100:0:0:200"
IN_A_RECORD = "is cut short or broken, expected a whole one"
MANY = [whole(RUNT), whole(CUT_TAG), *[whole(RUNT)] * 4, whole(UNTAGGED), *[whole(RUNT)] * 7]
ONE, TWO = "the frame ends within its addresses or type", "the frame ends within a tag or before the type behind it"
PAIR = [whole(UNTAGGED), whole(TWO_TAGS, 1)]

# What it shows, the messages of the trace, the port, the records of the capture, and what is wanted of what `forward` writes.
FORWARDED = [
    ("packets and lines stand byte by byte", PUSHING, 257, FOUR,
     {"bytes": FRONT + FIRST + FOURTH, "dropped": DROPPED,
      "lines": f"1 g 1024 entry 0 {TAG_100}\n2 d 1\n3 d 2\n4 g 1024 entry 3 {BOTH_TAGS}\n",
      "said": "2 frames are cut by the capture's snap length\n"}),
    ("each GEM port has an interface", TWO_GEM_PORTS, 257,
     [whole(PRIORITY_5, 1), whole(TAGGED, 2), whole(UNTAGGED, 3), whole(PRIORITY_5, 9999999999)],
     {"lines": f"1 g 7 tag=8100:5:0:100\n2 g 1024 {TAG_100}\n3 g 1024 untagged\n4 g 7 tag=8100:5:0:100\n",
      "packets": [("gem 7", 1, 20, PRIORITY_5, "frame 1"), ("gem 1024", 2, 20, TAGGED, "frame 2"), ("gem 1024", 3, 16, UNTAGGED, "frame 3"),
                  ("gem 7", 9999999999, 20, PRIORITY_5, "frame 4")], "drops": []}),
    ("a torn record comes behind the frames before it", PUSHING, 257, FOUR,
     {"torn": 1, "status": 2, "bytes": FRONT + FIRST, "dropped": DROPPED, "lines": f"1 g 1024 entry 0 {TAG_100}\n2 d 1\n3 d 2\n",
      "said": f"capture fault 4 at 3\ncapture: record or block 3, from 0, {IN_A_RECORD}\ncapture: it came after 3 frames\n"}),
    ("an entry for each", SET_UP, 257, PAIR, {"lines": f"1 g 1024 entry 0 untagged\n2 g 1024 entry 2 {BOTH_TAGS}\n"}),
    ("a port without a table or a mapper", SET_UP, 258, PAIR,
     {"lines": "1 d 5\n2 d 5\n", "packets": [],
      "drops": [("port 258", 0, 16, UNTAGGED, "frame 1: drop 5"), ("port 258", 1, 23, TWO_TAGS, "frame 2: drop 5")]}),
    ("frames with two tags are discarded", DISCARDING, 257, PAIR, {"lines": "1 g 1024 entry 0 untagged\n2 d 4 entry 2\n"}),
    ("they have no entry", WITHOUT_ENTRY, 257, PAIR, {"lines": "1 g 1024 entry 0 untagged\n2 d 3\n"}),
    ("priority 0 has no pointer", NULL_POINTER, 257, PAIR, {"lines": "1 d 6 entry 0\n2 d 3\n"}),
    ("it has one to nothing", TO_NO_POINT, 257, PAIR, {"lines": "1 d 7 entry 0\n2 d 3\n"}),
    ("the interworking point has one to nothing", TO_NO_GEM_PORT, 257, PAIR, {"lines": "1 d 8 entry 0\n2 d 3\n"}),
    ("the GEM port carries nothing upstream", NOT_UPSTREAM, 257, PAIR, {"lines": "1 d 9 entry 0\n2 d 3\n"}),
    ("totals are those of a run", PUSHING, 257, [whole(UNTAGGED), whole(UNTAGGED), whole(CUT_TAG)],
     {"totals": f"frames 3\nbytes 40\ndrop 2 1 {TWO}: 3\ngem 1024 2\n",
      "json": '{"format":1,"frames":3,"forwarded":2,"bytes":40,"cut":0,"drops":[\n'
              f'{{"reason":2,"words":"{TWO}","frames":1,"first":[3]}}\n],\n"gems":[\n{{"gem":1024,"frames":2}}\n]}}\n'}),
    ("the first ten are named", PUSHING, 257, MANY,
     {"totals": f"frames 14\nbytes 20\ndrop 1 12 {ONE}: 1, 3, 4, 5, 6, 8, 9, 10, 11, 12, ..\ndrop 2 1 {TWO}: 2\ngem 1024 1\n"}),
    ("ten are all", PUSHING, 257, MANY[:12],
     {"totals": f"frames 12\nbytes 20\ndrop 1 10 {ONE}: 1, 3, 4, 5, 6, 8, 9, 10, 11, 12\ndrop 2 1 {TWO}: 2\ngem 1024 1\n"}),
    ("nothing is counted", PUSHING, 257, [], {"totals": "frames 0\nbytes 0\n", "packets": [], "drops": []}),
]

OMCI, INTO, OUT_OF, ANY = "--omci", "--into 257", "--out-of 1024", "--out-of any"
LAST = 2**64 - 1
AT_ONCE, A_MILLISECOND = ["--wait", "0", "--lost", "0"], ["--wait", "1", "--lost", "1"]
BEGUN = [*A_MILLISECOND, "--late"]
GONE_ON = [*A_MILLISECOND, "--early"]
# The first frame that leaves with these bytes was sent before the capture of what is sent began.
ON_THEIR_WAY = [(5, INTO, "AD+0800"), (900000, INTO, "AD+0800"), (1000000, INTO, "AD+0800"),
                (0, OUT_OF, "AD+0809"), (6, OUT_OF, "AD+0800"), (950000, OUT_OF, "AD+0800"), (1100000, OUT_OF, "AD+0800")]

# Two frames are sent, and behind the end of that capture one that looks as the second does.
SENT_ON = [(5, INTO, "AD+0801"), (2000000, INTO, "AD+0800"), (10, OUT_OF, "AD+0801"), (2000100, OUT_OF, "AD+0800"), (2000200, OUT_OF, "AD+0800")]

# What it shows, the options, the frames (their times in nanoseconds, where they were captured, their bytes in short, and how many bytes they had, if
# that is more), the lines of the history, and what is said beside what isn't judged. A file is named as what was captured there.
RECORDED = [
    ("no frame", AT_ONCE, [], [], []),
    ("all at one time", AT_ONCE,
     [(5, OUT_OF, "AD+0800+01"), (5, INTO, "AD+0800+01"), (5, INTO, "AD+0800+02"), (5, OMCI, "AD+88b5+0001240a010c0401+0*40"),
      (5, OMCI, "AD+88b5+0001440a010c0401+0*40")],
     ["o 0001440a010c0401+0*40", "f 257 AD+0800+01", "f 257 AD+0800+02", "r 0001240a010c0401+0*40", "w 1", "g 0 1024 AD+0800+01", "l 1"], []),
    ("waits behind later events", A_MILLISECOND,
     [(1000000, OMCI, "AD+88b5+00022f+0*45"), (1, OMCI, "AD+88b5+00012f+0*45"), (1000001, INTO, "AD+0800"), (1000002, OUT_OF, "AD+0800")],
     ["r 00012f+0*45", "r 00022f+0*45", "f 257 AD+0800", "w 1", "g 0 1024 AD+0800", "w 2"], []),
    ("at the end of all times", A_MILLISECOND,
     [(LAST, OUT_OF, "AD+0800"), (LAST, INTO, "AD+0800"), (LAST - 1, OMCI, "AD+88b5+00012f+0*45"), (LAST, INTO, "AD+0801")],
     ["r 00012f+0*45", "f 257 AD+0800", "f 257 AD+0801", "w 1", "g 0 1024 AD+0800", "l 1"], []),
    ("tags come and go", [],
     [(1, INTO, "AD+81000064+0800+01"), (2, INTO, "AD+88a80001+81000002+81000003+0800+02"), (3, INTO, "AD+0800+03"),
      (4, OUT_OF, "AD+88a8e005+81000007+0800+03"), (5, "--out-of 65535", "AD+0800+02"), (6, OUT_OF, "AD+0800+01")],
     ["f 257 AD+81000064+0800+01", "f 257 AD+88a80001+81000002+81000003+0800+02", "f 257 AD+0800+03",
      "g 2 1024 AD+88a8e005+81000007+0800+03", "g 1 65535 AD+0800+02", "g 0 1024 AD+0800+01"], [f"out-of65535: {OFFLOAD}"]),
    ("a card takes tags off", [],
     [(1, INTO, "AD+81000064+0800+01"), (2, INTO, "AD+0800+02"), (3, OUT_OF, "AD+0800+02"), (4, OUT_OF, "AD+0800+01"), (5, OUT_OF, "AD+0800+03")],
     ["f 257 AD+81000064+0800+01", "f 257 AD+0800+02", "g 1 1024 AD+0800+02", "g 0 1024 AD+0800+01", "s 1024 AD+0800+03"],
     [f"out-of1024: 1 {STRAYS}: record 3", ENDED_EARLY, f"out-of1024: {OFFLOAD}"]),
    ("of types that are set, and of frames in doubt", ["--tpid", "9100"],
     [(1, INTO, "AD+91000001+0800+01"), (2, INTO, "AD+91000002+0800+01"), (3, OUT_OF, "AD+0800+01"), (4, "--out-of 7", "AD+0800+01")],
     ["f 257 AD+91000001+0800+01", "f 257 AD+91000002+0800+01", "a 1024 AD+0800+01 0 1", "a 7 AD+0800+01 0 1"],
     [f"out-of1024: 1 {DOUBT}: record 1", f"out-of7: 1 {DOUBT}: record 1", f"out-of1024: {OFFLOAD}", f"out-of7: {OFFLOAD}"]),
    ("it doesn't where a frame has one, though it is a stray, or early", [],
     [(1, INTO, "AD+81000064+0800+01"), (2, OUT_OF, "AD+0800+01"), (3, OUT_OF, "AD+81000064+0800+02"), (1, "--out-of 7", "AD+91000064+0800+01"),
      (4, INTO, "AD+88a80064+0800+03"), (5, "--out-of 7", "AD+0800+03"), (1, "--out-of 8", "AD+81000064+0800+05"),
      (6, INTO, "AD+81000064+0800+04"), (7, "--out-of 8", "AD+0800+04")],
     ["f 257 AD+81000064+0800+01", "g 0 1024 AD+0800+01", "s 1024 AD+81000064+0800+02", "f 257 AD+88a80064+0800+03", "g 1 7 AD+0800+03",
      "f 257 AD+81000064+0800+04", "g 2 8 AD+0800+04"],
     [f"out-of7: 1 {EARLY}: record 1", f"out-of8: 1 {EARLY}: record 1", BEGUN_LATE, f"out-of1024: 1 {STRAYS}: record 2", f"out-of7: {OFFLOAD}"]),
    ("nor where what left may have been sent without one", [],
     [(1, INTO, "AD+81000064+0800+01"), (2, INTO, "AD+0800+01"), (3, INTO, "AD+0800+02"), (4, OUT_OF, "AD+0800+01"), (5, OUT_OF, "AD+0800+02")],
     ["f 257 AD+81000064+0800+01", "f 257 AD+0800+01", "f 257 AD+0800+02", "a 1024 AD+0800+01 0 1", "g 2 1024 AD+0800+02"],
     [f"out-of1024: 1 {DOUBT}: record 1", f"into257: 2 {OPEN}: records 1, 2"]),
    ("a type that is set", ["--tpid", "9200", "--tpid", "9100"],
     [(1, INTO, "AD+91000001+92000002+81000003+0800+01"), (2, OUT_OF, "AD+81000005+0800+01")],
     ["f 257 AD+91000001+92000002+81000003+0800+01", "g 0 1024 AD+81000005+0800+01"], []),
    ("and one that isn't", [], [(1, INTO, "AD+91000001+0800+01"), (2, OUT_OF, "AD+0800+01")],
     ["f 257 AD+91000001+0800+01", "s 1024 AD+0800+01"],
     [f"out-of1024: 1 {STRAYS}: record 1", ENDED_EARLY, f"into257: 1 {OPEN}: record 1"]),
    ("another address, another rest, a tag that is cut, and bytes that are no frame", [],
     [(1, INTO, "AD+0800+01"), (1, "--into 0", "0200"), (2, OUT_OF, "020000000001020000000003+0800+01"), (3, OUT_OF, "AD+0800+0100"),
      (4, OUT_OF, "AD+8100+0800"), (5, OUT_OF, "AD+810001"), (7, "--out-of 0", "0200")],
     ["f 257 AD+0800+01", "f 0 0200", "s 1024 020000000001020000000003+0800+01", "s 1024 AD+0800+0100", "s 1024 AD+8100+0800", "s 1024 AD+810001",
      "g 1 0 0200"],
     [f"out-of1024: 4 {STRAYS}: records 1, 2, 3, 4", ENDED_EARLY, f"into257: 1 {OPEN}: record 1"]),
    ("a frame that leaves twice", [], [(1, INTO, "AD+0800+4500"), (2, OUT_OF, "AD+0800+4500"), (3, OUT_OF, "AD+0800+4500")],
     ["f 257 AD+0800+4500", "g 0 1024 AD+0800+4500", "s 1024 AD+0800+4500"], [f"out-of1024: 1 {STRAYS}: record 2", ENDED_EARLY]),
    ("one of two leaves", [], [(1, INTO, "AD+0800+4500"), (2, "--into 258", "AD+0800+4500"), (3, OUT_OF, "AD+0800+4500")],
     ["f 257 AD+0800+4500", "f 258 AD+0800+4500", "a 1024 AD+0800+4500 0 1"],
     [f"out-of1024: 1 {DOUBT}: record 1", f"into257: 1 {OPEN}: record 1", f"into258: 1 {OPEN}: record 1"]),
    ("two of one core leave, and one too many", [],
     [(1, INTO, "AD+0800"), (2, INTO, "AD+81000001+0800"), (3, "--out-of 1", "AD+0800"), (4, "--out-of 2", "AD+0800"),
      (5, "--out-of 3", "AD+0800")],
     ["f 257 AD+0800", "f 257 AD+81000001+0800", "a 1 AD+0800 0 1", "a 2 AD+0800 0 1", "s 3 AD+0800"],
     [f"out-of1: 1 {DOUBT}: record 1", f"out-of2: 1 {DOUBT}: record 1", f"out-of3: 1 {STRAYS}: record 1", ENDED_EARLY]),
    ("a doubtful frame may be the only one that is left", A_MILLISECOND,
     [(0, INTO, "AD+0800"), (500000, INTO, "AD+0800"), (600000, OUT_OF, "AD+0800"), (1100000, OUT_OF, "AD+0800")],
     ["f 257 AD+0800", "f 257 AD+0800", "a 1024 AD+0800 0 1", "a 1024 AD+0800 1"], [f"out-of1024: 2 {DOUBT}: records 1, 2"]),
    ("in the last moment", A_MILLISECOND, [(7, INTO, "AD+0800"), (1000007, OUT_OF, "AD+0800")], ["f 257 AD+0800", "g 0 1024 AD+0800"], []),
    ("a late frame is a loss and a stray", A_MILLISECOND,
     [(5, INTO, "AD+0800"), (6, OUT_OF, "AD+0800"), (7, INTO, "AD+0801"), (1000008, OUT_OF, "AD+0801")],
     ["f 257 AD+0800", "g 0 1024 AD+0800", "f 257 AD+0801", "l 1", "s 1024 AD+0801"], [f"out-of1024: 1 {STRAYS}: record 2", ENDED_EARLY]),
    ("a frame isn't lost where a capture begins later", A_MILLISECOND, [(7, INTO, "AD+0800"), (1000008, OUT_OF, "AD+0800")],
     ["f 257 AD+0800", "s 1024 AD+0800"], [f"out-of1024: 1 {STRAYS}: record 1", ENDED_EARLY, f"into257: 1 {OPEN}: record 1"]),
    ("nor where one ends before", A_MILLISECOND,
     [(5, INTO, "AD+0800"), (6, OUT_OF, "AD+0800"), (7, INTO, "AD+0801"), (1000006, OUT_OF, "AD+81000001+0800"), (0, "--out-of 7", "AD+0809"),
      (2000000, "--out-of 7", "AD+0809")],
     ["f 257 AD+0800", "g 0 1024 AD+0800", "f 257 AD+0801", "s 1024 AD+81000001+0800", "s 7 AD+0809"],
     [f"out-of7: 1 {EARLY}: record 1", BEGUN_LATE, f"out-of1024: 1 {STRAYS}: record 2", f"out-of7: 1 {STRAYS}: record 2", ENDED_EARLY, f"into257: 1 {OPEN}: record 2"]),
    ("the first is lost, and two are in doubt until they would be", A_MILLISECOND,
     [(0, INTO, "AD+0800"), (500000, INTO, "AD+0800"), (600000, INTO, "AD+0800"), (0, OUT_OF, "AD+0809"), (1200000, OUT_OF, "AD+0800"),
      (1700000, OUT_OF, "AD+0800")],
     ["f 257 AD+0800", "f 257 AD+0800", "f 257 AD+0800", "l 0", "a 1024 AD+0800 1 2", "s 1024 AD+0800"],
     [f"out-of1024: 1 {EARLY}: record 1", BEGUN_LATE, f"out-of1024: 1 {DOUBT}: record 2", f"out-of1024: 1 {STRAYS}: record 3", ENDED_EARLY]),
    ("what leaves soon behind the first frame that is sent is no stray", A_MILLISECOND,
     [(7, INTO, "AD+0800"), (8, OUT_OF, "AD+0800"), (1000007, OUT_OF, "AD+0801"), (1000008, OUT_OF, "AD+0801")],
     ["f 257 AD+0800", "g 0 1024 AD+0800", "s 1024 AD+0801"], [f"out-of1024: 1 {EARLY}: record 2", BEGUN_LATE, f"out-of1024: 1 {STRAYS}: record 3", ENDED_EARLY]),
    ("a frame that may have left unread isn't lost", A_MILLISECOND,
     [(0, INTO, "AD+0800"), (0, OUT_OF, "AD+0809"), (500000, OUT_OF, "AD+0800+0*8", 60), (2000000, OUT_OF, "AD+0808")],
     ["f 257 AD+0800", "s 1024 AD+0808"],
     [f"out-of1024: 1 {UNREAD}: record 2", f"out-of1024: 1 {EARLY}: record 1", BEGUN_LATE, "1 frames are cut by the capture's snap length",
      f"out-of1024: 1 {STRAYS}: record 3", ENDED_EARLY, f"into257: 1 {OPEN}: record 1"]),
    ("what may have been sent unread is no stray", A_MILLISECOND,
     [(0, INTO, "AD+0801"), (1, OUT_OF, "AD+0801"), (2000000, INTO, "AD+0800+0*8", 60), (3000000, OUT_OF, "AD+0800"), (3000001, OUT_OF, "AD+0800")],
     ["f 257 AD+0801", "g 0 1024 AD+0801", "s 1024 AD+0800"],
     [f"into257: 1 {UNREAD}: record 2", f"out-of1024: 1 {EARLY}: record 2", "1 frames are cut by the capture's snap length",
      f"out-of1024: 1 {STRAYS}: record 3", ENDED_EARLY]),
    ("a frame on its way as captures began is taken for one sent since", A_MILLISECOND, ON_THEIR_WAY,
     ["f 257 AD+0800", "g 0 1024 AD+0800", "f 257 AD+0800", "g 1 1024 AD+0800", "f 257 AD+0800", "g 2 1024 AD+0800"],
     [f"out-of1024: 1 {EARLY}: record 1", BEGUN_LATE]),
    ("and isn't where that is said", BEGUN, ON_THEIR_WAY, ["f 257 AD+0800", "f 257 AD+0800", "f 257 AD+0800", "a 1024 AD+0800 1 2"],
     [f"out-of1024: 3 {EARLY}: records 1-3", f"out-of1024: 1 {DOUBT}: record 4", f"into257: 3 {OPEN}: records 1, 2, 3"]),
    ("what left while it may have been on its way isn't lost, and frames behind it are", BEGUN,
     [(5, INTO, "AD+0800"), (6, OUT_OF, "AD+0800"), (2000000, INTO, "AD+0801"), (2000001, OUT_OF, "AD+0801"), (2000002, INTO, "AD+0802"),
      (3500000, INTO, "AD+0803"), (4000000, OUT_OF, "AD+0803")],
     ["f 257 AD+0800", "f 257 AD+0801", "g 1 1024 AD+0801", "f 257 AD+0802", "l 2", "f 257 AD+0803", "g 3 1024 AD+0803"],
     [f"out-of1024: 1 {EARLY}: record 1", f"into257: 1 {OPEN}: record 1"]),
    ("the capture that begins last decides", BEGUN,
     [(5, INTO, "AD+0801"), (2400000, INTO, "AD+0800"), (2000000, "--into 258", "AD+0803"), (2500000, OUT_OF, "AD+0800"), (3000000, OUT_OF, "AD+0804"),
      (3000001, OUT_OF, "AD+0804")],
     ["f 257 AD+0801", "f 258 AD+0803", "f 257 AD+0800", "s 1024 AD+0804"],
     [f"out-of1024: 2 {EARLY}: records 1, 2", f"out-of1024: 1 {STRAYS}: record 3", ENDED_EARLY, f"into257: 2 {OPEN}: records 1, 2", f"into258: 1 {OPEN}: record 1"]),
    ("a frame that was sent behind the end of its capture is a stray, or taken for one that was sent before", A_MILLISECOND, SENT_ON,
     ["f 257 AD+0801", "g 0 1024 AD+0801", "f 257 AD+0800", "g 1 1024 AD+0800", "s 1024 AD+0800"],
     [f"out-of1024: 1 {STRAYS}: record 3", ENDED_EARLY]),
    ("and isn't where that is said", GONE_ON, SENT_ON, ["f 257 AD+0801", "g 0 1024 AD+0801", "f 257 AD+0800"],
     [f"out-of1024: 2 {EARLY}: records 2, 3", f"into257: 1 {OPEN}: record 2"]),
    ("the capture that ends first decides", GONE_ON,
     [(5, INTO, "AD+0801"), (5, "--into 258", "AD+0803"), (5, OUT_OF, "AD+0801"), (1000006, "--into 258", "AD+0804"), (1000007, INTO, "AD+0805"),
      (1000007, OUT_OF, "AD+0804"), (1000006, OUT_OF, "AD+0806"), (3000000, OUT_OF, "AD+0809")],
     ["f 257 AD+0801", "f 258 AD+0803", "g 0 1024 AD+0801", "l 1", "f 258 AD+0804", "f 257 AD+0805"],
     [f"out-of1024: 3 {EARLY}: records 2-4", f"into257: 1 {OPEN}: record 2", f"into258: 1 {OPEN}: record 2"]),
    ("without a capture in front all is passed over", BEGUN, [(5, OUT_OF, "AD+0800"), (5, OMCI, "AD+88b5+0001440a+0*44")], ["o 0001440a+0*44"],
     [f"out-of1024: 1 {EARLY}: record 1"]),
    ("clocks that may differ as captures began", A_MILLISECOND, [(100000, OUT_OF, "AD+0801"), (200000, INTO, "AD+0801")], ["f 257 AD+0801"],
     [f"out-of1024: 1 {EARLY}: record 1", BEGUN_LATE,
      "out-of1024: 1 frames left up to 0.1 ms before they were sent: are the clocks one? --skew", f"into257: 1 {OPEN}: record 1"]),
    ("and don't, where frames were on their way", BEGUN, [(100000, OUT_OF, "AD+0801"), (200000, INTO, "AD+0801")], ["f 257 AD+0801"],
     [f"out-of1024: 1 {EARLY}: record 1", f"into257: 1 {OPEN}: record 1"]),
    ("no GEM port is seen", [],
     [(1, INTO, "AD+0800+01"), (2, INTO, "AD+0800+02"), (3, INTO, "AD+0800+02"), (4, ANY, "AD+0800+01"), (5, ANY, "AD+0800+02"), (6, ANY, "AD+0800+03")],
     ["f 257 AD+0800+01", "f 257 AD+0800+02", "f 257 AD+0800+02", "g 0 any AD+0800+01", "a any AD+0800+02 1 2", "s any AD+0800+03"],
     [f"out-ofany: 1 {DOUBT}: record 2", f"out-ofany: 1 {STRAYS}: record 3", ENDED_EARLY, f"into257: 2 {OPEN}: records 2, 3"]),
    ("messages", [],
     [(1, OMCI, "AD+88b5+0001440a+0*44"), (2, OMCI, "AD+88b5+0002440a+0*40"), (3, OMCI, "AD+88b5+0003440a+0*39"),
      (4, OMCI, "AD+88b5+0004240a+0*43"), (5, OMCI, "AD+88b5+0005640a+0*50"), (6, OMCI, "AD+88b6+0006440a+0*44"), (7, OMCI, "AD")],
     ["o 0001440a+0*44", "o 0002440a+0*40", "r 0004240a+0*40", "r 0005640a+0*44"],
     [f"omci: 2 {OTHER}: records 6, 7", f"omci: 1 {UNREAD}: record 3"]),
    # Of a frame over 9,989 bytes a history has a front, and so of one over 5,000 that may be one of several.
    ("long frames", A_MILLISECOND,
     [(1, INTO, "AD+0800+0*9975"), (2, INTO, "AD+0800+0*9976"), (3, OUT_OF, "AD+81000001+0800+0*9976"), (4, "--out-of 65535", "AD+0800+0*9975"),
      (5, INTO, "AD+0800+01+0*4985"), (6, INTO, "AD+0800+01+0*4985"), (7, OUT_OF, "AD+0800+01+0*4985"), (8, OUT_OF, "AD+81000001+0800+01+0*4985")],
     ["f 257 AD+0800+0*9975", "f 257 AD+0800+0*9975..", "g 1 1024 AD+81000001+0800+0*9971..", "g 0 65535 AD+0800+0*9975",
      "f 257 AD+0800+01+0*4985", "f 257 AD+0800+01+0*4985", "a 1024 AD+0800+01+0*4985 2 3", "a 1024 AD+81000001+0800+01+0*4981.. 2 3"],
     [f"out-of1024: 2 {DOUBT}: records 2, 3"]),
    ("frames that were cut", [],
     [(1, INTO, "AD+0800+0*9+01", 60), (2, INTO, "AD+0800+0*9+02", 61), (3, INTO, "AD+0800+0*8", 60), (4, OUT_OF, "AD+81000001+0800+0*9+01+02", 64),
      (5, OUT_OF, "AD+0800+0*9+02+0*37"), (6, OUT_OF, "AD+0800+0*9", 60), (7, OUT_OF, "AD+0800+0*9+03")],
     ["f 257 AD+0800+0*9+01..", "f 257 AD+0800+0*9+02..", "g 0 1024 AD+81000001+0800+0*9+01+02..", "g 1 1024 AD+0800+0*9+02+0*37",
      "s 1024 AD+0800+0*9+03"],
     [f"into257: 1 {UNREAD}: record 3", f"out-of1024: 1 {UNREAD}: record 3", "5 frames are cut by the capture's snap length",
      f"out-of1024: 1 {STRAYS}: record 4", ENDED_EARLY]),
    ("a front may be of several frames", [],
     [(1, INTO, "AD+0800+0*10+01", 60), (2, INTO, "AD+0800+0*10+02", 60), (3, OUT_OF, "AD+0800+0*10", 60), (4, INTO, "AD+0806+0*11"),
      (5, OUT_OF, "AD+0806+0*10", 60)],
     ["f 257 AD+0800+0*10+01..", "f 257 AD+0800+0*10+02..", "a 1024 AD+0800+0*10.. 0 1", "f 257 AD+0806+0*11", "g 2 1024 AD+0806+0*10.."],
     ["4 frames are cut by the capture's snap length", f"out-of1024: 1 {DOUBT}: record 1", f"into257: 2 {OPEN}: records 1, 2"]),
    ("a whole frame is longer than its front", [],
     [(1, INTO, "AD+0800+0*9+01"), (2, OUT_OF, "AD+0800+0*9+01", 60), (3, INTO, "AD+0800+0*9+02", 60), (4, OUT_OF, "AD+0800+0*9+02")],
     ["f 257 AD+0800+0*9+01", "s 1024 AD+0800+0*9+01..", "f 257 AD+0800+0*9+02..", "s 1024 AD+0800+0*9+02"],
     ["2 frames are cut by the capture's snap length", f"out-of1024: 2 {STRAYS}: records 1, 2", ENDED_EARLY, f"into257: 2 {OPEN}: records 1, 2"]),
    ("zeros at the end of frames", ["--padded"],
     [(1, INTO, "AD+0800+4500"), (2, OUT_OF, "AD+0800+4500+0*44"), (3, INTO, "AD+0800+4501+0*44"), (4, OUT_OF, "AD+81000001+0800+4501+00")],
     ["f 257 AD+0800+4500", "g 0 1024 AD+0800+4500+0*44", "f 257 AD+0800+4501+0*44", "g 1 1024 AD+81000001+0800+4501+00"], []),
    ("zeros that aren't looked past", [], [(1, INTO, "AD+0800+4500"), (2, OUT_OF, "AD+0800+4500+0*44")],
     ["f 257 AD+0800+4500", "s 1024 AD+0800+4500+0*44"], [f"out-of1024: 1 {STRAYS}: record 1", ENDED_EARLY, f"into257: 1 {OPEN}: record 1"]),
    # The last four bytes are the check sequence, but for messages; of the third frame one of these four was stored, and of the fourth none.
    ("check sequences", ["--fcs"],
     [(1, INTO, "AD+0800+4500+01020304"), (2, OUT_OF, "AD+0800+4500+05060708"), (3, INTO, "AD+0800+0*10+01+05", 29),
      (4, OUT_OF, "AD+0800+0*10+01", 29), (5, INTO, "AD+0800+0*10+02", 30), (6, OMCI, "AD+88b5+0001440a+0*40")],
     ["f 257 AD+0800+4500", "g 0 1024 AD+0800+4500", "f 257 AD+0800+0*10+01", "g 1 1024 AD+0800+0*10+01", "f 257 AD+0800+0*10+02..",
      "o 0001440a+0*40"],
     ["1 frames are cut by the capture's snap length", f"into257: 1 {OPEN}: record 3"]),
    ("frames that left before they were sent", [],
     [(0, INTO, "AD+0800+09"), (3200000, INTO, "AD+0800+01"), (3300000, INTO, "AD+0800+02"), (100000, OUT_OF, "AD+0800+01"),
      (250000, OUT_OF, "AD+81000001+0800+02"), (300000, OUT_OF, "AD+0800+03")],
     ["f 257 AD+0800+09", "s 1024 AD+0800+01", "s 1024 AD+81000001+0800+02", "s 1024 AD+0800+03", "f 257 AD+0800+01", "f 257 AD+0800+02"],
     [f"out-of1024: 3 {STRAYS}: records 1, 2, 3", "out-of1024: 2 frames left up to 3.1 ms before they were sent: are the clocks one? --skew",
      f"into257: 3 {OPEN}: records 1, 2, 3"]),
    ("their capture's clock set right", ["--skew", "out-of1024=3.1"],
     [(0, INTO, "AD+0800+09"), (3200000, INTO, "AD+0800+01"), (3300000, INTO, "AD+0800+02"), (100000, OUT_OF, "AD+0800+01"),
      (250000, OUT_OF, "AD+81000001+0800+02")],
     ["f 257 AD+0800+09", "f 257 AD+0800+01", "g 1 1024 AD+0800+01", "f 257 AD+0800+02", "g 2 1024 AD+81000001+0800+02"],
     [f"into257: 1 {OPEN}: record 1"]),
    ("the other's, by six digits behind the point", ["--skew", "into257=-0.000003"], [(3, INTO, "AD+0800"), (2, OUT_OF, "AD+0800")],
     ["f 257 AD+0800", "g 0 1024 AD+0800"], []),
    ("both", ["--skew", "into257=+1", "--skew", "out-of1024=0.999999"], [(1, INTO, "AD+0800"), (3, OUT_OF, "AD+0800")],
     ["f 257 AD+0800", "g 0 1024 AD+0800"], []),
    # A second before; more than a second before; and one of whose core another was sent before.
    ("frames that didn't leave soon before they were sent, and one that did", [],
     [(0, INTO, "AD+0800+04"), (1, INTO, "AD+0800+00"), (2000000000, INTO, "AD+0800+01"), (3000000001, INTO, "AD+0800+02"), (4000000000, INTO, "AD+0800+04"),
      (3, OUT_OF, "AD+0800+04"), (1000000000, OUT_OF, "AD+0800+01"), (2000000000, OUT_OF, "AD+0800+02"), (3999999999, OUT_OF, "AD+0800+04")],
     ["f 257 AD+0800+04", "f 257 AD+0800+00", "g 0 1024 AD+0800+04", "s 1024 AD+0800+01", "f 257 AD+0800+01", "s 1024 AD+0800+02", "f 257 AD+0800+02",
      "s 1024 AD+0800+04", "f 257 AD+0800+04"],
     [f"out-of1024: 3 {STRAYS}: records 2, 3, 4", "out-of1024: 1 frames left up to 1000 ms before they were sent: are the clocks one? --skew",
      f"into257: 4 {OPEN}: records 2, 3, 4, 5"]),
    ("by how much clocks differ", [],
     [(0, INTO, "AD+0800+09"), (1000000, INTO, "AD+0800+01"), (1000000, INTO, "AD+0800+02"), (1000000, INTO, "AD+0800+03"),
      (950000, "--out-of 1", "AD+0800+01"), (999000, "--out-of 2", "AD+0800+02"), (999999, "--out-of 3", "AD+0800+03")],
     ["f 257 AD+0800+09", "s 1 AD+0800+01", "s 2 AD+0800+02", "s 3 AD+0800+03", "f 257 AD+0800+01", "f 257 AD+0800+02", "f 257 AD+0800+03"],
     [*(f"out-of{gem}: 1 {STRAYS}: record 1" for gem in (1, 2, 3)),
      *(f"out-of{gem}: 1 frames left up to {by} ms before they were sent: are the clocks one? --skew"
        for gem, by in ((1, "0.05"), (2, "0.001"), (3, "0.000001"))),
      f"into257: 4 {OPEN}: records 1, 2, 3, 4"]),
    ("fronts that left before they were sent", [],
     [(0, INTO, "AD+0806"), (2000000, INTO, "AD+0800+0*9+01", 60), (2000000, INTO, "AD+0800+0*9+02+03"), (1000000, OUT_OF, "AD+81000001+0800+0*9+01+0*36"),
      (1500000, OUT_OF, "AD+0800+0*9+02", 25)],
     ["f 257 AD+0806", "s 1024 AD+81000001+0800+0*9+01+0*36", "s 1024 AD+0800+0*9+02..", "f 257 AD+0800+0*9+01..", "f 257 AD+0800+0*9+02+03"],
     ["2 frames are cut by the capture's snap length", f"out-of1024: 2 {STRAYS}: records 1, 2",
      "out-of1024: 2 frames left up to 1 ms before they were sent: are the clocks one? --skew", f"into257: 3 {OPEN}: records 1, 2, 3"]),
    ("padded frames that left before they were sent", ["--padded"],
     [(0, INTO, "AD+0806"), (2000000, INTO, "AD+0800+4500"), (1000000, OUT_OF, "AD+0800+4500+0*44"), (1000001, OUT_OF, "AD+0800+4501")],
     ["f 257 AD+0806", "s 1024 AD+0800+4500+0*44", "s 1024 AD+0800+4501", "f 257 AD+0800+4500"],
     [f"out-of1024: 2 {STRAYS}: records 1, 2", "out-of1024: 1 frames left up to 1 ms before they were sent: are the clocks one? --skew",
      f"into257: 2 {OPEN}: records 1, 2"]),
]

# Port 257 is made. Then three frames without a tag are sent, of which the first and the third leave as they came, and the second is lost.
LOST = [
    (10, OMCI, "AD+88b5+0001440a010c04010400800103+0*27+0000002800000000"), (11, OMCI, "AD+88b5+0001240a010c0401+0*32+0000002800000000"),
    (20, OMCI, "AD+88b5+0002440a010a05010401050601+0*27+00000028"), (21, OMCI, "AD+88b5+0002240a010a0501+0*32+00000028"),
    (30, OMCI, "AD+88b5+0003440a00820601010105010501050105010501050105010501010001+0*11+00000028"),
    (31, OMCI, "AD+88b5+0003240a00820601+0*32+00000028"), (40, OMCI, "AD+88b5+0004440a00ab0701020101+0*29+00000028"),
    (41, OMCI, "AD+88b5+0004240a00ab0701+0*32+00000028"), (50, INTO, "AD+0800+4500"), (51, OUT_OF, "AD+0800+4500"), (60, INTO, "AD+0800+4501"),
    (2000000, INTO, "AD+0800+4502"), (2000001, OUT_OF, "AD+0800+4502"),
]

# What it shows, the messages of a trace, and the classes of the frames at port 257 behind it, as `cover` lists them.
COVERED = [
    ("entries that change nothing", SET_UP, ["unread d 1", "unread d 2", "entry 0 g 1024", "entry 1 g 1024", "entry 2 g 1024"]),
    ("an entry takes the frames of another", PUSHING, ["unread d 1", "unread d 2", "entry 0 g 1024", "entry 2 g 1024", "entry 3 g 1024"]),
    ("two GEM ports without a table", TWO_GEM_PORTS, ["unread d 1", "unread d 2", "no-table g 7", "no-table g 1024"]),
    ("an entry that discards", DISCARDING, ["unread d 1", "unread d 2", "entry 0 g 1024", "entry 1 g 1024", "entry 2 d 4"]),
    ("frames that no entry matches", WITHOUT_ENTRY, ["unread d 1", "unread d 2", "entry 0 g 1024", "entry 1 g 1024", "no-entry d 3"]),
    ("a pointer that is null for priority 0", NULL_POINTER,
     ["unread d 1", "unread d 2", "entry 0 d 6", "entry 1 g 1024", "entry 1 d 6", "no-entry d 3"]),
    ("one that leads to no interworking point", TO_NO_POINT,
     ["unread d 1", "unread d 2", "entry 0 d 7", "entry 1 g 1024", "entry 1 d 7", "no-entry d 3"]),
    ("an interworking point that leads to no GEM port", TO_NO_GEM_PORT, ["unread d 1", "unread d 2", "entry 0 d 8", "entry 1 d 8", "no-entry d 3"]),
    ("a GEM port that carries nothing upstream", NOT_UPSTREAM, ["unread d 1", "unread d 2", "entry 0 d 9", "entry 1 d 9", "no-entry d 3"]),
]

"""The Python package: each call on its happy path, and each way to fail. What is expected is typed from docs/RULES.md and docs/FORMATS.md."""

import contextlib
import copy
import doctest
import json
import multiprocessing
import pickle
import random
import re
import subprocess
import sys
import threading
import unittest
from concurrent.futures import ProcessPoolExecutor
from pathlib import Path
from typing import Any, Callable, Dict, Iterator, List, Literal, Set, Tuple, Union, get_args, get_origin, get_type_hints

TOP = Path(__file__).resolve().parents[2]
PROGRAM = TOP / "crates/onuctl/out/onuctl"
sys.path[:0] = [str(TOP / "python"), str(TOP / "tests/plainly")]

import onuctl  # noqa: E402
from dialogues import calls_of  # noqa: E402
from onuctl import (  # noqa: E402
    BadAfter,
    BadLine,
    BadStart,
    Difference,
    Dropped,
    Fate,
    Forwarded,
    FrameClass,
    MessageFault,
    Mistake,
    Mistakes,
    Outcome,
    Reason,
    Tear,
    Unit,
    cover,
    decode,
    differences,
    encode,
    expect,
    hitless,
    judge,
    lint,
    mib,
    replay,
    rules,
    steps,
)

TRAILER = "0000002800000000"
ADDRESSES = "020000000001020000000002"
UNTAGGED = ADDRESSES + "08004500"
SET_UP = [
    "0001440a010c0401 0400 8001 03 00",
    "0002440a010a0501 0401 05 0601",
    "0003440a00820601 0101 0501050105010501 0501050105010501 01 0001",
    "0004440a00ab0701 02 0101",
]
REPLIES = ["0001240a010c0401", "0002240a010a0501", "0003240a00820601", "0004240a00ab0701"]
# The same in words.
SET_UP_WORDS = """\
create gem-port 0x0401 port-id=1024 tcont=0x8001 direction=both
create interwork 0x0501 gem-port=0x0401 option=mapper service-profile=0x0601
create mapper 0x0601 tp=0x0101 p0-7=0x0501 unmarked=default tp-type=pptp
create vlan 0x0701 association=pptp pointer=0x0101
"""
# Frames without a tag get one of VID 100; VID 100 becomes VID 200.
TO_100 = "0005480a00ab0701 0400 f8000000f8000000 000f000000000324"
TO_200 = "0006480a00ab0701 0400 f800000080320000 400f000000080644"
# The entry for no tag, deleted, and set again to VID 200; frames of one tag are dropped; and the table's input TPID becomes 0x9100.
DELETED = "0006480a00ab0701 0400 f8000000f8000000 ffffffffffffffff"
TO_200_AGAIN = "0007480a00ab0701 0400 f8000000f8000000 000f000000000644"
ONE_TAG_DROPPED = "0005480a00ab0701 0400 f8000000e8000000 c00f0000000f0000"
INPUT_9100 = "0006480a00ab0701 2000 9100"
# The mapper's pointer for priority 5 becomes one to nothing.
POINTER_5 = "0006480a00820601 0200 0599"
# Frames without a tag get one of VID 200 around one of VID 100.
TO_BOTH = "0005480a00ab0701 0400 f8000000f8000000 0000064400000324"


def digits(front: str) -> str:
    """The digits of a message: these, zeros up to byte 40, and the trailer."""
    return front.replace(" ", "").ljust(80, "0") + TRAILER


def message(front: str) -> bytes:
    return bytes.fromhex(digits(front))


def frame(text: str) -> bytes:
    return bytes.fromhex(ADDRESSES + text.replace(" ", ""))


def rows(help_text: str) -> Dict[int, str]:
    """The numbers and words of a table of the program's help, up to its next heading."""
    table = re.split(r"\n(?! )", help_text)[0]
    return {int(number): words for number, words in re.findall(r"^ +(\d+)  (.*)$", table, re.MULTILINE)}


class TableTest(unittest.TestCase):
    """The package's tables beside those of the crates and of the program: what is added there must be here."""

    def test_reasons_are_those_of_the_crate(self) -> None:
        crate = TOP / "crates/frame_meaning"
        enum = re.search(r"pub enum Reason \{\n(.*?)\n\}", (crate / "src/reason.rt").read_text(), re.DOTALL)
        assert enum, "src/reason.rt has no enum"
        names = re.findall(r"^    (\w+),$", enum[1], re.MULTILINE)
        numbers = dict(re.findall(r"^number_of_reason (\w+) = (\d+)$", (crate / "specs/Reason.antt").read_text(), re.MULTILINE))
        self.assertEqual(sorted(names), sorted(numbers))
        wanted = [(re.sub(r"(?<=[a-z])(?=[A-Z])", "_", name).upper(), int(numbers[name])) for name in names]
        self.assertEqual([(reason.name, int(reason)) for reason in Reason], wanted)
        # What is dropped is found by the place of its reason.
        self.assertEqual([int(reason) for reason in Reason], list(range(1, len(Reason) + 1)))

    def test_steps_are_those_of_the_crate(self) -> None:
        crate = (TOP / "crates/text_explanations/src/steps_json.rt").read_text()
        self.assertEqual([*steps.CLASSES], re.findall(r"^        Step::\w+\b.* => \"(\w+)\",$", crate, re.MULTILINE))

    @unittest.skipUnless(PROGRAM.exists(), "./onuctl builds the program")
    def test_words_are_those_of_the_program(self) -> None:
        def table(topic: str) -> Dict[int, str]:
            return rows(subprocess.run([PROGRAM, "help", topic], stdout=subprocess.PIPE, check=True).stdout.decode())

        self.assertEqual(list(table("reasons")), [int(reason) for reason in Reason])
        self.assertEqual(table("faults"), MessageFault.WORDS)


class UnitTest(unittest.TestCase):
    def setUp(self) -> None:
        self.unit = Unit()
        self.addCleanup(self.unit.close)

    def set_up(self) -> None:
        for request, reply in zip(SET_UP, REPLIES):
            self.assertEqual(self.unit.message(message(request)), message(reply))

    def test_a_message_is_answered(self) -> None:
        self.set_up()
        self.assertEqual(self.unit.message(message(SET_UP[0])), message("0001240a010c0401 07"))
        self.assertEqual(self.unit.message(message("0009490a00020000 8000")[:44]), message("0009290a00020000 00 8000 04"))

    def test_no_answer_is_wanted(self) -> None:
        self.set_up()
        self.assertIsNone(self.unit.message(message(TO_100.replace("48", "08", 1))))
        self.assertEqual(self.unit.forward(257, frame("0800 4500")), Forwarded(1024, frame("81000064 0800 4500")))

    def test_faults_of_messages(self) -> None:
        for code, bad in (
            (1, message(SET_UP[0])[:47]),
            (1, b""),
            (2, message("0001c40a010c0401")),
            (3, message("0001640a010c0401")),
            (4, message("0001440b010c0401")),
        ):
            with self.subTest(code=code), self.assertRaises(MessageFault) as raised:
                self.unit.message(bad)
            self.assertEqual(raised.exception.code, code)
        self.assertIn("neither 48 bytes nor 44", str(MessageFault(1)))

    def test_frames_leave(self) -> None:
        self.set_up()
        self.unit.message(message(TO_100))
        self.unit.message(message(TO_200))
        for came, left in (
            ("0800 4500", "81000064 0800 4500"),
            ("8100a064 0800 4500", "8100a0c8 0800 4500"),
            ("88a80064 810000c8 0800 4500", "88a80064 810000c8 0800 4500"),
        ):
            with self.subTest(came=came):
                self.assertEqual(self.unit.forward(257, frame(came)), Forwarded(1024, frame(left)))
        # Both tags go, and what looks like a third belongs to the rest.
        self.unit.message(message("0007480a00ab0701 0400 8800000088000000 800f0000000f0000"))
        self.assertEqual(self.unit.forward(257, frame("88a80064 810000c8 8100e12c 0800 4500")), Forwarded(1024, frame("8100e12c 0800 4500")))

    def test_frames_are_dropped(self) -> None:
        self.assertEqual(self.unit.forward(257, frame("0800 4500")), Dropped(Reason.NO_MAPPER))
        self.set_up()
        self.assertEqual(self.unit.forward(257, b""), Dropped(Reason.RUNT))
        self.assertEqual(self.unit.forward(257, frame("8100")), Dropped(Reason.CUT_TAG))
        self.assertEqual(self.unit.forward(258, frame("0800 4500")), Dropped(Reason.NO_MAPPER))
        self.unit.message(message("0008480a00ab0701 0400 e0000000e0000000 c00f0000000f0000"))
        self.assertEqual(self.unit.forward(257, frame("88a80064 810000c8 0800 4500")), Dropped(Reason.RULE_DISCARD))

    def test_a_port_has_16_bits(self) -> None:
        calls: List[Callable[[int], Any]] = [
            lambda port: cover(b"", port=port),
            lambda port: differences(b"", b"", port=port),
            lambda port: hitless(b"", 0, port=port),
        ]
        for port in (-1, 65536):
            for call in calls:
                with self.assertRaisesRegex(ValueError, "^a port is a number from 0 to 65535"):
                    call(port)
            with self.assertRaises(ValueError):
                self.unit.forward(port, b"")
            with self.assertRaises(ValueError):
                self.unit.explain(port, b"")
            with self.assertRaises(ValueError):
                rules(b"", port)

    def test_a_frame_is_explained(self) -> None:
        self.set_up()
        self.unit.message(message(TO_100))
        said = self.unit.explain(257, frame("0800 4500"))
        self.assertEqual(said[0]["step"], "table")
        self.assertEqual(said[-1]["answer"], "g 1024 " + ADDRESSES + "8100006408004500")
        # A long explanation: a table of 100 entries of which none is for the frame.
        for vid in range(1, 100):
            entry = (15 << 28 | 8 << 24).to_bytes(4, "big") + (8 << 28 | vid << 15).to_bytes(4, "big") + bytes.fromhex("400f000000080644")
            self.unit.message(message("0006480a00ab0701 0400" + entry.hex()))
        said = self.unit.explain(257, frame("81000fff 0800 4500"))
        self.assertGreater(len(repr(said)), 16384)
        self.assertEqual(said[-1]["step"], "verdict")

    def test_a_closed_unit_is_refused(self) -> None:
        with Unit() as unit:
            unit.message(message(SET_UP[0]))
        unit.close()
        calls: List[Callable[[], Any]] = [
            lambda: unit.message(message(SET_UP[0])),
            lambda: unit.message(message("0009490a00020000 8000")),
            lambda: unit.forward(257, b""),
            lambda: unit.explain(257, b""),
            unit.copy,
        ]
        for call in calls:
            with self.assertRaisesRegex(ValueError, "closed"):
                call()

    def test_a_unit_is_copied_by_its_copy_alone(self) -> None:
        calls: List[Callable[[Any], Any]] = [copy.copy, copy.deepcopy, pickle.dumps]
        for call in calls:
            with self.assertRaises(TypeError):
                call(self.unit)

    def test_threads_share_a_unit(self) -> None:
        self.set_up()
        wrong = []

        def send(identifier: int) -> None:
            front = "%04x" % identifier
            for _ in range(2000):
                if self.unit.message(message(front + "490a00020000 8000")) != message(front + "290a00020000 00 8000 04"):
                    wrong.append(identifier)
                if self.unit.forward(257, frame("0800 %04x" % identifier)) != Forwarded(1024, frame("0800 %04x" % identifier)):
                    wrong.append(identifier)

        threads = [threading.Thread(target=send, args=(n,)) for n in range(8)]
        for thread in threads:
            thread.start()
        for thread in threads:
            thread.join()
        self.assertEqual(wrong, [])


class CopyTest(unittest.TestCase):
    """A copy is in the state of its unit, and from then on each goes its own way."""

    def unit(self, *requests: str) -> Unit:
        unit = Unit()
        self.addCleanup(unit.close)
        for request in requests:
            unit.message(message(request))
        return unit

    def copy_of(self, unit: Unit) -> Unit:
        other = unit.copy()
        self.addCleanup(other.close)
        return other

    def test_entities(self) -> None:
        unit = self.unit(*SET_UP, TO_100.replace("48", "08", 1))
        other = self.copy_of(unit)
        for each in (unit, other, self.copy_of(other)):
            # The sync counts the five that were accepted, with the one that wanted no answer.
            self.assertEqual(each.message(message("0009490a00020000 8000")), message("0009290a00020000 00 8000 05"))
            self.assertEqual(each.forward(257, frame("0800 4500")), Forwarded(1024, frame("81000064 0800 4500")))
        other.message(message(TO_200))
        self.assertEqual(other.forward(257, frame("81000064 0800")), Forwarded(1024, frame("810000c8 0800")))
        self.assertEqual(unit.forward(257, frame("81000064 0800")), Forwarded(1024, frame("81000064 0800")))
        unit.message(message("00094f0a00020000"))
        self.assertEqual(unit.forward(257, frame("0800 4500")), Dropped(Reason.NO_MAPPER))
        unit.close()
        self.assertEqual(other.message(message("0009490a00020000 8000")), message("0009290a00020000 00 8000 06"))

    def test_the_latched_table(self) -> None:
        # A Get of attribute 6 latches the table, with an entry more than the three of a new one; then the table is made anew.
        unit = self.unit(*SET_UP, TO_100, "0009490a00ab0701 0400", "0009460a00ab0701", SET_UP[3])
        for each in (unit, self.copy_of(unit)):
            parts = [each.message(message("00095a0a00ab0701 0400 %04x" % number)) for number in range(4)]
            # Its 64 bytes come in parts of 29, and behind the last there is none: a parameter error.
            self.assertEqual([part and part[8] for part in parts], [0, 0, 0, 3])
            table = b"".join(part[11:40] for part in parts[:3] if part)
            self.assertEqual(table[48:64], bytes.fromhex(TO_100[-34:].replace(" ", "")))

    def test_the_rows_of_an_upload(self) -> None:
        # Seven rows stand since the upload: of ONU data, two each of the mapper and of the table, of the interworking point and of the GEM port.
        unit = self.unit(*SET_UP, "00094d0a00020000", "00094f0a00020000")
        other = self.copy_of(unit)
        for number in range(8):
            asked = message("00094e0a00020000 %04x" % number)
            row = unit.message(asked)
            self.assertEqual(other.message(asked), row)
            assert row is not None
            self.assertEqual(row[8:40] != bytes(32), number < 7, number)

    def test_what_was_drawn(self) -> None:
        def drawn(draw: random.Random) -> bytes:
            action = draw.choice((4, 6, 8, 9, 13, 14, 15, 26, 26, 8, 8, 9, 28)) | 0x40 * draw.randrange(2) | 0x20 * (draw.randrange(50) == 0)
            if action & 31 == 15 and draw.randrange(20):
                action ^= 15 ^ 8
            class_, instance = draw.choice(((2, 0), (130, 1537), (171, 1793), (171, 1794), (266, 1281), (268, 1025), (268, 1026)))
            any_bytes = bytes(draw.randrange(256) for _ in range(32))
            contents = draw.choice((b"\x04\x00" + any_bytes[:16], b"\x04\x00\x00" + bytes([draw.randrange(4)]), any_bytes))
            head = bytes([0, 1, action, 10]) + class_.to_bytes(2, "big") + instance.to_bytes(2, "big")
            return head + contents.ljust(32, b"\0") + bytes.fromhex(TRAILER)[: draw.choice((4, 8, 8))]

        def answer(unit: Unit, asked: bytes) -> Union[bytes, None, int]:
            try:
                return unit.message(asked)
            except MessageFault as fault:
                return fault.code

        for seed in range(30):
            draw = random.Random(seed)
            unit = self.unit(*SET_UP)
            for _ in range(100):
                answer(unit, drawn(draw))
            other = self.copy_of(unit)
            probes = [message("00095a0a00ab0701 0400 %04x" % number) for number in range(6)]
            probes += [message("00094e0a00020000 %04x" % number) for number in range(12)] + [drawn(draw) for _ in range(100)]
            for asked in probes:
                self.assertEqual(answer(other, asked), answer(unit, asked), (seed, asked.hex()))

    def test_while_threads_send(self) -> None:
        unit = self.unit(*SET_UP)
        copies: List[Unit] = []

        def send(value: int) -> None:
            for _ in range(500):
                # The tag protocol of the table's input, which the last one decides.
                self.assertEqual(unit.message(message("0005480a00ab0701 2000 %04x" % value)), message("0005280a00ab0701"))
            copies.append(self.copy_of(unit))

        threads = [threading.Thread(target=send, args=(n,)) for n in range(8)]
        for thread in threads:
            thread.start()
        for thread in threads:
            thread.join()
        asked = message("0009490a00ab0701 2000")
        self.assertEqual(self.copy_of(unit).message(asked), unit.message(asked))
        self.assertEqual(len(copies), 8)


def explained() -> Iterator[Tuple[str, List[steps.Step]]]:
    """What becomes of each frame that a dialogue has explained, by the library, and of one that gets two tags."""
    for path in sorted((TOP / "tests/dialogues").glob("*.dialogues")):
        for call in calls_of(path.name, path.read_text()):
            if call.words[:2] != ["explain", "--port"] or not call.ends_well():
                continue
            with Unit() as unit:
                for digits in re.findall("^o ([0-9a-fA-F]*)$", call.given, re.MULTILINE):
                    with contextlib.suppress(MessageFault):
                        unit.message(bytes.fromhex(digits))
                yield call.name, unit.explain(int(call.words[2]), bytes.fromhex(call.words[-1]))
    with Unit() as unit:
        for request in [*SET_UP, TO_BOTH]:
            unit.message(message(request))
        yield "two tags are added", unit.explain(257, frame("0800 4500"))


def fits(value: Any, hint: Any) -> bool:
    """Whether a value is of a type. A record has no keys but those of its fields, and its fields are its keys."""
    if get_origin(hint) is Union:
        return any(fits(value, each) for each in get_args(hint))
    if get_origin(hint) is Literal:
        return value in get_args(hint)
    if get_origin(hint) is list:
        return type(value) is list and all(fits(each, get_args(hint)[0]) for each in value)
    if not issubclass(hint, steps.Record):
        return type(value) is hint
    fields = fields_of(hint)
    return (
        type(value) is hint
        and value.keys() <= {name.rstrip("_") for name in fields}
        and all(getattr(value, name) is value.get(name.rstrip("_")) and fits(getattr(value, name), fields[name]) for name in fields)
    )


def fields_of(record: type) -> Dict[str, Any]:
    return {name: hint for name, hint in get_type_hints(record).items() if not name.startswith("_")}


def met(value: Any, found: Set[Tuple[str, str]]) -> None:
    """Adds the class and key of each value in a record."""
    for key, each in value.items():
        found.add((type(value).__name__, key))
        for record in each if isinstance(each, list) else [each]:
            if isinstance(record, steps.Record):
                met(record, found)


class StepTest(unittest.TestCase):
    """The steps of explanations, of all frames that dialogues have explained."""

    def test_fields_have_their_types(self) -> None:
        found: Set[Tuple[str, str]] = set()
        for name, said in explained():
            with self.subTest(name=name):
                self.assertEqual([type(step) for step in said], [steps.CLASSES[step["step"]] for step in said])
                for step in said:
                    self.assertTrue(fits(step, type(step)), step)
                    met(step, found)
        classes = [each for each in vars(steps).values() if isinstance(each, type) and issubclass(each, steps.Record)]
        fields = {(each.__name__, name.rstrip("_")) for each in classes for name in fields_of(each)}
        bases = {"Record", "Step", "Entry"}
        # Without a trace no entry has the line that set it.
        lacking = {(name, key) for name, key in fields - found if name not in bases and key != "line"}
        self.assertEqual(lacking, set())

    def test_a_step_is_a_dict(self) -> None:
        with Unit() as unit:
            last = unit.explain(257, frame("0800 4500"))[-1]
        wanted = {"step": "verdict", "verdict": "drop", "reason": 5, "words": "the port has no mapper", "answer": "d 5"}
        self.assertEqual(last, wanted)
        self.assertEqual(json.loads(json.dumps(last)), wanted)
        assert isinstance(last, steps.Verdict)
        self.assertEqual((last.reason, last.gem), (5, None))
        with self.assertRaises(AttributeError):
            last.reason = 6
        with self.assertRaises(AttributeError):
            getattr(last, "reasons")
        for other in (pickle.loads(pickle.dumps(last)), copy.deepcopy(last)):
            self.assertEqual((type(other), other), (steps.Verdict, wanted))


class GivenTest(unittest.TestCase):
    """What calls take."""

    def setUp(self) -> None:
        self.unit = Unit()
        self.addCleanup(self.unit.close)

    def test_bytes_of_any_kind(self) -> None:
        kinds: List[Callable[[bytes], Any]] = [bytes, bytearray, memoryview, lambda given: memoryview(given[::-1])[::-1]]
        sent = frame("0800 4500")
        for kind in kinds:
            for request, reply in zip(SET_UP, REPLIES):
                self.assertEqual(self.unit.message(kind(message(request))), message(reply))
            self.unit.message(kind(message(TO_100)))
            left = self.unit.forward(257, kind(sent))
            assert isinstance(left, Forwarded)
            self.assertEqual((left, type(left.frame)), (Forwarded(1024, frame("81000064 0800 4500")), bytes))
            self.assertEqual(self.unit.explain(257, kind(sent))[-1]["answer"], "g 1024 " + ADDRESSES + "8100006408004500")
            self.assertEqual(replay(kind(b"f 257 00\n")), b"d 1\n")
            self.assertEqual(judge(kind(b"# remark\n"))[:2], (False, None))
            self.assertEqual(encode(kind(b"# remark\n")), "# remark\n")
            self.assertEqual(decode(kind(b"# remark\n")), [{"format": 1, "line": 1, "kind": "remark", "text": "# remark"}])
            self.assertEqual(mib(kind(b"# remark\n"))["mib_data_sync"], 0)
            self.assertEqual([str(each) for each in lint(kind(b"# remark\n"))], ["warning trace empty-trace: it has no message"])
            self.assertEqual(rules(kind(b"# remark\n"), 257)["entries"], [])
            self.assertEqual(cover(kind(b"# remark\n")), [])
            self.assertEqual(differences(kind(b"# remark\n"), kind(b"")), [])
            self.assertEqual(hitless(kind(b"# remark\n"), 0), [])
            self.assertEqual(expect(kind(b"# remark\n"), kind(b"257 any -> drop 5")), [Outcome(1, 257, "holds", None, None, None, None)])
            self.unit.message(message("00094f0a00020000"))

    def test_what_is_refused_is_named(self) -> None:
        given_bytes: List[Tuple[str, Callable[[Any], Any]]] = [
            ("message", self.unit.message),
            ("frame", lambda given: self.unit.forward(257, given)),
            ("frame", lambda given: self.unit.explain(257, given)),
        ]
        given_texts: List[Tuple[str, Callable[[Any], Any]]] = [
            ("script", replay),
            ("history", judge),
            ("words", encode),
            ("script", decode),
            ("trace", mib),
            ("trace", lint),
            ("trace", lambda given: rules(given, 257)),
            ("trace", cover),
            ("before", lambda given: differences(given, b"")),
            ("trace", lambda given: hitless(given, 0)),
            ("trace", lambda given: expect(given, "")),
            ("expectations", lambda given: expect("", given)),
        ]
        wrong: List[Any] = [None, 7, [1, 2], ("a",), object()]
        for kinds, calls, values in (
            ("bytes, bytearray or memoryview", given_bytes, [*wrong, "00"]),
            ("str, bytes, bytearray or memoryview", given_texts, wrong),
        ):
            for name, call in calls:
                for given in values:
                    with self.assertRaisesRegex(TypeError, "^%s must be %s, not %s$" % (name, kinds, type(given).__name__)):
                        call(given)

    def test_a_port_is_a_number(self) -> None:
        wrong: List[Any] = [None, "257", 257.0, b"1"]
        calls: List[Callable[[Any, bytes], Any]] = [self.unit.forward, self.unit.explain, lambda port, trace: rules(trace, port)]
        for given in wrong:
            for call in calls:
                with self.assertRaisesRegex(TypeError, "^port must be an int, not %s$" % type(given).__name__):
                    call(given, b"")

        class Port:
            def __index__(self) -> int:
                return 257

        port: Any = Port()
        self.assertEqual(self.unit.forward(port, b""), Dropped(Reason.RUNT))


class FaultTest(unittest.TestCase):
    """Faults stay what they are on their way to another process."""

    def test_faults_are_pickled(self) -> None:
        for fault, said in (
            (BadLine(3, b"-\n"), "line 3 is bad"),
            (BadLine(1), "line 1 is bad"),
            (BadAfter(4), "line 4 of the trace after is bad"),
            (MessageFault(2), "message fault 2: the destination bit is 1, expected 0"),
            (Mistakes([Mistake(2, 5, "one"), Mistake(3, 1, "two")]), "line 2, column 5: one\nline 3, column 1: two"),
        ):
            for protocol in range(pickle.HIGHEST_PROTOCOL + 1):
                other = pickle.loads(pickle.dumps(fault, protocol))
                self.assertEqual((type(other), str(other), other.args, vars(other)), (type(fault), said, fault.args, vars(fault)))
            self.assertEqual(vars(copy.deepcopy(fault)), vars(fault))

    def test_a_pool_of_processes_gives_them_back(self) -> None:
        with ProcessPoolExecutor(1, multiprocessing.get_context("spawn")) as pool:
            with self.assertRaises(BadLine) as raised:
                pool.submit(replay, "f 257 00\nx\n").result(60)
            self.assertEqual((raised.exception.line, raised.exception.answers), (2, b"d 1\n"))
            with self.assertRaises(Mistakes) as mistaken:
                pool.submit(encode, "\nget onu-data 0 vid\n").result(60)
            self.assertEqual([(each.line, each.column) for each in mistaken.exception.mistakes], [(2, 16)])
            found = pool.submit(judge, "# remark\n").result(60)
            self.assertEqual(found, judge("# remark\n"))


class ScriptTest(unittest.TestCase):
    """Scripts in words, decoded, and what their messages leave; also as the stored outputs of the program say."""

    def script(self, *more: str) -> str:
        return "".join("o %s\n" % digits(request) for request in [*SET_UP, *more])

    def test_words_become_a_script(self) -> None:
        self.assertEqual(encode(SET_UP_WORDS), self.script())
        self.assertEqual(encode("# remark\n\nframe 257 type=ipv4 payload=4500 # sent\n"), "# remark\n\nf 257 " + UNTAGGED + "\n")
        self.assertEqual(encode(""), "")
        # A remark has any bytes.
        self.assertEqual(encode(b"# \xff\n"), "# \ufffd\n")
        self.assertEqual(encode("# \u00e9\n"), "# \u00e9\n")

    def test_identifiers_are_counted(self) -> None:
        def resets(*identifiers: str) -> str:
            return "".join("o %s\n" % digits(identifier + "4f0a00020000") for identifier in identifiers)

        self.assertEqual(encode("reset\nreset\n"), resets("0001", "0002"))
        self.assertEqual(encode("reset\nreset\n", identifier=100), resets("0064", "0065"))
        self.assertEqual(encode("reset\nreset\n", identifier=65535), resets("ffff", "0001"))
        for identifier in (-1, 65536):
            with self.assertRaisesRegex(ValueError, "65535"):
                encode("reset\n", identifier=identifier)
        wrong: Any = "1"
        with self.assertRaisesRegex(TypeError, "^identifier must be an int, not str$"):
            encode("reset\n", identifier=wrong)

    def test_mistakes_have_their_places(self) -> None:
        with self.assertRaises(Mistakes) as raised:
            encode("# remark\ncrate gem-port 1\nframe 70000 type=ipv4\n")
        found = raised.exception
        self.assertEqual([(each.line, each.column) for each in found.mistakes], [(2, 1), (3, 7)])
        self.assertEqual((found.line, found.column, found.reason), found.mistakes[0])
        self.assertRegex(found.reason, "found `crate`, expected create, .*; did you mean `create`[?]$")
        self.assertIsInstance(found, BadLine)
        folder = TOP / "examples/encode"
        with self.assertRaises(Mistakes) as raised:
            encode((folder / "mistakes.onu").read_bytes())
        self.assertEqual(str(raised.exception) + "\n", (folder / "mistakes.said").read_text())

    def test_a_script_is_decoded(self) -> None:
        said = decode(self.script() + "f 257 " + UNTAGGED + "\nd 5\n-\n")
        self.assertEqual([each["kind"] for each in said], ["message"] * 4 + ["frame", "dropped", "no_answer"])
        self.assertEqual([each["line"] for each in said], list(range(1, 8)))
        self.assertEqual((said[0]["action"], said[0]["class"], said[0]["instance"]), ("Create", 268, 1025))
        self.assertEqual(said[0]["attributes"]["Port-ID"], 1024)
        self.assertEqual((said[0]["attributes"]["Direction"], said[0]["attribute_words"]["Direction"]), (3, "both"))
        self.assertEqual((said[4]["port"], said[4]["ethertype"], said[4]["rest"]), (257, 0x0800, "08004500"))
        self.assertEqual((said[5]["reason"], said[5]["words"]), (5, "the port has no mapper"))
        self.assertEqual(decode(b""), [])
        folder = TOP / "examples"
        stored = [json.loads(line) for line in (folder / "looking/read_table.decoded.json").read_text().splitlines()]
        self.assertEqual(decode((folder / "replay/read_table.script").read_bytes()), stored)

    def test_a_bad_line_is_not_decoded(self) -> None:
        with self.assertRaises(Mistakes) as raised:
            decode("# remark\nf 257 0g\nx\n")
        self.assertEqual(raised.exception.mistakes, [Mistake(2, 8, "found 'g', expected a hexadecimal digit")])

    def test_entities_are_shown(self) -> None:
        shown = mib(self.script(TO_100) + "f 257 " + UNTAGGED + "\n")
        self.assertEqual(shown["mib_data_sync"], 5)
        wanted = [(2, 0), (130, 0x0601), (171, 0x0701), (266, 0x0501), (268, 0x0401)]
        self.assertEqual([(each["class"], each["instance"]) for each in shown["entities"]], wanted)
        self.assertEqual(shown["entities"][-1]["attributes"]["Port-ID"], 1024)
        self.assertEqual(shown["entities"][-1]["attribute_words"]["Direction"], "both")
        self.assertEqual([each["class"] for each in mib("")["entities"]], [2])

    def test_findings_are_listed(self) -> None:
        self.assertEqual(lint(self.script()), [])
        # The GEM port exists, result 7; and the destination bit of a message is 1.
        found = lint(self.script(SET_UP[0], "0001c40a010c0401"))
        self.assertEqual([(each.line, each.kind, each.severity) for each in found], [(5, "message-refused", "error"), (6, "message-fault", "error")])
        self.assertEqual((found[0].details["result"], found[1].details["fault"]), (7, 2))
        self.assertEqual((found[0].entity_class, found[0].instance), (268, 0x0401))
        # No frame comes by a GEM port that nothing points to.
        found = lint("o %s\n" % digits(SET_UP[0]))
        self.assertEqual([(each.entity_class, each.instance, each.line, each.kind) for each in found], [(268, 0x0401, None, "not-reached")])
        self.assertTrue(str(found[0]).startswith("warning gem-port 0x0401 not-reached: "))

    def test_the_table_in_force_is_shown(self) -> None:
        shown = rules(self.script(TO_100), 257)
        self.assertEqual((shown["port"], shown["table"]["points_to"], shown["table"]["instance"]), (257, "port", 0x0701))
        first = shown["entries"][0]
        self.assertEqual((first["number"], first["line"], first["entry"]), (0, 5, TO_100[-34:].replace(" ", "")))
        # Beside it stand the three of a new table.
        self.assertEqual([each["line"] for each in shown["entries"][1:]], [4, 4, 4])
        self.assertEqual(rules(self.script(TO_100), 258)["table"]["points_to"], "none")

    def test_all_is_as_the_program_writes_it(self) -> None:
        folder = TOP / "examples/looking"
        trace = (folder / "inside.trace").read_text()
        self.assertEqual(encode((folder / "inside.onu").read_bytes()), trace)
        self.assertEqual(mib(trace), json.loads((folder / "inside.mib.json").read_text()))
        self.assertEqual([each.details for each in lint(trace)], json.loads((folder / "inside.lint.json").read_text())["findings"])
        self.assertEqual("".join("%s\n" % each for each in lint(trace)), (folder / "inside.lint").read_text())
        self.assertEqual(rules(trace, 257), json.loads((folder / "inside.rules.json").read_text()))

    def test_a_bad_line_of_a_trace(self) -> None:
        calls: List[Callable[[str], Any]] = [mib, lint, lambda trace: rules(trace, 257)]
        for call in calls:
            with self.assertRaises(BadLine) as raised:
                call("# remark\nf 257 00\nx\ny\n")
            self.assertEqual((raised.exception.line, type(raised.exception)), (3, BadLine))

    def test_texts_of_any_length(self) -> None:
        # A table of 100 entries, and what is said of it, are longer than the room that is tried first.
        words = SET_UP_WORDS + "".join("entry vlan 0x0701 tags=1 vid=%d -> drop\n" % vid for vid in range(1, 101))
        script = encode(words)
        self.assertEqual(len(script.splitlines()), 104)
        self.assertEqual(len(decode(script)), 104)
        self.assertEqual(mib(script)["mib_data_sync"], 104)
        self.assertEqual(len(rules(script, 257)["entries"]), 103)
        with self.assertRaises(Mistakes) as raised:
            encode("x\n" * 2000)
        self.assertEqual([each.line for each in raised.exception.mistakes], list(range(1, 2001)))


def trace_of(*requests: str) -> str:
    """A trace with these requests, each on its line."""
    return "".join("o %s\n" % digits(request) for request in requests)


def unit_of(requests: List[str]) -> Unit:
    """A unit that carried these requests out."""
    unit = Unit()
    for request in requests:
        unit.message(message(request))
    return unit


Ending = Tuple[str, object, object]


def ending(found: Union[FrameClass, Fate]) -> Ending:
    """What is used for a frame, and how it ends: by a GEM port, or for a reason."""
    if isinstance(found, FrameClass):
        return found.use, found.entry, found.gem if found.reason is None else found.reason
    return found.use, found.entry, found.verdict.gem if isinstance(found.verdict, Forwarded) else found.verdict.reason


UNREAD_1: Ending = ("unread", None, Reason.RUNT)
UNREAD_2: Ending = ("unread", None, Reason.CUT_TAG)
NO_TABLE: Ending = ("no-table", None, Reason.NO_MAPPER)


def leaving(entry: int) -> Ending:
    """That frames leave by an entry."""
    return "entry", entry, 1024


class EveryFrameTest(unittest.TestCase):
    """Classes, differences and torn moments. Each frame that is shown goes through units, too, which carried out the same requests."""

    def goes_so(self, requests: List[str], port: int, sent: bytes, fate: Fate) -> None:
        with unit_of(requests) as unit:
            self.assertEqual(unit.forward(port, sent), fate.verdict)

    def covers(self, requests: List[str], wanted: List[Ending], **options: int) -> None:
        found = cover(trace_of(*requests), **options)
        self.assertEqual([ending(each) for each in found], wanted)
        with unit_of(requests) as unit:
            for each in found:
                self.assertEqual((type(each), type(each.frame)), (FrameClass, bytes))
                self.assertGreaterEqual(len(each.frame), options.get("least", 0))
                said = unit.forward(each.port, each.frame)
                self.assertEqual(said.gem if isinstance(said, Forwarded) else said.reason, each.gem if each.reason is None else each.reason)

    def differ(self, before: List[str], after: List[str], wanted: List[Tuple[Ending, Ending]], **options: int) -> None:
        for found in (
            differences(trace_of(*before), trace_of(*after), **options),
            differences(trace_of(*before, *after[len(before) :]), None, from_line=len(before), **options),
        ):
            self.assertEqual([(ending(each.before), ending(each.after)) for each in found], wanted)
            for each in found:
                self.assertEqual((type(each), type(each.frame), each.port), (Difference, bytes, 257))
                self.assertNotEqual(each.before.verdict, each.after.verdict)
                self.goes_so(before, each.port, each.frame, each.before)
                self.goes_so(after, each.port, each.frame, each.after)

    def test_without_entities_a_port_has_nothing(self) -> None:
        self.covers([], [UNREAD_1, UNREAD_2, NO_TABLE], port=257)
        self.assertEqual(cover(""), [])

    def test_classes_of_a_new_table(self) -> None:
        self.covers(SET_UP, [UNREAD_1, UNREAD_2, leaving(0), leaving(1), leaving(2)])
        self.covers(SET_UP, [leaving(0), leaving(1), leaving(2)], least=60)
        self.covers(SET_UP, [UNREAD_1, UNREAD_2, NO_TABLE], port=258)
        self.assertEqual([each.port for each in cover(trace_of(*SET_UP))], 5 * [257])

    def test_an_entry_that_is_used_for_no_frame(self) -> None:
        self.covers([*SET_UP, TO_100], [UNREAD_1, UNREAD_2, leaving(0), leaving(2), leaving(3)])

    def test_an_entry_with_two_endings(self) -> None:
        # Entries 2 and 3 keep the frames' priorities; entry 0 adds a tag of priority 0.
        lost: List[Ending] = [("entry", number, Reason.NO_INTERWORK) for number in (2, 3)]
        wanted = [UNREAD_1, UNREAD_2, leaving(0), leaving(2), lost[0], leaving(3), lost[1]]
        self.covers([*SET_UP, TO_100, POINTER_5], wanted)

    def test_a_tag_is_added(self) -> None:
        self.differ(SET_UP, [*SET_UP, TO_100], [(leaving(0), leaving(0))])
        (found,) = differences(trace_of(*SET_UP), trace_of(*SET_UP, TO_100))
        self.assertEqual(found.frame[12:14], b"\x08\0")
        self.assertEqual(found.before.verdict, Forwarded(1024, found.frame))
        self.assertEqual(found.after.verdict, Forwarded(1024, found.frame[:12] + bytes.fromhex("81000064") + found.frame[12:]))
        # And away again.
        self.differ([*SET_UP, TO_100], [*SET_UP, TO_100, DELETED], [(leaving(0), leaving(0))])

    def test_another_input_tpid(self) -> None:
        after = [*SET_UP, INPUT_9100]
        self.differ(SET_UP, after, [(leaving(0), UNREAD_2), (leaving(1), UNREAD_2)])
        self.differ(SET_UP, after, [], least=60)
        before = [*SET_UP, ONE_TAG_DROPPED]
        dropped: Ending = ("entry", 0, Reason.RULE_DISCARD)
        wanted = [(dropped, UNREAD_2), (dropped, leaving(3)), (leaving(1), UNREAD_2), (leaving(1), dropped)]
        self.differ(before, [*before, INPUT_9100], wanted)

    def test_the_same(self) -> None:
        self.differ(SET_UP, SET_UP, [])
        self.differ(SET_UP, [*SET_UP, TO_100], [], port=258)
        self.assertEqual(differences(trace_of(*SET_UP), from_line=100), [])
        # Ways to the same end.
        deleted = trace_of(*SET_UP, TO_100, DELETED, TO_200_AGAIN)
        overwritten = trace_of(*SET_UP, TO_100, TO_200_AGAIN)
        self.assertEqual(differences(deleted, overwritten), [])
        self.assertEqual(len(differences(deleted, overwritten, from_line=6)), 1)
        self.assertEqual(len(differences(deleted, overwritten, until_line=5)), 1)
        self.assertEqual(differences(deleted, overwritten, from_line=5, until_line=5), [])

    def test_a_torn_moment(self) -> None:
        requests = [*SET_UP, TO_100, DELETED, TO_200_AGAIN]
        trace = trace_of(*requests)
        (found,) = hitless(trace, 5)
        self.assertEqual((type(found), found.version, found.line, found.port, type(found.frame)), (Tear, 6, 6, 257, bytes))
        for fate, vid, count in ((found.before, "64", 5), (found.here, None, 6), (found.after, "c8", 7)):
            tag = b"" if vid is None else bytes.fromhex("810000" + vid)
            self.assertEqual(fate, Fate("entry", 0, Forwarded(1024, found.frame[:12] + tag + found.frame[12:])))
            self.goes_so(requests[:count], 257, found.frame, fate)
        self.assertEqual(hitless(trace, 5, until_line=7, port=257), [found])
        for nothing in (hitless(trace, 5, port=258), hitless(trace, 5, until_line=6), hitless(trace, 6), hitless(trace, 7)):
            self.assertEqual(nothing, [])

    def test_a_hitless_change(self) -> None:
        self.assertEqual(hitless(trace_of(*SET_UP, TO_100, TO_200_AGAIN), 5), [])
        # Frames are dropped for one reason, and then for another.
        self.assertEqual(hitless(trace_of(SET_UP[2], SET_UP[3], SET_UP[1], SET_UP[0]), 0), [])

    def expected(self, requests: List[str], words: str, **options: int) -> List[Outcome]:
        """What is found of expectations; each frame that is shown is looked at by a unit, too."""
        outcomes = expect(trace_of(*requests), words, **options)
        for each in outcomes:
            self.assertEqual((type(each), each.holds), (Outcome, each.outcome == "holds"))
            self.assertEqual((each.frame is None, each.here is None), (each.outcome != "fails", each.outcome != "fails"))
            if each.frame is not None and each.here is not None:
                self.goes_so(requests[: each.version], each.port, each.frame, each.here)
        return outcomes

    def test_expectations(self) -> None:
        # Frames without a tag get one, the others leave as they came, and at a port without a mapper all are dropped.
        words = """\
257 tags=0 -> gem 1024 inner(pcp=0 vid=100 tpid=8100)

257 tags=0 -> gem 1024 unchanged # a remark
257 tags=1 outer(vid=5) -> leave
258 any -> leave
"""
        holds, fails, void, dropped = self.expected([*SET_UP, TO_100], words)
        self.assertEqual(holds, Outcome(1, 257, "holds", None, None, None, None))
        self.assertEqual(str(holds), "line 1 holds")
        assert fails.frame is not None and dropped.frame is not None
        self.assertEqual(fails.frame[12:14], b"\x08\0")
        tagged = fails.frame[:12] + bytes.fromhex("81000064") + fails.frame[12:]
        self.assertEqual(fails, Outcome(3, 257, "fails", None, None, fails.frame, Fate("entry", 0, Forwarded(1024, tagged))))
        self.assertEqual(str(fails), "line 3 fails: frame %s\n  entry 0 g 1024 %s" % (fails.frame.hex(), tagged.hex()))
        self.assertEqual(void, Outcome(4, 257, "void", None, None, None, None))
        self.assertEqual(str(void), "line 4 admits no frame")
        self.assertEqual((dropped.line, dropped.port, dropped.here), (5, 258, Fate("no-table", None, Dropped(Reason.NO_MAPPER))))
        self.assertEqual(str(dropped), "line 5 fails: frame %s\n  no-table d 5" % dropped.frame.hex())

    def test_expectations_of_each_version(self) -> None:
        requests, words = [*SET_UP, TO_100, DELETED, TO_200_AGAIN], "257 tags=0 -> inner(pcp=0 vid=100 tpid=8100)\n257 any -> leave\n"
        (fails, leaves) = self.expected(requests, words, from_line=5)
        assert fails.frame is not None
        self.assertEqual((fails.version, fails.trace_line, fails.here), (6, 6, Fate("entry", 0, Forwarded(1024, fails.frame))))
        self.assertTrue(str(fails).startswith("line 1 fails at version 6 trace line 6: frame %s\n" % fails.frame.hex()))
        self.assertTrue(leaves.holds)
        self.assertTrue(all(each.holds for each in self.expected(requests, words, from_line=5, until_line=5)))
        self.assertTrue(all(each.holds for each in self.expected(requests, words, until_line=5)))
        self.assertEqual([each.holds for each in expect(trace_of(*requests), words)], [False, True])
        (opening, anything) = self.expected(requests, "257 any -> leave\n257 any -> any\n", from_line=0)
        self.assertEqual((opening.version, opening.trace_line, opening.outcome, anything.outcome), (0, 0, "fails", "holds"))
        (void,) = expect("", "257 tags=1 outer(vid=5) -> leave", from_line=0)
        self.assertEqual(str(void), "line 1 admits no frame at version 0 trace line 0")

    def test_nothing_is_expected(self) -> None:
        for words in ("", "\n# remark\n"):
            self.assertEqual(expect(trace_of(*SET_UP), words), [])

    def test_expectations_have_a_least_length(self) -> None:
        (found,) = self.expected(SET_UP, "257 any -> drop", least=1500)
        assert found.frame is not None
        self.assertEqual(len(found.frame), 1500)

    def test_mistakes_of_expectations(self) -> None:
        folder = TOP / "examples/expect"
        with self.assertRaises(Mistakes) as raised:
            expect("", (folder / "mistakes.expected").read_bytes())
        self.assertEqual(str(raised.exception), (folder / "mistakes.said").read_text().rstrip("\n"))
        self.assertEqual((raised.exception.line, raised.exception.column, type(raised.exception)), (2, 16, Mistakes))
        self.assertEqual(raised.exception.mistakes[1], Mistake(3, 19, "a GEM port is at most 65535, found `70000`"))

    def test_all_is_as_the_program_writes_it(self) -> None:
        def stored(name: str, key: str) -> Tuple[str, List[Dict[str, Any]]]:
            folder = TOP / "examples/changes"
            found: List[Dict[str, Any]] = json.loads((folder / (name + ".json")).read_text())[key]
            return (folder / (name + ".trace")).read_text(), found

        def sides(found: Union[Difference, Tear]) -> Tuple[str, List[Dict[str, Any]]]:
            fates = [found.before, found.after] if isinstance(found, Difference) else [found.before, found.here, found.after]
            sent = [each.verdict for each in fates if isinstance(each.verdict, Forwarded)]
            return found.frame.hex(), [{"gem": each.gem, "frame": each.frame.hex()} for each in sent]

        def listed(found: Dict[str, Any]) -> Tuple[str, List[Dict[str, Any]]]:
            keys = [key for key in ("before", "here", "after") if key in found]
            return found["frame"], [{"gem": found[key]["gem"], "frame": found[key]["frame"]} for key in keys]

        trace, written = stored("overwritten", "differences")
        self.assertEqual([*map(sides, differences(trace, from_line=5))], [*map(listed, written)])
        trace, written = stored("deleted_and_set", "torn")
        self.assertEqual([*map(sides, hitless(trace, 5))], [*map(listed, written)])
        classes = json.loads((TOP / "examples/cover/up.json").read_text())["classes"]
        wanted = [(each["port"], each["use"], each["frame"]) for each in classes]
        outcomes = expect((TOP / "examples/looking/inside.trace").read_text(), (TOP / "examples/expect/inside.expected").read_text())
        said = (TOP / "examples/expect/inside.found").read_text()
        self.assertEqual("".join("%s\n" % each for each in outcomes), said[: said.index("expectations ")])
        self.assertEqual([(each.port, each.use, each.frame.hex()) for each in cover((TOP / "examples/run/up.trace").read_bytes())], wanted)

    def test_lists_of_any_length(self) -> None:
        # What is found of a table of 125 entries is longer than the room that is tried first.
        entry = "entry vlan 0x0701 tags=1 vid=%d -> remove=1 inner(pcp=inner vid=%d tpid=8100)\n"
        trace = encode(SET_UP_WORDS + "".join(entry % (vid, vid + 1) for vid in range(1, 126)))
        self.assertEqual(len(cover(trace)), 130)
        found = differences(trace, from_line=4, least=1500)
        self.assertEqual(len(found), 125)
        self.assertEqual({len(each.frame) for each in found}, {1500})
        outcomes = expect(trace, "".join("257 tags=1 vid=%d -> drop\n" % vid for vid in range(1, 126)), least=1500)
        self.assertEqual({len(each.frame or b"") for each in outcomes}, {1500})

    def test_what_is_refused(self) -> None:
        bad = "# remark\nx\n"
        calls: List[Callable[[], Any]] = [
            lambda: cover(bad),
            lambda: differences(bad, ""),
            lambda: differences(bad, bad),
            lambda: differences(bad, from_line=0),
            lambda: hitless(bad, 0),
            lambda: expect(bad, "257 any -> leave"),
            # That is told before what is wrong with the expectations.
            lambda: expect(bad, "257 any -> laeve"),
        ]
        for call in calls:
            with self.assertRaisesRegex(BadLine, "^line 2 is bad$") as raised:
                call()
            self.assertEqual((raised.exception.line, type(raised.exception)), (2, BadLine))
        with self.assertRaisesRegex(BadAfter, "^line 2 of the trace after is bad$") as raised_after:
            differences("", bad)
        self.assertEqual(raised_after.exception.line, 2)
        # No line behind the last one is read.
        self.assertEqual(differences(bad, bad, from_line=1, until_line=1), [])
        self.assertEqual(hitless(bad, 0, until_line=1), [])
        self.assertEqual(expect(bad, "", until_line=1), [])
        backward: List[Callable[[], Any]] = [
            lambda: differences("", from_line=2, until_line=1),
            lambda: hitless("", 2, until_line=1),
            lambda: expect("", "", from_line=2, until_line=1),
        ]
        for call in backward:
            with self.assertRaisesRegex(ValueError, "^from_line is behind until_line$"):
                call()
        self.assertEqual(differences("", "", from_line=2, until_line=1), [])
        with self.assertRaisesRegex(TypeError, "^differences needs after or from_line$"):
            differences("", until_line=1)

    def test_lines_and_lengths_are_numbers(self) -> None:
        wrong: Any = "1"
        calls: List[Tuple[str, Callable[[Any], Any]]] = [
            ("least", lambda given: cover("", least=given)),
            ("least", lambda given: differences("", "", least=given)),
            ("from_line", lambda given: differences("", from_line=given)),
            ("until_line", lambda given: differences("", "", until_line=given)),
            ("from_line", lambda given: hitless("", given)),
            ("until_line", lambda given: hitless("", 0, until_line=given)),
            ("least", lambda given: hitless("", 0, least=given)),
            ("from_line", lambda given: expect("", "", from_line=given)),
            ("until_line", lambda given: expect("", "", until_line=given)),
            ("least", lambda given: expect("", "", least=given)),
        ]
        for name, call in calls:
            with self.assertRaisesRegex(TypeError, "^%s must be an int, not str$" % name):
                call(wrong)
            with self.assertRaisesRegex(ValueError, "^%s is a number from 0" % name):
                call(-1)
        with self.assertRaisesRegex(ValueError, "^least is a number from 0 to 65535, not 65536$"):
            cover("", least=65536)
        self.assertEqual(differences("", from_line=2**70, until_line=2**80), [])
        self.assertEqual(expect("", "", from_line=2**70, until_line=1), [])


class TextTest(unittest.TestCase):
    def script(self) -> str:
        return "".join("o %s\n" % digits(request) for request in SET_UP) + "f 257 " + UNTAGGED + "\n"

    def answers(self) -> str:
        return "".join("r %s\n" % digits(reply) for reply in REPLIES) + "g 1024 " + UNTAGGED + "\n"

    def history(self, *seen: str) -> str:
        lines = []
        for request, reply in zip(SET_UP, REPLIES):
            lines += ["o " + digits(request), "r " + digits(reply)]
        return "\n".join(lines + ["o " + digits(TO_100), "f 257 " + UNTAGGED, "f 257 " + UNTAGGED] + list(seen)) + "\n"

    def test_a_script_is_answered(self) -> None:
        self.assertEqual(replay(self.script()), self.answers().encode())
        self.assertEqual(replay(b""), b"")

    def test_a_script_with_a_bad_line(self) -> None:
        with self.assertRaises(BadLine) as raised:
            replay(self.script() + "# remark\nx\n")
        self.assertEqual(raised.exception.line, 7)
        self.assertEqual(raised.exception.answers, self.answers().encode())

    def test_an_explained_history(self) -> None:
        found = judge(self.history("g 0 1024 " + UNTAGGED, "g 1 1024 " + ADDRESSES + "8100006408004500", "e"))
        self.assertTrue(found.explained)
        self.assertIsNone(found.line)
        self.assertEqual(found.details["messages"], 5)
        self.assertEqual(str(found), "explained")

    def test_a_unit_that_falls_back(self) -> None:
        history = self.history("g 0 1024 " + ADDRESSES + "8100006408004500", "g 1 1024 " + UNTAGGED, "e")
        found = judge(history)
        self.assertFalse(found.explained)
        self.assertEqual(found.line, 13)
        self.assertEqual(found.details["frame"]["number"], 1)
        self.assertIn("deviation at line 13", str(found))
        self.assertTrue(judge(history, unordered=True).explained)

    def test_classes_that_the_model_has_not(self) -> None:
        history = "o %s\nr %s\ne\n" % (digits("0001440a002d0001"), digits("0001240a002d0001"))
        self.assertEqual(judge(history).line, 2)
        self.assertTrue(judge(history, modelled=True).explained)

    def test_a_frame_that_leaves_again(self) -> None:
        history = self.history("g 0 1024 " + UNTAGGED, "s any " + UNTAGGED, "e")
        found = judge(history, modelled=True, unordered=True, padded=True, allow_unfinished=True)
        self.assertEqual((found.line, found.details["stray"]), (13, {"gem": "any", "frame": UNTAGGED}))
        self.assertEqual(judge(history, allow_strays=True).details["frames"]["strays"], 1)
        self.assertTrue(judge(history, allow_strays=True).explained)

    def test_frames_of_which_one_left(self) -> None:
        found = judge(self.history("a 1024 %s 0 1" % UNTAGGED, "e"))
        self.assertEqual((found.explained, found.details["frames"]["doubtful"], found.details["frames"]["open"]), (True, 2, 2))
        found = judge(self.history("a 1025 %s 0 1" % UNTAGGED, "e"))
        self.assertEqual((found.line, found.details["one_of"]["seen"]), (12, {"gem": 1025, "frame": UNTAGGED}))
        self.assertEqual([frame["number"] for frame in found.details["one_of"]["frames"]], [0, 1])

    def test_a_frame_that_is_padded(self) -> None:
        history = self.history("g 0 1024 " + UNTAGGED.ljust(120, "0"), "e")
        self.assertEqual(judge(history, modelled=True, unordered=True, allow_strays=True, allow_unfinished=True).line, 12)
        self.assertTrue(judge(history, padded=True).explained)

    def test_a_history_without_an_end(self) -> None:
        history = self.history("g 0 1024 " + UNTAGGED, "l 1")
        found = judge(history.replace("\nl 1", ""))
        self.assertEqual((found.explained, found.line, str(found)), (False, None, "explained so far: no end line"))
        self.assertEqual((found.details["finished"], found.details["evidence"]), (False, True))
        self.assertTrue(judge(history.replace("\nl 1", ""), allow_unfinished=True).explained)
        self.assertEqual(judge(history, allow_unfinished=True).line, 13)

    def test_a_history_without_evidence(self) -> None:
        found = judge(self.history("e"))
        self.assertEqual((found.explained, found.line, str(found)), (False, None, "explained so far: nothing was judged"))
        self.assertEqual(str(judge("# remark\n", allow_unfinished=True)), "explained so far: no end line, nothing was judged")

    def test_messages_that_are_repeated(self) -> None:
        history = "".join(2 * ["o %s\nr %s\n" % (digits(SET_UP[0]), digits(REPLIES[0]))]) + "e\n"
        self.assertEqual(judge(history).line, 4)
        self.assertTrue(judge(history, repeats=True).explained)

    def test_a_history_behind_a_script(self) -> None:
        start = "".join("o %s\n" % digits(request) for request in SET_UP) + "f 257 00\n"
        history = "w\nf 257 %s\ng 0 1024 %s\ne\n" % (UNTAGGED, UNTAGGED)
        self.assertEqual(judge(history).line, 3)
        kinds: List[Union[str, bytes, bytearray]] = [start, start.encode(), bytearray(start.encode())]
        for given in kinds:
            found = judge(history, start=given)
            self.assertEqual((found.explained, found.details["start"], found.deviations), (True, len(SET_UP), []))
        self.assertNotIn("start", judge(history, start="").details)
        with self.assertRaisesRegex(BadStart, "^start line 2 is bad$") as raised:
            judge("x", start="# remark\nr 00\n")
        self.assertEqual(raised.exception.line, 2)
        with self.assertRaisesRegex(TypeError, "^start must be str, bytes, bytearray or memoryview, not int$"):
            judge(history, start=7)  # type: ignore[arg-type]

    def test_what_was_tried(self) -> None:
        # The second frame left by the entry that line 9's request sets: version 5, whose entry 0 tags frames without a tag. The first left as it came:
        # that is what version 3 says, without a table. Where it waits for the replies to the set-up it is version 4, by a table's predefined entries.
        history = self.history("g 0 1024 " + UNTAGGED, "g 1 1024 " + ADDRESSES + "8100006408004500", "e")
        stretches = judge(history, coverage=True).coverage or []
        self.assertEqual([(each["port"], each["version"], each["seen"], each["classes"]) for each in stretches], [(257, 3, 1, 3), (257, 5, 1, 5)])
        waiting = history.replace("f 257", "w\nf 257", 1)
        stretches = judge(waiting, coverage=True).coverage or []
        self.assertEqual([(each["port"], each["version"], each["seen"], each["classes"]) for each in stretches], [(257, 4, 1, 5), (257, 5, 1, 5)])
        self.assertEqual([each.get("entry") for each in stretches[0]["unseen"]], [None, None, 1, 2])
        longer = judge(waiting, coverage=True, least=60).coverage or []
        self.assertEqual([[each.get("entry") for each in stretch["unseen"]] for stretch in longer], [[1, 2], [2, 3]])
        self.assertIsNone(judge(history).coverage)
        found = judge(self.history("g 0 1024 " + ADDRESSES + "8100006408004500", "g 1 1024 " + UNTAGGED, "e"), coverage=True, most=2)
        self.assertEqual((found.line, found.coverage, len(found.deviations)), (13, None, 1))
        with self.assertRaisesRegex(ValueError, "^coverage goes by the least versions of frames, and with unordered they have none$"):
            judge(history, coverage=True, unordered=True)
        with self.assertRaisesRegex(ValueError, "^least is said of coverage$"):
            judge(history, least=60)
        with self.assertRaisesRegex(ValueError, "^least is a number from 0 to 65535, not 65536$"):
            judge(history, coverage=True, least=65536)

    def test_every_deviation(self) -> None:
        history = self.history("g 0 1024 " + ADDRESSES + "8100006408004500", "g 1 1024 " + UNTAGGED, "s any 00", "e")
        for most, lines, more in ((1, [13], True), (2, [13, 14], False), (2**70, [13, 14], False)):
            found = judge(history, most=most)
            self.assertEqual((found.explained, found.line, found.details["more"]), (False, 13, more))
            self.assertEqual([each["line"] for each in found.deviations], lines)
        self.assertEqual([each["line"] for each in judge(history).deviations], [13])
        self.assertEqual(judge(history, most=9).deviations[1]["stray"], {"gem": "any", "frame": "00"})
        self.assertTrue(judge(history, most=9, unordered=True, allow_strays=True).explained)
        for wrong in (0, -1):
            with self.assertRaisesRegex(ValueError, "^at least one deviation is listed, not %d$" % wrong):
                judge(history, most=wrong)
        with self.assertRaisesRegex(TypeError, "^most must be an int, not str$"):
            judge(history, most="1")  # type: ignore[arg-type]

    def test_a_history_with_a_bad_line(self) -> None:
        with self.assertRaises(BadLine) as raised:
            judge("# remark\ng 0 1 00\n")
        self.assertEqual(raised.exception.line, 2)

    def test_version(self) -> None:
        proved = subprocess.run([TOP / "shell/version", "--proved"], stdout=subprocess.PIPE, check=True).stdout.decode()
        self.assertEqual(onuctl.version() + "\n", proved)
        number = subprocess.run([TOP / "shell/version"], stdout=subprocess.PIPE, check=True).stdout.decode()
        self.assertEqual(onuctl.__version__ + "\n", number)

    def test_examples_of_the_documentation(self) -> None:
        for module in (onuctl, steps):
            done = doctest.testmod(module)
            self.assertTrue(done.attempted and not done.failed, module)


if __name__ == "__main__":
    unittest.main()

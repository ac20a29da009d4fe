"""A plain judge of histories, to compare the program's with, by docs/FORMATS.md ("Histories", "Judgements") alone. It looks at each front of
a history by itself, tries each version at each frame, and takes the frames of a port one after the other. What a unit replies, and what
becomes of a frame by each version, it asks of a model that it is given. It is asked by the options of `judge`, and by the messages of the
script behind --start."""
import re

from model import LAYOUTS

HEX = rb"((?:[0-9A-Fa-f]{2})*)"
FRAME = HEX + rb"(\.\.)?"
GEM = rb"(any|[0-9]{1,5})"
NUMBER = rb"([0-9]{1,10})"
LINES = {kind: re.compile(pattern) for kind, pattern in (
    ("o", rb"o " + HEX), ("r", rb"r " + HEX), ("f", rb"f ([0-9]{1,5}) " + FRAME), ("g", rb"g " + NUMBER + b" " + GEM + b" " + FRAME),
    ("a", rb"a " + GEM + b" " + FRAME + b" ([0-9]{1,10}(?: [0-9]{1,10})*)"), ("s", rb"s " + GEM + b" " + FRAME), ("d", rb"d " + NUMBER),
    ("l", rb"l " + NUMBER), ("w", rb"w(?: " + NUMBER + b")?"), ("e", rb"e"))}
MOST_OF_NUMBER = 4294967295
MOST = {"f": [65535], "g": [MOST_OF_NUMBER, 65535], "a": [65535], "s": [65535], "d": [MOST_OF_NUMBER], "l": [MOST_OF_NUMBER],
        "w": [MOST_OF_NUMBER], "e": []}
MODELLED_ACTIONS = (4, 6, 8, 9, 26)
MODELLED_CLASSES = (130, 171, 266, 268)
# What is known of a frame is enough where it has as many bytes; and a wire makes a frame as long.
ENOUGH, LONG = 24, 68
# How many deviations are listed where nothing says it.
MOST_LISTED = 100
# What a reply stands for, each beside the number of a request from 0: the answer to a request of the history, which may be the next or a later
# one; to a repeat of one; to one of the script before the history; or, of a wrong one that is taken back, nothing.
ANSWER, REPEAT, OF_START, ABSENT = "answer", "repeat", "of start", "absent"


def own_places(action, entity, asked, reply):
    """The places of a reply where a real unit may have bytes of its own: values of read-only attributes, and a table."""
    if action == 26:
        return range(8, 40) if entity == 171 and asked[8:10] == b"\x04\x00" else ()
    if action != 9:
        return ()
    places, at = set(), 11
    for place, (width, access) in enumerate(LAYOUTS[entity]):
        if int.from_bytes(reply[9:11], "big") >> 15 - place & 1:
            width = 4 if access == "T" else width
            places.update(range(at, at + width) if access in "RT" else ())
            at += width
    return {place for place in places if place < 36}


class BadLine(Exception):
    """A line of a history is bad, the number of which is the argument."""


class Bytes:
    """The bytes of a frame, or those of its front where it had more."""

    def __init__(self, data, is_front):
        self.data, self.is_front = data, is_front

    def __str__(self):
        return self.data.hex() + (".." if self.is_front else "")

    def in_json(self):
        return {"front" if self.is_front else "frame": self.data.hex()}


def lines_of(text):
    """The lines of a text. A last piece without its line feed is one if it isn't empty."""
    lines = text.split(b"\n")
    return lines if lines[-1] else lines[:-1]


def event_of(line):
    """What a line says by itself, or None where it is bad: a letter and what follows it; and "" where it says nothing. A GEM port that wasn't
    seen is "any"."""
    if len(line) > 20000:
        return None
    line = line[:-1] if line.endswith(b"\r") else line
    if not line or line.startswith(b"#"):
        return ("",)
    kind = line[:1].decode("latin-1")
    found = LINES[kind].fullmatch(line) if kind in LINES else None
    if not found:
        return None
    if kind in "or":
        return kind, bytes.fromhex(found[1].decode())
    groups, named = list(found.groups()), []
    if kind == "a":
        named = [int(digits) for digits in groups.pop().split(b" ")]
        if named[-1] > MOST_OF_NUMBER or any(one >= other for one, other in zip(named, named[1:])):
            return None
    *numbers, data, end = groups if kind in "fgas" else (*groups, None, None)
    numbers = ["any" if digits == b"any" else digits and int(digits) for digits in numbers]
    if any(isinstance(value, int) and value > most for value, most in zip(numbers, MOST[kind])):
        return None
    seen = () if data is None else (Bytes(bytes.fromhex(data.decode()), end is not None),)
    return (kind, *numbers, *seen, named) if kind == "a" else (kind, *numbers, *seen)


def is_doubtful(number, doubts):
    """Whether one of the lines `a`, of which each names some frames, names the frame of a number."""
    return any(number in named for named in doubts)


def is_used_up(number, doubts):
    """Whether a line `a` names the frame, and at least as many of these lines as it names frames name no other frames than it."""
    return any(number in named and len(named) <= sum(1 for other in doubts if set(other) <= set(named)) for named in doubts)


def may_be_left(named, frames, ended, doubts):
    """Whether one of the frames that a line `a` names may have left behind the lines above, which sent so many frames."""
    may = all(number < frames and number not in ended and not is_used_up(number, doubts) for number in named)
    return may and (len(named) > 1 or is_doubtful(named[0], doubts))


def read_history(text):
    """The events of a history, one for each line."""
    events, frames, replies, ended, doubts, is_over = [], 0, 0, set(), [], False
    for number, line in enumerate(lines_of(text), 1):
        event = event_of(line)
        if event is None or is_over and event[0]:
            raise BadLine(number)
        is_over = is_over or event[0] == "e"
        frames += event[0] == "f"
        replies += event[0] == "r"
        if event[0] in ("g", "d", "l"):
            if event[1] >= frames or event[1] in ended or is_doubtful(event[1], doubts):
                raise BadLine(number)
            ended.add(event[1])
        if event[0] == "a":
            if not may_be_left(event[3], frames, ended, doubts):
                raise BadLine(number)
            doubts.append(event[3])
        if event[0] == "w" and event[1] is not None and event[1] > replies:
            raise BadLine(number)
        events.append(event)
    return events


def may_be(leaves, seen, is_padded):
    """Whether what would leave may be what was seen. Each is whole or a front; they are the same as far as both go, and a whole one is longer
    than the front beside it. A whole frame that is padded may have zeros behind it."""
    least = most = leaves.data
    if is_padded and not leaves.is_front:
        most = least.ljust(LONG, b"\0")
    both = min(len(most), len(seen.data))
    if most[:both] != seen.data[:both]:
        return False
    if leaves.is_front and seen.is_front:
        return True
    if leaves.is_front:
        return len(seen.data) > len(least)
    return len(most) > len(seen.data) if seen.is_front else len(least) <= len(seen.data) <= len(most)


class Frame:
    """A frame that was sent into a port, and the place of the event that ended it, if one did."""

    def __init__(self, number, place, port, data):
        self.number, self.sent, self.port, self.data, self.place = number, place, port, data, None

    def is_known(self):
        """Of a frame of which too little is known nothing is said."""
        return not self.data.is_front or len(self.data.data) >= ENOUGH

    def is_judged(self):
        """One that isn't known is as one that hasn't ended."""
        return self.place is not None and self.is_known()


class Request:
    """A message without a fault that is carried out, at a place, or before all others: what the model replies, whether it wants that, and whether
    it is accepted."""

    def __init__(self, place, data, answer):
        self.place, self.data = place, data
        self.reply, self.wants, self.is_accepted = answer

    def has_head_of(self, seen):
        """Whether bytes are spelled as a reply with the head of this one's."""
        return len(seen) in (44, 48) and seen[:8] == self.reply[:8]

    def is_answered_by(self, seen, modelled):
        """Whether bytes are a right reply."""
        action, entity = self.data[2] & 31, int.from_bytes(self.data[4:6], "big")
        whole = not modelled or action == 15 or action in MODELLED_ACTIONS and entity in MODELLED_CLASSES
        own = own_places(action, entity, self.data, self.reply) if modelled and whole else ()
        return self.has_head_of(seen) and all(seen[at] == self.reply[at] or at in own for at in range(8, 40 if whole else 8))


class Shown:
    """What a history shows behind a script that was carried out first. A model gives of messages and frames what each message is answered, as
    (reply, wants an answer, is accepted) or None where it has a fault, and of each frame its fate by each version: (GEM port, bytes), or the
    reason of its drop. The event "x" is a reply that was wrong, and is taken for what it can be."""

    def __init__(self, events, model, options, start=()):
        self.events, self.options = events, options
        self.modelled, self.unordered = "--modelled" in options, "--unordered" in options
        self.frames = []
        for place, event in enumerate(events):
            if event[0] == "f":
                self.frames.append(Frame(len(self.frames), place, event[1], event[2]))
            elif event[0] in ("g", "d", "l"):
                self.frames[event[1]].place = place
        messages = [(place, event[1]) for place, event in enumerate(events) if event[0] == "o"]
        again = [here for before, here in zip(messages, messages[1:]) if before[1] == here[1]] if "--repeats" in options else []
        sent = [*((-1, data) for data in start), *(message for message in messages if message not in again)]
        answers, fates = model([data for _, data in sent], [(frame.port, frame.data.data) for frame in self.frames])
        requests = [Request(*message, answer) for message, answer in zip(sent, answers) if answer is not None]
        begun, self.asked = ([request for request in requests if (request.place < 0) == is_begun] for is_begun in (True, False))
        # Versions begin behind the script.
        self.base = sum(1 for request in begun if request.is_accepted)
        self.fates = [by_version[self.base:] for by_version in fates]
        self.begun, self.waiting = ([request for request in part if request.wants] for part in (begun, self.asked))
        # The place of each repeat, and the number of the request that it repeats, if that wants an answer.
        self.again = [(place, number) for place, data in again for number in [self.waiting_before(place) - 1]
                      if number >= 0 and self.waiting[number].data == data]
        self.stands = []
        for place, event in enumerate(events):
            if event[0] in ("r", "x"):
                self.stands.append((place, *(self.standing_of if event[0] == "r" else self.excuse_of)(place, event[1])))
        self.ended = [frame for frame in self.frames if frame.is_judged()]
        self.doubts = [event[3] for event in events if event[0] == "a"]
        for frame in self.frames:
            frame.least = self.least_at(frame.sent)
        for frame in self.ended:
            frame.most = self.accepted_before(frame.place)
            frame.fitting = [version for version in range(frame.least, frame.most + 1) if self.is_seen(frame, version)]

    def accepted_before(self, place):
        return sum(1 for request in self.asked if request.is_accepted and request.place < place)

    def waiting_before(self, place):
        """How many requests above a place want an answer."""
        return sum(1 for request in self.waiting if request.place < place)

    def reached(self, replies, *kinds):
        """How many requests are answered or left out with the first replies, so many, by those of them that stand for something of some kind."""
        return max((number + 1 for _, kind, number in self.stands[:replies] if kind in kinds), default=0)

    def next_of(self, replies):
        """The number of the request that is next to be answered behind so many replies."""
        return self.reached(replies, ANSWER, REPEAT)

    def answers_again(self, place, seen, number):
        """Whether a reply at a place answers a repeat of the request of this number, which was answered last."""
        if number < 0 or number >= self.waiting_before(place):
            return False
        repeats = sum(1 for where, repeated in self.again if where < place and repeated == number)
        replies = sum(1 for _, *stands in self.stands if stands == [REPEAT, number])
        waiting = self.waiting[number + 1:self.waiting_before(place)]
        return repeats > replies and self.waiting[number].is_answered_by(seen, self.modelled) and all(
            request.data[:2] != self.waiting[number].data[:2] for request in waiting)

    def standing_of(self, place, seen):
        """What a reply at a place stands for, which may be wrong as that."""
        replies = len(self.stands)
        number = self.next_of(replies)
        if self.answers_again(place, seen, number - 1):
            return REPEAT, number - 1
        if not self.count_before("o", place):
            for other in range(self.reached(replies, OF_START), len(self.begun)):
                if self.begun[other].is_answered_by(seen, self.modelled):
                    return OF_START, other
        return ANSWER, number

    def excuse_of(self, place, seen):
        """For what a wrong reply at a place is taken: the answer to the first request that waits and has its head, nothing where it has the head of
        an earlier one or none waits, and else the answer to the next."""
        number, behind = self.next_of(len(self.stands)), self.waiting_before(place)
        for other in range(number, behind):
            if self.waiting[other].has_head_of(seen):
                return ANSWER, other
        is_early = any(request.has_head_of(seen) for request in [*self.begun, *self.waiting[:number]])
        return (ABSENT, 0) if is_early or number >= behind else (ANSWER, number)

    def count_before(self, kind, place):
        return sum(1 for event in self.events[:place] if event[0] == kind)

    def least_at(self, place):
        """The least version of a frame that is sent at a place."""
        most = 0
        for before in range(place):
            if self.events[before][0] == "w":
                number = self.events[before][1]
                replies = sum(1 for where, _, _ in self.stands if where < before)
                most = max(most, self.next_of(replies if number is None else number))
        return self.accepted_before(self.waiting[most - 1].place + 1) if 0 < most <= len(self.waiting) else 0

    def left_by(self, frame, fate):
        """What would leave of a frame: of its front, the front."""
        return Bytes(fate[1], frame.data.is_front)

    def leaves_so(self, frame, version, gem, seen):
        """Whether a frame leaves by a version as one was seen to."""
        fate = self.fates[frame.number][version]
        return isinstance(fate, tuple) and gem in ("any", fate[0]) and may_be(self.left_by(frame, fate), seen, "--padded" in self.options)

    def is_seen(self, frame, version):
        """Whether a frame ended as by a version."""
        event = self.events[frame.place]
        if event[0] != "g":
            return not isinstance(self.fates[frame.number][version], tuple)
        return self.leaves_so(frame, version, event[2], event[3])

    def may_be_one(self, place):
        """Whether one of the frames that a line `a` names may have left so, each by itself: too little is known of it, or some version of its
        window lets it. The window ends with this line."""
        _, gem, seen, named = self.events[place]
        versions = range(self.accepted_before(place) + 1)
        return any(not frame.is_known() or any(self.leaves_so(frame, version, gem, seen) for version in versions[frame.least:])
                   for frame in (self.frames[number] for number in named))

    def request_before(self, place):
        """The request that a reply at a place answers, if one waits, and a reply to a request of this history."""
        number = next(number for where, kind, number in self.stands if where == place and kind == ANSWER)
        return self.waiting[number] if number < self.waiting_before(place) else None

    def is_right_reply(self, place):
        if (place, ANSWER) not in [(where, kind) for where, kind, _ in self.stands]:
            return True
        request = self.request_before(place)
        return request is not None and request.is_answered_by(self.events[place][1], self.modelled)

    def least_versions(self, front):
        """The least version of each frame that ended before a place, or None where one has none."""
        chosen = []
        for frame in self.ended:
            if frame.place < front:
                bound = max((version for port, version in chosen if port == frame.port and not self.unordered), default=0)
                version = next((version for version in frame.fitting if version >= bound), None)
                if version is None:
                    return None
                chosen.append((frame.port, version))
        return chosen

    def bounds(self, frame):
        """The least and the greatest version that the frames which ended before a frame leave to it."""
        if self.unordered:
            return frame.least, frame.most
        before = [other for other in self.ended if other.place < frame.place and other.port == frame.port]
        least = 0
        for other in before:
            if other.number < frame.number:
                least = min(version for version in other.fitting if version >= least)
        most = len(self.asked)
        for other in reversed(before):
            if other.number > frame.number:
                most = max(version for version in other.fitting if version <= most)
        return max(frame.least, least), min(frame.most, most)

    def runs(self, frame, least, most):
        """The versions from one to another, joined where they do the same to a frame."""
        found = []
        for version in range(least, most + 1):
            fate = self.fates[frame.number][version]
            does = {"gem": fate[0], **self.left_by(frame, fate).in_json()} if isinstance(fate, tuple) else {"reason": fate}
            if found and {key: found[-1][key] for key in found[-1] if key not in ("from", "to")} == does:
                found[-1]["to"] = version
            else:
                found.append({"from": version, "to": version, **does})
        return found

    def counts(self):
        """What became of all frames; the lines of strays; and the frames that are doubtful, or of which only a front is known."""
        ends = [self.events[frame.place][0] for frame in self.ended]
        return {"forwarded": ends.count("g"), "dropped": ends.count("d"), "open": len(self.frames) - len(ends),
                "strays": self.count_before("s", len(self.events)), "doubtful": len({number for named in self.doubts for number in named}),
                "lost": ends.count("l"), "cut": sum(1 for frame in self.frames if frame.data.is_front)}

    def explained(self, chosen):
        events, steps, last = self.events, [], {}
        for (port, version), frame in zip(chosen, self.ended):
            if version > last.get(port, 0):
                steps.append({"port": port, "version": version, "frame": frame.number, "line": frame.sent + 1})
            last[port] = version
        messages, replies = (self.count_before(kind, len(events)) for kind in "or")
        is_finished = ("e",) in events
        # Replies alone are no evidence of what became of frames, and neither is a line that a frame explains of which too little is known.
        has_judged = bool(self.ended) or any(all(self.frames[number].is_known() for number in named) for named in self.doubts)
        has_evidence = has_judged if self.frames else any(kind != OF_START for _, kind, _ in self.stands)
        return {"explained": has_evidence and (is_finished or "--allow-unfinished" in self.options), "finished": is_finished,
                "evidence": has_evidence, "messages": messages, "accepted": self.accepted_before(len(events)), "replies": replies,
                "frames": self.counts(), "versions": [] if self.unordered else steps}

    def wrong_reply(self, place):
        request = self.request_before(place)
        return {"reply": {"request_line": request and request.place + 1, "seen": self.events[place][1].hex(),
                          "model": request and request.reply.hex()}}

    def of_frame(self, frame, least, most):
        """What is said of a frame and of the versions from one to another."""
        bounds = {"at_least": least, "at_most": most, "versions": self.runs(frame, least, most)}
        return {"number": frame.number, "port": frame.port, "sent_line": frame.sent + 1}, bounds

    def wrong_frame(self, frame):
        event = self.events[frame.place]
        seen = {"d": "dropped", "l": "lost"}[event[0]] if event[0] != "g" else {"gem": event[2], **event[3].in_json()}
        sent, bounds = self.of_frame(frame, *self.bounds(frame))
        return {"frame": {**sent, "seen": seen, **bounds}}

    def wrong_one(self, place):
        _, gem, seen, named = self.events[place]
        frames = [self.of_frame(self.frames[number], self.frames[number].least, self.accepted_before(place)) for number in named]
        return {"one_of": {"seen": {"gem": gem, **seen.in_json()}, "frames": [{**sent, **bounds} for sent, bounds in frames]}}

    def wrong_at(self, place):
        """What no right unit does at a place, or None where the events up to there are explained as those before them are."""
        event = self.events[place]
        if event[0] == "r" and not self.is_right_reply(place):
            return self.wrong_reply(place)
        if event[0] == "s" and "--allow-strays" not in self.options:
            return {"stray": {"gem": event[1], **event[2].in_json()}}
        if event[0] == "a" and not self.may_be_one(place):
            return self.wrong_one(place)
        if event[0] in ("g", "d", "l") and self.least_versions(place + 1) is None:
            return self.wrong_frame(self.frames[event[1]])
        return None

    def judge(self):
        """What is found: the first line that deviates, or that none does."""
        for place in range(len(self.events)):
            wrong = self.wrong_at(place)
            if wrong:
                return {"line": place + 1, **wrong}
        return self.explained(self.least_versions(len(self.events)))


def taken_back(events, line):
    """The events without what a line claims. A wrong reply is taken for what it can be, and any other line says nothing."""
    kind, *more = events[line - 1]
    return [*events[:line - 1], ("x", *more) if kind == "r" else ("",), *events[line:]]


def judge(text, model, options=(), start=None):
    """What is found of a history, as `judge --json` writes it. The messages are those of the script behind --start, if it is given. Raises
    BadLine."""
    events = read_history(text)
    shown = Shown(events, model, options, start or ())
    front = {"format": 2} if start is None else {"format": 2, "start": shown.base}
    found = shown.judge()
    if "line" not in found or "--all" not in options:
        return {**front, "explained": False, **found}
    most = int(options[options.index("--most") + 1]) if "--most" in options else MOST_LISTED
    deviations = []
    while "line" in found and len(deviations) < most:
        deviations.append(found)
        events = taken_back(events, found["line"])
        found = Shown(events, model, options, start or ()).judge()
    return {**front, "explained": False, "deviations": deviations, "more": "line" in found}


def deviations_in(found):
    """The deviations that are found, the first or all."""
    return found.get("deviations", [found] if "line" in found else [])


def status_of(found):
    """The status of `judge`: explained, a deviation, or neither."""
    return 0 if found["explained"] else 3 if deviations_in(found) else 4


def left_in_words(left):
    """A frame that left, and by which GEM port."""
    return f"{left['gem']} {left['frame']}" if "frame" in left else f"{left['gem']} {left['front']}.."


def end_of(found):
    """How a frame left or was dropped, in a line."""
    return f"d {found['reason']}" if "reason" in found else f"g {left_in_words(found)}"


def line_of_sent(frame):
    """Which frame it is."""
    return f"frame {frame['number']}, sent into port {frame['port']} at line {frame['sent_line']}"


def lines_of_versions(frame):
    for run in frame["versions"]:
        first, last = run["from"], run["to"]
        yield (f"version {first} " if first == last else f"versions {first} to {last} ") + end_of(run)


def lines_of_frame(frame):
    seen = frame["seen"]
    yield line_of_sent(frame)
    yield {"dropped": "seen d", "lost": "not seen to leave"}[seen] if isinstance(seen, str) else f"seen g {left_in_words(seen)}"
    yield from lines_of_versions(frame)
    if not frame["versions"]:
        least, most = frame["at_least"], frame["at_most"]
        yield f"no version is left: at least {least} by frames before it or by what was waited for, at most {most}"


def lines_of_one(one_of):
    """The frames of which one was seen to leave, and what each of their versions does to them."""
    yield "one of the frames " + " ".join(str(frame["number"]) for frame in one_of["frames"])
    yield f"seen a {left_in_words(one_of['seen'])}"
    for frame in one_of["frames"]:
        yield line_of_sent(frame)
        yield from lines_of_versions(frame)


def sent_in(found):
    """How many frames were sent."""
    return sum(found["frames"][key] for key in ("forwarded", "dropped", "lost", "open"))


def lines_of_end(found, options):
    """Whether it is a pass, and why it isn't."""
    if found["explained"]:
        yield "explained"
        return
    if not found["finished"] and "--allow-unfinished" not in options:
        yield "unfinished: the history has no end line; it may be cut"
    if not found["evidence"]:
        sent = sent_in(found)
        yield f"no frame was judged: {sent} were sent" if sent else "nothing was judged: no reply, no frame that ended"


def lines_of_explained(found, options):
    """The lines of a history without a deviation."""
    frames = found["frames"]
    more = "".join(f" {key} {frames[key]}" for key in ("strays", "doubtful", "lost", "cut") if frames[key])
    yield f"messages {found['messages']} accepted {found['accepted']} replies {found['replies']}"
    yield f"frames {sent_in(found)} forwarded {frames['forwarded']} dropped {frames['dropped']} open {frames['open']}{more}"
    for step in found["versions"]:
        yield f"port {step['port']} version {step['version']} from frame {step['frame']} line {step['line']}"
    yield from lines_of_end(found, options)


def lines_of_reply(reply):
    asked = reply["request_line"]
    yield "a reply, and no request waits for one" if asked is None else f"reply to the request at line {asked}"
    yield f"seen r {reply['seen']}"
    if asked is not None:
        yield f"model r {reply['model']}"


def lines_of_deviation(found):
    """The lines of a deviation, but for those of what differs."""
    yield f"deviation at line {found['line']}"
    if "stray" in found:
        yield "a frame left that no open frame can be"
        yield f"seen s {left_in_words(found['stray'])}"
    elif "one_of" in found:
        yield from lines_of_one(found["one_of"])
    elif "frame" in found:
        yield from lines_of_frame(found["frame"])
    else:
        yield from lines_of_reply(found["reply"])


def in_words(found, options=(), below=lambda deviation: ()):
    """The lines that `judge` writes of what is found, by the options of `judge`. What stands below a deviation is given."""
    if "start" in found:
        yield f"start {found['start']}"
    for deviation in deviations_in(found):
        yield from lines_of_deviation(deviation)
        yield from below(deviation)
    if "deviations" in found:
        yield f"deviations {len(found['deviations'])}{' and more' if found['more'] else ''}"
    elif "line" not in found:
        yield from lines_of_explained(found, options)

"""What becomes of a frame by the model of a unit, with what is used for it; and the units after each accepted message of a list."""
import copy

import draws as drawing
import model

CHANGING = (drawing.CREATE, drawing.DELETE, drawing.SET, drawing.RESET)


def use_of(unit, port, frame):
    """What is used for a frame at a port: a word, and of an entry its number in the order in which entries are tried."""
    table = unit.table_of(port)
    try:
        tags, rest = model.read_frame(frame, table.number(3) if table else 0x8100)
    except model.Dropped:
        return {"use": "unread"}
    if table is None:
        return {"use": "no-table"}
    rules = sorted(map(model.rule_of, table.table), key=lambda rule: rule.rank)
    for number, rule in enumerate(rules):
        if rule.matches(tags, model.number(rest[:2]), table.number(3)):
            return {"use": "entry", "entry": number}
    return {"use": "no-entry"}


def fate_of(unit, port, frame):
    """What becomes of a frame, with the keys of `--json` but for the words of a reason."""
    mark, *rest = unit.verdict(port, frame).split(" ")
    ending = {"reason": int(rest[0])} if mark == "d" else {"gem": int(rest[0]), "frame": rest[1]}
    return {**use_of(unit, port, frame), **ending}


def is_accepted(unit, data):
    """Carries a message out, and gives whether it is accepted."""
    return unit.carry_out(data[2] & 31, model.number(data[4:6]), model.number(data[6:8]), data[8:40])[:1] == b"\0" and data[2] & 31 in CHANGING


def versions_of(messages):
    """The units after so many accepted messages, and the line of each."""
    unit = model.Unit()
    versions = [(copy.deepcopy(unit), 0)]
    for line, data in enumerate(messages, 1):
        if is_accepted(unit, data):
            versions.append((copy.deepcopy(unit), line))
    return versions

"""What the messages of `migrate` do to a unit (tests/plainly/model.py): where two name one port, and by which way they go."""
import copy

import draws as drawing
from fates import is_accepted

NO_MAPPER = 0xFFFF
REMARK = b"two at one port until line "


def hidden_of(unit):
    """The mappers, and the tables, that name what another of a lesser number names."""
    hidden = set()
    for n, mapper in unit.held[drawing.MAPPER].items():
        if mapper.number(13) == 1 and unit.mapper_of(mapper.number(1)) != n:
            hidden.add((drawing.MAPPER, n))
    firsts = {}
    for n, table in sorted(unit.held[drawing.TABLE].items()):
        to = table.number(1), table.number(7)
        if to[0] in (1, 2) and to != (1, NO_MAPPER) and firsts.setdefault(to, n) != n:
            hidden.add((drawing.TABLE, n))
    return hidden


def is_tied(before, here, goal):
    """Whether two name one port here, and neither before nor in the goal."""
    return bool(hidden_of(here) - hidden_of(before) - hidden_of(goal))


def tied_until(ties):
    """Of each message, the line of the one that ends what begins with it: that two name one port. A message has two lines."""
    ends = []
    for place, tied in enumerate(ties):
        begins = tied and not (place and ties[place - 1])
        end = next((n for n in range(place, len(ties)) if not ties[n]), None) if begins else None
        ends.append(None if end is None else 2 * end + 2)
    return ends


def messages_in(script):
    return [bytes.fromhex(line[2:].decode()) for line in script.splitlines() if line.startswith(b"o ")]


def remarks_in(script):
    """Of each message, the line up to which its remark says that two name one port."""
    remarks = [line for line in script.splitlines() if line.startswith(b"#")]
    return [int(line.split(REMARK)[1]) if REMARK in line else None for line in remarks]


def units_along(before, messages):
    """The units behind each message, and whether each was accepted."""
    unit = copy.deepcopy(before)
    for data in messages:
        accepted = is_accepted(unit, data)
        yield copy.deepcopy(unit), accepted


def held_in(units):
    """The instances, and the keys of tables, that some units have."""
    things = set()
    for unit in units:
        for entity, held in unit.held.items():
            things |= {(entity, n) for n in held}
        things |= {(n, entry[:8]) for n, table in unit.held[drawing.TABLE].items() for entry in table.table}
    return things


def way_of(before, goal, units):
    """The way by which units between go: what is made for it alone tells it."""
    made = held_in(units) - held_in([before, goal])
    mapper, table = (any(thing[0] == entity and isinstance(thing[1], int) for thing in made) for entity in (drawing.MAPPER, drawing.TABLE))
    if mapper or table:
        return "mapper and table aside" if mapper and table else "mapper aside" if mapper else "table aside"
    if any(thing[0] in (drawing.GEM_PORT, drawing.INTERWORK) and isinstance(thing[1], int) for thing in made):
        return "chain aside"
    return "understudy" if made else "in place"

"""Delta lines by chance: some as a replica makes them, others with stamps, counts and pairs that none would make."""
import json

from .deltas import COUNT_LIMIT, LAST_TIME
from .places import CELL_OF

REPLICAS = (1, 1, 2, 2, 3, 16, 31, 32)
COUNTS = (0, 0, 1, 2, 3, 5, 1000000, COUNT_LIMIT - 1000000, COUNT_LIMIT - 1, COUNT_LIMIT)
OPTIONS = (0, 1, 2, 7, 62, 63)
SEQUENCES = (1, 1, 2, 3, 4, 254, 255, 256)
WRONG = (None, True, False, -1, 0, 1.0, 1.5, 33, 64, 257, LAST_TIME + 1, COUNT_LIMIT + 1, 2**63, 2**64, "", "1", "A1",
         "B2", "a1", "01", "=[.$A$1]", "x", "'", "\x01", "\u00e9", "'\U0001f600", [], [[]], [1], [1, 1, 1],
         [1, 1, 1, 1], {}, {"A1": 1})
BEFORE, AFTER = ("", " ", "\t"), ("", " ", "\r\t")
BLANKS = ((",", ":"), (", ", ": "), (" ,", ":"), (",\t", ":"), ("\r,  ", ":"))


def time_of(chance, known):
    """A time about the one that is known, or at an end of all times."""
    if chance.random() < 0.04:
        return chance.of((LAST_TIME, LAST_TIME - 1, LAST_TIME - 2, 2**32, 2**31, 2**52))
    return max(1, known + chance.of((-2, -1, 0, 0, 1, 1, 2)))


def register(chance, texts, state):
    """The JSON value of a register with one of these texts, whose stamp is about that of the state, or the same."""
    if chance.random() < 0.25:
        return None
    time, replica = state.register[:2] if state.register else (1, 1)
    return [time_of(chance, time), chance.of((replica, *REPLICAS)), chance.of(texts).decode()]


def counts(chance, state):
    """The JSON value of counts, about those of the state."""
    replicas = sorted({chance.of(REPLICAS) for _ in range(chance.of((0, 0, 0, 1, 1, 2, 4)))})
    known = {replica: [*state.counts.get(replica, (1, 0))] for replica in replicas}
    for own in known.values():
        if chance.once_in(2):
            own[chance.of((0, 1))] = chance.of(COUNTS)
    return [[replica, *own] for replica, own in known.items() if any(own)]


def pairs(chance, state):
    """The JSON value of pairs, some of them in the state."""
    found = {(chance.of(OPTIONS), chance.of(REPLICAS), chance.of(SEQUENCES)): chance.of((0, 0, 0, 1))
             for _ in range(chance.of((0, 0, 0, 0, 1, 1, 2, 5)))}
    if state.pairs and chance.once_in(2):
        found[chance.of([*state.pairs])] = chance.of((0, 1))
    return [[*pair, found[pair]] for pair in sorted(found)]


def value(chance, names, texts, sheet):
    """The JSON value of a delta of one to six of these cells, with contents of these texts."""
    cells = sorted({chance.of(names) for _ in range(chance.of((1, 1, 1, 2, 3, 6)))}, key=CELL_OF.get)
    found = []
    for name in cells:
        state = sheet.state(CELL_OF[name])
        parts = register(chance, texts, state), counts(chance, state), pairs(chance, state)
        if any(parts):
            found.append([name.decode(), *parts])
    return found or [[names[0].decode(), [1, 1, "1"], [], []]]


def spoil(chance, value):
    """Puts something wrong somewhere into the value."""
    while True:
        place = chance.randrange(len(value))
        if type(value[place]) is list and value[place] and chance.random() < 0.8:
            value = value[place]
            continue
        kind = chance.random()
        if kind < 0.6:
            value[place] = chance.of(WRONG)
        elif kind < 0.7:
            value.insert(place, value[place])
        elif kind < 0.8:
            del value[place]
        else:
            value[place], value[place - 1] = value[place - 1], value[place]
        return


def spelled(chance, value):
    """The value as JSON, mostly as it is written, and else in other spellings."""
    if chance.random() < 0.8:
        return json.dumps(value, ensure_ascii=False, separators=BLANKS[0]).encode()
    text = json.dumps(value, ensure_ascii=chance.once_in(2), separators=chance.of(BLANKS))
    letter = chance.of(tuple('A=1@.[é"5'))
    if letter not in '"15.[' or chance.once_in(9):
        text = text.replace(letter, chance.of((f"\\u{ord(letter):04x}", f"\\u{ord(letter):04X}")))
    return f"{chance.of(BEFORE)}{text}{chance.of(AFTER)}".encode()


def hostile(chance, names, texts, sheet):
    """A delta line over these cells that nobody made by editing; one in some is wrong."""
    found = value(chance, names, texts, sheet)
    if chance.random() < 0.12:
        spoil(chance, found)
    line = spelled(chance, found)
    return chance.changed(line) if chance.random() < 0.05 else line

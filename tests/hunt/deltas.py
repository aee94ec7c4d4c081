"""What cells hold, how it is joined, and the lines of deltas ("Joins", "Delta lines").

The register of a cell is `(time, replica, content)`, or `()` where nothing was assigned, so that the greater of two is
that of tuples. Counts are a map from replicas to what each added and subtracted, pairs one from option, replica and
sequence to 1 where the pair is removed, else 0. A delta is a map from cells to what it has of each.
"""
import functools
import json
from typing import NamedTuple

from sizes import LONGEST_DELTA

from .contents import canonical_text, read_canonical
from .places import CELL_OF, NAMES

LAST_TIME, COUNT_LIMIT, REPLICAS, OPTIONS, SEQUENCES = 2**53 - 1, 2**40, 32, 64, 256


class NoDelta(Exception):
    """The value is that of no delta."""


class State(NamedTuple):
    """What a cell holds, or what a delta has of it."""

    register: tuple
    counts: dict
    pairs: dict


EMPTY = State((), {}, {})
COMPACT = json.JSONEncoder(ensure_ascii=False, separators=(",", ":"))


# -- Joins

def greater_counts(one, other):
    """The greater of what was added, and of what was subtracted."""
    return max(one[0], other[0]), max(one[1], other[1])


def merged(one, other, join):
    """Both maps, with the join of two values of one key."""
    if not one or not other:
        return one or other
    both = dict(one)
    for key, value in other.items():
        both[key] = join(both[key], value) if key in both else value
    return both


def joined(one, other):
    """The join of two states of a cell."""
    counts = merged(one.counts, other.counts, greater_counts)
    return State(max(one.register, other.register), counts, merged(one.pairs, other.pairs, max))


def news(state, other):
    """What is new of the other state: the least state whose join with the first one is the join of both."""
    counts = {replica: tuple(new if new > known else 0 for known, new in zip(state.counts.get(replica, (0, 0)), own))
              for replica, own in other.counts.items()}
    pairs = {pair: gone for pair, gone in other.pairs.items() if gone > state.pairs.get(pair, -1)}
    register = other.register if other.register > state.register else ()
    return State(register, {replica: own for replica, own in counts.items() if any(own)}, pairs)


def made_by(replica, state):
    """What a replica made of a state of a cell. Any replica can have taken a pair of it out."""
    register = state.register if state.register and state.register[1] == replica else ()
    counts = {other: count for other, count in state.counts.items() if other == replica}
    return State(register, counts, {pair: 0 for pair in state.pairs if pair[1] == replica})


def joined_deltas(deltas):
    """The join of some deltas."""
    both = {}
    for delta in deltas:
        both = merged(both, delta, joined)
    return both


# -- Lines

def state_value(cell, state):
    """The JSON value of what a delta has of a cell."""
    register = [*state.register[:2], canonical_text(state.register[2]).decode()] if state.register else None
    counts = [[replica, *state.counts[replica]] for replica in sorted(state.counts)]
    return [NAMES[cell].decode(), register, counts, [[*pair, state.pairs[pair]] for pair in sorted(state.pairs)]]


def delta_line(delta):
    """The compact text of a delta."""
    return COMPACT.encode([state_value(cell, delta[cell]) for cell in sorted(delta)]).encode()


def demand(holds):
    """Ends the reading unless this holds."""
    if not holds:
        raise NoDelta


def entries_of(value, *ranges):
    """The entries of an array: each an array of so many whole numbers in their ranges, both ends included."""
    demand(type(value) is list)
    for entry in value:
        demand(type(entry) is list and len(entry) == len(ranges))
        for number, (least, most) in zip(entry, ranges):
            if type(number) is not int or not least <= number <= most:
                raise NoDelta
    return [tuple(entry) for entry in value]


def ascending(keys):
    """These keys, which have to be ascending and distinct."""
    demand(keys == sorted(set(keys)))
    return keys


def register_of(value):
    """The register with this JSON value."""
    if value is None:
        return ()
    demand(type(value) is list and len(value) == 3 and type(value[2]) is str)
    (stamp,) = entries_of([value[:2]], (1, LAST_TIME), (1, REPLICAS))
    content = read_canonical(value[2].encode())
    demand(content is not None)
    return (*stamp, content)


def counts_of(value):
    """The counts with this JSON value."""
    entries = entries_of(value, (1, REPLICAS), (0, COUNT_LIMIT), (0, COUNT_LIMIT))
    demand(all(added or subtracted for _, added, subtracted in entries))
    return dict(zip(ascending([entry[0] for entry in entries]), (entry[1:] for entry in entries)))


def pairs_of(value):
    """The pairs with this JSON value."""
    entries = entries_of(value, (0, OPTIONS - 1), (1, REPLICAS), (1, SEQUENCES), (0, 1))
    return dict(zip(ascending([entry[:3] for entry in entries]), (entry[3] for entry in entries)))


def state_of(value):
    """The cell and the state with this JSON value."""
    demand(type(value) is list and len(value) == 4 and type(value[0]) is str)
    cell = CELL_OF.get(value[0].encode())
    state = State(register_of(value[1]), counts_of(value[2]), pairs_of(value[3]))
    demand(cell is not None and state != EMPTY)
    return cell, state


def whole(digits):
    """The number with these digits, and where there is a sign one that is out of every range, as `-0` is, too."""
    return int(digits) if digits.isdigit() else -1


@functools.lru_cache(maxsize=1 << 12)
def read_delta(line):
    """The delta of a line, or nothing."""
    if len(line) > LONGEST_DELTA:
        return None
    try:
        # (any other number with a sign is out of every range)
        value = json.loads(line.decode(), parse_int=whole if b"-0" in line else None)
        demand(type(value) is list and value != [])
        states = [state_of(it) for it in value]
        ascending([cell for cell, _ in states])
    # (bytes that aren't UTF-8, halves of characters and what is no JSON raise errors of values)
    except (NoDelta, ValueError, RecursionError):
        return None
    return dict(states)

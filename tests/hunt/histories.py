"""What the replies of many sessions have to be, by the history of their server ("Serve").

A receipt's number is the place of its delta in the history. A read shows some version between what its session has seen
or changed and the newest that there can have been, which ends before the first delta whose line wasn't sent yet. What
hands out or changes deltas, or is refused as it would, does so at the newest version, which has all that was answered
to anyone before the line was sent. Of a server that was killed the newest version is what it has kept, and one that
goes on begins with that.
"""
from .contents import refusal
from .deltas import delta_line, read_delta
from .model import Sheet
from .session import Session

OUT_OF_MEMORY = refusal("memory")
# Words of lines that show a version, and of those that are for the newest one.
READS = (b"get", b"rows")
NEWEST = (b"set", b"add", b"sub", b"choose", b"unchoose", b"push", b"merge", b"pull", b"entry",
          b"entries")
EDITS, SHOW_NEWEST = NEWEST[:5], NEWEST[-3:]
# Words of lines that made the delta of their receipt, and no other did.
MAKERS = (*EDITS, b"merge")


class Wrong(Exception):
    """A reply that can't be; the argument tells which."""


class Trial(Sheet):
    """A sheet at some version, at which it is tried what a line would change."""

    def __init__(self, sheet):
        super().__init__(sheet.replica)
        self.history, self.states, self.values, self.cyclic = sheet.history, sheet.states, sheet.values, sheet.cyclic
        self.made = None

    def append(self, delta):
        self.made = delta
        self.history = [*self.history, delta]


class History:
    """The versions of a server's sheet."""

    def __init__(self, replica, deltas):
        self.deltas = deltas
        self.sheets = [Sheet(replica)]
        self.answers = {}
        for delta in deltas:
            sheet = Sheet(replica)
            sheet.states = dict(self.sheets[-1].states)
            sheet.history = self.sheets[-1].history[:]
            sheet.append(delta)
            self.sheets.append(sheet)

    def answer(self, text, version):
        """The reply that a line has at a version, and the delta that it appends, or nothing."""
        key = text, version
        if key not in self.answers:
            session = Session()
            session.sheet = Trial(self.sheets[version])
            reply = session.reply(text)
            self.answers[key] = reply, session.sheet.made
        return self.answers[key]

    def makes(self, text, number):
        """Whether a line may have made the delta with this number, from 1 on."""
        if not 1 <= number <= len(self.deltas):
            return False
        return self.answer(text, number - 1) == (b"ok %d" % number, self.deltas[number - 1])


def verb_of(line):
    """The first word of a line."""
    return line.text.split(b" ", 1)[0]


def receipt_of(line):
    """The number in the reply to a change, or nothing."""
    if line.reply is not None and line.reply.startswith(b"ok ") and line.reply[3:].isdigit():
        return int(line.reply[3:])
    return None


class Judge:
    """Judges the sessions of a server by its history; `may_lack` tells whether memory was refused to it."""

    def __init__(self, history, talks, may_lack=False):
        self.history = history
        self.talks = talks
        self.may_lack = may_lack
        self.sent = {}
        receipts = [(line.answered, receipt_of(line)) for talk in talks for line in talk.lines]
        self.receipts = sorted(it for it in receipts if it[1] is not None)

    def judge(self):
        """Raises what can't be."""
        self.claim()
        self.claim_for_pushes()
        self.claim_unanswered()
        for number in range(1, len(self.history.deltas) + 1):
            if number not in self.sent:
                line = delta_line(self.history.deltas[number - 1])
                raise Wrong(f"no line of any session has made the delta {number}, which is\n{line!r}")
        for talk in self.talks:
            self.follow(talk)

    def claim(self):
        """Gives each receipt of an edit or a merge its place, which no other has."""
        owners = {}
        for talk in self.talks:
            for line in talk.lines:
                number = receipt_of(line)
                if number is None or verb_of(line) not in MAKERS:
                    continue
                if not self.history.makes(line.text, number):
                    raise Wrong(f"{line.text!r} is answered {line.reply!r}, and isn't what made that delta")
                if not self.is_within(talk, number):
                    raise Wrong(f"{line.text!r} is answered {line.reply!r}, and that isn't kept")
                if number in owners:
                    raise Wrong(f"{line.text!r} and {owners[number]!r} are both answered {line.reply!r}")
                owners[number] = line.text
                self.sent[number] = line.sent

    def claim_for_pushes(self):
        """Gives places to lines that push. Several may have brought the same, as may a merge that wasn't answered."""
        merges = [line for talk in self.talks for line in talk.unanswered() if verb_of(line) == b"merge"]
        for talk in self.talks:
            for line in talk.lines:
                number = receipt_of(line)
                if number is None or verb_of(line) != b"push" or number in self.sent:
                    continue
                if self.history.makes(line.text, number) and self.is_within(talk, number):
                    delta = self.history.deltas[number - 1]
                    pushes = [it.sent for other in self.talks for it in other.lines
                              if verb_of(it) == b"push" and read_delta(it.text[5:]) == delta]
                    merged = [it.sent for it in merges if self.history.makes(it.text, number)]
                    self.sent[number] = min(pushes + merged)

    def claim_unanswered(self):
        """Gives places that are left to lines that weren't answered, one to each at most."""
        left = [line for talk in self.talks for line in talk.unanswered()]
        talks = {line: talk for talk in self.talks for line in talk.unanswered()}
        texts = {line.text for line in left}
        owned = {}
        for number in range(1, len(self.history.deltas) + 1):
            if number in self.sent:
                continue
            able = {text for text in texts if self.history.makes(text, number)}
            lines = [line for line in left if line.text in able and self.is_within(talks[line], number)]
            if self.gives(number, {number: lines}, owned, set()):
                # (whichever of them it was, it was sent since then)
                self.sent[number] = min(line.sent for line in lines)

    def gives(self, number, able, owned, tried):
        """Whether a line can be found for this place, after lines have been exchanged between places."""
        for line in able[number]:
            if line in tried:
                continue
            tried.add(line)
            if line not in owned or self.gives(owned[line][0], {owned[line][0]: owned[line][1]}, owned, tried):
                owned[line] = number, able[number]
                return True
        return False

    def is_within(self, talk, number):
        """Whether a change was made at the server of a session, which may have been killed."""
        return talk.first < number and (talk.last is None or number <= talk.last)

    def newest(self, event, last=None):
        """The newest version that there can have been at an event, of those that were kept."""
        version, end = 0, len(self.history.deltas) if last is None else last
        while version < end and self.sent[version + 1] < event:
            version += 1
        return version

    def judge_journal(self, begun, ended, count):
        """Judges how many changes a follower has written that wrote what there was."""
        if not self.answered(begun) <= count <= self.newest(ended):
            raise Wrong(f"a follower writes {count} changes until now, where there are {self.answered(begun)} to "
                        f"{self.newest(ended)}")

    def answered(self, event):
        """The newest version that was answered before an event."""
        return max((number for answered, number in self.receipts if answered < event), default=0)

    def follow(self, talk):
        """Follows a session, whose versions never fall."""
        seen = talk.first
        for line in talk.lines:
            if line.reply is None or self.lacked(line):
                continue
            verb = verb_of(line)
            least = max(seen, self.answered(line.sent)) if verb in NEWEST else seen
            most = self.newest(line.answered, talk.last)
            version = self.version_of(line, least, most)
            if version is None:
                raise Wrong(self.about(line, least, most))
            is_same = line.reply.startswith(b"same ")
            if verb in READS or verb in SHOW_NEWEST or is_same or receipt_of(line) is not None:
                seen = version

    def lacked(self, line):
        """Whether a line may have been answered that memory is lacking, and was."""
        if line.reply != OUT_OF_MEMORY or not self.may_lack:
            return False
        return verb_of(line) in (*NEWEST, b"rows")

    def version_of(self, line, least, most):
        """The least version of these at which the reply to a line may have been given, or nothing."""
        number = receipt_of(line)
        if number is not None:
            is_made = self.history.makes(line.text, number) and least < number
            if not least <= number <= most:
                return None
            is_there = self.history.answer(line.text, number) == (line.reply, None)
            return number if is_made or is_there else None
        # (most replies are those of the newest version, and then the least one is sought)
        versions = range(least, most + 1)
        return next((it for it in versions if self.history.answer(line.text, it)[0] == line.reply), None)

    def about(self, line, least, most):
        """What is said of a line whose reply is that of none of these versions."""
        versions = sorted({least, most} & {*range(len(self.history.sheets))})
        replies = b" .. ".join(self.history.answer(line.text, it)[0] or b"" for it in versions)
        return (f"{line.text[:300]!r} is answered\n{line.reply[:300]!r}\nwhich is the reply at no version from {least}"
                f" to {most}; at these it is\n{replies[:600]!r}")

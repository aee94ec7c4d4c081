"""Makes a script or a plan smaller while something still holds of it."""
import json
import time

from .session import TAKING

# So many trials end the work, or so many seconds, whatever is left.
TRIALS, SECONDS = 2_000, 120


def cells_of(line):
    """The cells of the delta that the line takes in, as JSON values; none where it takes in none."""
    try:
        cells = json.loads(line.split(b" ", 1)[1]) if line.startswith(TAKING) else []
    except ValueError:
        return []
    return cells if type(cells) is list else []


def line_of(verb, cells):
    """A line that takes in these cells by this word."""
    text = json.dumps(cells, ensure_ascii=False, separators=(",", ":"))
    return b"%s %s\n" % (verb, text.encode("utf-8", "surrogatepass"))


class Shrinker:
    """Leaves out what it can of a script while `holds` is true of it."""

    def __init__(self, script, holds):
        self.script = script
        self.holds = holds
        self.trials = 0
        self.deadline = time.monotonic() + SECONDS

    def takes(self, **changes):
        """Whether it still holds with these changes; then they stay."""
        changed = self.script._replace(**changes)
        self.trials += 1
        is_over = self.trials > TRIALS or time.monotonic() > self.deadline
        if changed == self.script or is_over or not self.holds(changed):
            return False
        self.script = changed
        return True

    def simplify(self):
        """Leaves out what holds for all of its parts, as options and cuts, where it doesn't need it."""
        while any(self.takes(**changes) for changes in self.script.simpler()):
            pass

    def leave_out_parts(self, length):
        """Leaves out so many neighbouring parts at a time, from the last ones on."""
        for place in range(len(self.script.parts) - length, -1, -length):
            parts = self.script.parts
            self.takes(parts=parts[:place] + parts[place + length:])

    def leave_out_cells(self):
        """Leaves out cells of the deltas that are taken in."""
        for place, part in enumerate(self.script.parts):
            cells = cells_of(part) if type(part) is bytes else []
            for cell in cells[::-1]:
                fewer = [it for it in cells if it is not cell]
                parts = self.script.parts
                line = line_of(part.split(b" ", 1)[0], fewer)
                if fewer and self.takes(parts=(*parts[:place], line, *parts[place + 1:])):
                    cells = fewer

    def shrunk(self):
        """The script as small as it became: no single part of it can be left out, unless the trials were too few."""
        self.simplify()
        before = None
        while before != self.script:
            before = self.script
            length = len(before.parts)
            while length := length // 2:
                self.leave_out_parts(length)
            self.leave_out_cells()
        return self.script


def shrunk(script, holds):
    """A smaller script that still has the trouble."""
    return Shrinker(script, holds).shrunk()

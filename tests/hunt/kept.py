"""Files that keep a sheet ("A kept sheet"): what one has to have, and what is left of one that a crash has torn."""
import hashlib
import re

from .deltas import delta_line, read_delta

# A digest line, with its line feed.
DIGEST_LINE = re.compile(rb"(?m)^replica [0-9a-f]{16}\n")


def text_of(replica, deltas):
    """The whole file of a replica with this history."""
    return b"".join([b"replica %d\n" % replica, *(b"push %s\n" % delta_line(delta) for delta in deltas)])


def whole_lines(content):
    """What a file has up to the end of its last whole line."""
    return content[:content.rfind(b"\n") + 1]


def digest_line(since):
    """The digest line that is due after these bytes, which are those since the one before, with that one."""
    return b"replica %s\n" % hashlib.md5(since).hexdigest()[:16].encode()


def without_digests(content):
    """What a file has without its digest lines. Each of them has to be due where it stands.

    A piece after the last line feed goes too if it begins the digest line that is due.
    """
    found, since, end = [], 0, 0
    for line in DIGEST_LINE.finditer(content):
        due = digest_line(content[since:line.start()])
        if line[0] != due:
            raise AssertionError(f"{line[0]!r} stands where {due!r} is due")
        found.append(content[end:line.start()])
        since, end = line.span()
    torn = len(whole_lines(content))
    if 0 < torn < len(content) and digest_line(content[since:torn]).startswith(content[torn:]):
        content = content[:torn]
    return b"".join([*found, content[end:]])


def without_any_digests(content):
    """The same, whether they are due or not, as where another program has written meanwhile."""
    return DIGEST_LINE.sub(b"", content)


def changes_in(content):
    """How many whole lines of a file push a delta."""
    return whole_lines(content).count(b"\npush ")


def deltas_in(content):
    """The deltas that the whole lines of a file push, without the first line."""
    rows = whole_lines(without_any_digests(content)).split(b"\n")
    return [read_delta(line.removeprefix(b"push ")) for line in rows[1:-1]]


def told(path, count, elsewhere=None):
    """What standard error has once this file was opened with so many changes, and once it is known, if it is, that
    this replica makes changes elsewhere, too."""
    opened = b"opened %s, %d changes\n" % (bytes(path), count)
    if elsewhere is None:
        return opened
    return opened + b"replica %d makes changes elsewhere, too, or lines of %s were lost\n" % (elsewhere, bytes(path))

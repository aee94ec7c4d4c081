"""Chance: a source of it for each script, and bytes with something changed in them."""
import random

ODD = (
    b" ", b"  ", b"\t", b"\r", b"0", b"$", b"'", b"=", b"-", b"+", b"(", b")", b";", b":", b".", b"[", b"]", b",", b'"',
    b"{", b"\\", b"\0", b"\x1f", b"\x7f", b"\x80", b"\xff", b"\xc3", b"\xc3\xa9", b"\xed\xa0\x80", b"\xf0\x9f\x98\x80",
    b"\xef\xbb\xbf", b"A", b"a", b"Z", b"1", b"9", b"null", b"1e0", b".0", b"@tally", b"of:=", b"SUM(", b"[.A1]",
)


class Chance(random.Random):
    """A source of chance, which is the same for the same seed and number."""

    def __init__(self, seed, number):
        super().__init__(f"{seed}/{number}")

    def once_in(self, times):
        """True once in so many times."""
        return self.random() * times < 1

    def of(self, choices):
        """One of these, each as likely as the others."""
        return choices[int(self.random() * len(choices))]

    def changed(self, text):
        """The text with one to three small things changed in it."""
        for _ in range(self.of((1, 1, 1, 2, 3))):
            text = self.changed_once(text)
        return text

    def changed_once(self, text):
        """The text with a part of it left out, doubled, replaced, or something put in."""
        begin = self.randint(0, len(text))
        end = min(len(text), begin + self.of((0, 0, 1, 1, 2, 5)))
        middle = text[begin:end]
        if end > begin:
            middle = self.of((b"", middle * 2, middle.upper(), middle.lower(), middle[::-1], self.of(ODD)))
        else:
            middle = self.of(ODD)
        return text[:begin] + middle + text[end:]

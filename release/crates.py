"""The crates that the program stands on, by `crates.txt`, and the sums of their sources."""
import subprocess

PROGRAM = "sheet"
# Where the sources of a crate lie.
PARTS = ("src", "specs", "proofs")


def uses(top):
    """Returns, for each crate in `crates.txt`, the libraries that it names."""
    found = {}
    for line in (top / "crates.txt").read_text().splitlines():
        # a name may have marks after it, as that its tests start threads
        said, _, libraries = line.partition("#")[0].partition(":")
        if said.strip():
            found[said.split()[0]] = libraries.split()
    return found


def below(top):
    """Returns the program's crate and those that it stands on, each after the crates below it."""
    known, found = uses(top), []

    def add(crate):
        # a library of the kit has no row of its own
        if crate in known and crate not in found:
            for library in known[crate]:
                add(library)
            found.append(crate)

    add(PROGRAM)
    return found


def sums(top):
    """Returns the rows of these crates, a name and a sum each, as `release/sums` has them."""
    return subprocess.run([top / "release/sources"], stdout=subprocess.PIPE, check=True, text=True).stdout

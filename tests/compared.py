"""Whether the released object of `release/` is that of the build that the gate has proved."""
import lzma
import subprocess
import sys

from program import TOP

sys.path.insert(0, str(TOP / "release"))
import proved
from tools import Fault


def difference(top):
    """Why the released object in this folder isn't that of the proved build there, or None where it is.

    The gate leaves the program that it has proved, and not its object. So the kit links the released object, and the two
    programs are compared, byte for byte.
    """
    try:
        changed = subprocess.run([top / "release/changed"], stdout=subprocess.PIPE, check=True, text=True).stdout.strip()
        if changed:
            return f"the released program was made of other sources ({changed}): run release/make"
        program = top / "crates/sheet/out/sheet"
        if not program.is_file():
            return "there is no proved build to compare with"
        is_same = proved.linked(lzma.decompress((top / "release/sheet.o.xz").read_bytes())) == program.read_bytes()
    except (OSError, lzma.LZMAError, subprocess.SubprocessError, Fault) as fault:
        return f"the released object can't be compared: {fault}"
    return None if is_same else "the released object isn't that of the proved build"

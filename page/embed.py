"""Writes the page that `sheet serve` answers with, page.html with page.css and the scripts in it, as the
constants of crates/ps_page/src/page.rt: `python3 page/embed.py`. The content policy of its head names style and script
by their hashes, so a browser runs that script and no other.
"""
import base64
import hashlib
import pathlib
import re

from shorten import short_page, short_script, short_style

HERE = pathlib.Path(__file__).resolve().parent
# The scripts, in the order in which they are put together to one.
SCRIPTS = [f"{name}.js" for name in (
    "names", "words", "formulas", "wire", "cells", "title", "widths", "drawing", "telling", "changes", "undo",
    "editing", "options", "clipboard", "filling", "sums", "finding", "files", "keys", "pointer", "start")]
MODULE = HERE.parent / "crates" / "ps_page" / "src" / "page.rt"


def hash_of(text):
    return "'sha256-" + base64.b64encode(hashlib.sha256(text.encode()).digest()).decode() + "'"


def assembled():
    """The page with style and scripts in it, and the content policy that names both by their hashes."""
    style = short_style((HERE / "page.css").read_text())
    script = short_script("\n".join((HERE / name).read_text() for name in SCRIPTS))
    page = short_page((HERE / "page.html").read_text()).replace("{style}", style).replace("{script}", script)
    if not page.isascii() or '"##' in page or "\r" in page:
        raise SystemExit("the page has to be ASCII, with line feeds alone and no quote before ##")
    policy = (f"default-src 'none'; script-src {hash_of(script)}; style-src {hash_of(style)}; connect-src 'self'; "
              "img-src data:; base-uri 'none'; form-action 'none'; frame-ancestors 'none'")
    return page, policy


def head_of(page, policy):
    """The lines of the response's head, the last one empty."""
    return [
        "HTTP/1.1 200 OK",
        "content-type: text/html; charset=utf-8",
        f"content-length: {len(page)}",
        "cache-control: no-store",
        f"content-security-policy: {policy}",
        "x-content-type-options: nosniff",
        "x-frame-options: DENY",
        "referrer-policy: no-referrer",
        "cross-origin-opener-policy: same-origin",
        "cross-origin-resource-policy: same-origin",
        "connection: close",
        "",
    ]


def module():
    page, policy = assembled()
    head = "".join(line + "\\r\n" for line in head_of(page, policy))
    return ("//! The page, written by page/embed.py from the files beside it.\n\n"
            "/// The head of the response with the page, which ends where the connection does.\n"
            f'pub const PAGE_HEAD: &[u8] = b"{head}";\n\n'
            "/// The page, as one constant text: it needs nothing from outside.\n"
            f'pub const PAGE: &str = r##"{page}"##;\n')


if __name__ == "__main__":
    MODULE.write_text(module())

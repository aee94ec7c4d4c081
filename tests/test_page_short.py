"""How `page/shorten.py` makes scripts short: what they do stays, and so do the names that others may use."""
import subprocess
import unittest

from program import LIMIT, TOP

CASES = (
    # comments and blanks go, and signs that nothing needs
    ("// a word\nlet a = 1;\nlet b = 2; /* more */\nf(a - -b, { c: 3, });", "let a=1,b=2;f(a- -b,{c:3});"),
    # local names are short, and the same name is the same one everywhere
    ("function add(first, second) { const sum = first + second; return sum; }",
     "function add(b,a){let c=b+a;return c}"),
    ("const twice = number => `${number} ${[1].map(digit => digit * number)}`;",
     "let twice=a=>`${a} ${[1].map(b=>b*a)}`;"),
    # .. but not where it is declared outside, a property, or a name of the browser's
    ("const total = 1; function f(total, other) { return other + total; }",
     "let total=1;function f(total,a){return a+total}"),
    ("function f(event, width) { return event.width + width; }", "function f(a,width){return a.width+width}"),
    ("function f({ width, height }) { return { width, other: height }; }",
     "function f({width,height}){return{width,other:height}}"),
    ("function f(print) { return print; } function g(paper) { print(paper); }",
     "function f(print){return print}function g(a){print(a)}"),
    # .. and properties of the page's own are short, too
    ("function f(entry) { return { entry, cell: 1 }.cell; }", "function f(a){return{a,b:1}.b}"),
    # patterns, texts and divisions stay
    ("f(/a b[/]/g.test('a  b'), c / d / e);", "f(/a b[/]/g.test('a  b'),c/d/e);"),
    ("const f = true, g = async () => { try { await h(); } catch { return false; } };",
     "let f=!0,g=async()=>{try{await h()}catch{return!1}};"),
    ("for (const [key, box] of list) { if (box) return key; else last(box); }",
     "for(let[b,a]of list){if(a)return b;else last(a)}"),
)


def ran(call, given):
    """How a call of shorten.py ends, with its result."""
    script = f"import shorten, sys; print(shorten.{call}(sys.stdin.read()), end='')"
    return subprocess.run(["python3", "-B", "-c", script], cwd=TOP / "page", input=given, capture_output=True,
                          text=True, timeout=LIMIT, check=False)


class Short(unittest.TestCase):
    def test_scripts(self):
        for given, short in CASES:
            with self.subTest(given=given):
                self.assertEqual(ran("short_script", given).stdout, short)

    def test_a_property_of_the_pages_own_is_never_called(self):
        ended = ran("short_script", "function f(file) { return file.text(); }")
        self.assertEqual((ended.returncode, ended.stderr),
                         (1, "text is called, so it is no property of the page's own\n"))

    def test_styles(self):
        given = "a, b { color: var(--text); }\n:root { --text: #fff; --back : #000; }"
        self.assertEqual(ran("short_style", given).stdout, "a,b{color:var(--a)}:root{--a:#fff;--b:#000}")

    def test_each_script_has_its_tests(self):
        for script in (TOP / "page").glob("*.js"):
            self.assertTrue((TOP / "tests" / f"test_page_{script.stem}.py").exists(), script.name)

    def test_pages(self):
        given = '<p id="a" title="b c">d</p>\n<p>e</p><b>f</b>'
        self.assertEqual(ran("short_page", given).stdout, '<p id=a title="b c">d\n<p>e</p><b>f</b>')


if __name__ == "__main__":
    unittest.main()

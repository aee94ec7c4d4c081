"""The blocks of the pages, commands with the text that each of them writes, and the sentences of prose."""
import re

from program import TOP

FENCED = re.compile(r"^```([^`\n]*)\n(.*?)^```$", re.MULTILINE | re.DOTALL)
# A block by indentation, which begins after an empty line.
INDENTED = re.compile(r"(?:\A|(?<=\n\n))(?:(?: {4}|\t).*(?:\n|\Z))+")
# The greatest number of words of a sentence, and the marks that end one.
SENTENCE, ENDS = 35, ".?!"
# Turns that readers stumble over.
TURNS = (
    "of which", "so it is", "(?:is|are|was) told", "what is there", "hands? on", "handed on",
    r"who (?:\w+ )?(?:is|are|was|were|has|have|had|wants|comes|looks)", "as far as", "that of (?:the one|those)",
    "in the place of", "be (?:it|they)", "lent", "has come", "wants? of", "but for", "no other than",
    "growths? of memory", "it is no matter", "look(?:s|ed|ing)? on", "of its own accord", "were told", "what are there",
    "handing on", "onlookers?", "push lines", "turns that look strange", "wrong bod(?:y|ies)", "chairs?", "doors?",
    "entrances?",
)


def blocks(text):
    """The fenced blocks of a page's text: the language and the lines of each."""
    return FENCED.findall(text)


def pairs(text, language):
    """The blocks of commands in this language, each with the block of text after it."""
    found = blocks(text)
    return [(commands, shown) for (spoken, commands), (after, shown) in zip(found, found[1:])
            if (spoken, after) == (language, "text")]


def functions(page):
    """The first block of a page: what its recipes call."""
    return blocks((TOP / page).read_text())[0][1]


def recipes(page, language):
    """The blocks of commands of a page in this language, each with what it writes."""
    return pairs((TOP / page).read_text(), language)


def indented_blocks(text):
    """The indented blocks of a page's text, without the blanks before their lines."""
    return [re.sub("^(?: {4}|\t)", "", block, flags=re.MULTILINE) for block in INDENTED.findall(without_fences(text))]


def below(text, heading):
    """What a page's text has below this heading, up to the next one."""
    return re.search(rf"^{re.escape(heading)}$(.*?)(?=^#|\Z)", text, re.MULTILINE | re.DOTALL)[1]


def indented(page, heading):
    """The indented blocks below this heading of a page."""
    return indented_blocks(below((TOP / page).read_text(), heading))


def beginning(page, words):
    """The indented blocks of a page that begin with these words."""
    return [block for block in indented_blocks((TOP / page).read_text()) if block.startswith(words)]


def without_fences(text):
    """A page's text without its fenced blocks, and with nothing in its empty lines."""
    text = re.sub(r"^```.*?^```$", "", text, flags=re.MULTILINE | re.DOTALL)
    return re.sub(r"^[ \t]+$", "", text, flags=re.MULTILINE)


def unfenced(text):
    """A page's text without its blocks of code, and with a word instead of each piece of code."""
    return re.sub(r"`[^`]*`", "X", INDENTED.sub("", without_fences(text)))


def long_sentences(text, ends=ENDS):
    """The sentences of a page's paragraphs and items of lists that have too many words. A list ends the one before."""
    parts = re.split(r"\n\s*\n|\n(?=\s*(?:[-*]|\d+\.) )|^#.*$", unfenced(text), flags=re.MULTILINE)
    prose = [" ".join(part.split()) for part in parts if not part.strip().startswith(("|", "!["))]
    # (two points are no end: what is left out between them and the next word may be anything)
    end = re.compile(rf"(?<=[{ends}])(?<!\.\.)[)*_\"']*\s+(?=[A-Z`\"(\[*])")
    return [sentence for part in prose for sentence in end.split(part) if len(sentence.split()) > SENTENCE]


def words_of(these, text):
    """The words of a text that are among these patterns, wherever they stand outside of code."""
    forbidden = re.compile(rf"\b(?:{'|'.join(these)})\b", re.IGNORECASE)
    return [found[0] for found in forbidden.finditer(" ".join(unfenced(text).split()))]

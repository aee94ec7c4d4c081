"""Pages by chance: keys, pastes and clicks in two browsers, beside a plain model of what the sheet has to hold."""
import atexit
import contextlib
import csv
import functools

from browser import Browser
from browser_monkey import COLUMNS, ROWS, Monkey, name_of, steps
from browser_page import connected
from servers import serving

from .chance import Chance
from .plans import Plan

PAGES = 2
LENGTHS = (5, 15, 30, 50)


@functools.cache
def browser():
    """The browser of all plans, which ends with the hunt."""
    started = Browser()
    atexit.register(started.end)
    return started


def plan(seed, number):
    """The plan with this number."""
    chance = Chance(f"{seed}/pages", number)
    return Plan({}, tuple(steps(chance, PAGES, chance.of(LENGTHS))))


def held(client):
    """What the server holds in the corner of the sheet where the monkey is."""
    rows = int(client.ask(f"entries A1:{name_of((COLUMNS - 1, ROWS - 1))}").split(" ")[1])
    return list(csv.reader([client.reply() for _ in range(rows)]))


def opened(stack, server, fault):
    """A page with nothing from a sheet before; where a fault is given, that script has run in it."""
    page = connected(browser(), server)
    stack.callback(page.close)
    page.value(f"[localStorage.clear(), typed.clear(), {fault or 0}].length")
    return page


def difference(monkey, client, step):
    """What is wrong after a step, or nothing."""
    try:
        monkey.step(*step)
    except AssertionError as error:
        return str(error)
    found, wanted = held(client), monkey.model.rows()
    problems = [problem for page in monkey.pages for problem in page.problems]
    if found != wanted:
        return f"the sheet holds {found}, and has to hold {wanted}"
    return f"a script failed: {problems}" if problems else None


def trouble(plan, counts, fault=None):
    """What is wrong once the steps of the plan are taken, or nothing."""
    with contextlib.ExitStack() as stack:
        server = stack.enter_context(serving(None))
        monkey = Monkey([opened(stack, server, fault) for _ in range(PAGES)])
        client = server.client()
        for step in plan.parts:
            counts["steps"] = counts.get("steps", 0) + 1
            why = difference(monkey, client, step)
            if why is not None:
                return f"{' '.join(map(str, monkey.told))}: {why}"
    return None

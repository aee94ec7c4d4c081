"""Proves and builds the libraries below the program side by side, as processors and memory allow.

`rt` builds what a crate stands on one after the other, so this calls what `rt` itself calls for each library. Where the
kit has no such file, nothing is done, and `rt run` builds them.
"""
import functools
import importlib.util
import os
import signal
import sys
import threading
from concurrent.futures import FIRST_COMPLETED, ThreadPoolExecutor, wait
from pathlib import Path
from typing import Callable, NamedTuple

import crates
import tools

TOP = Path(__file__).resolve().parent.parent
# The most memory that a check of a library took with one job, and what each further job may add.
FIRST_JOB, FURTHER_JOB = 2_500_000_000, 1_500_000_000
MOST_JOBS = 4


class Task(NamedTuple):
    """The names of what it waits for, its size, and a call with a number of jobs that says whether it went well."""

    waits: list
    size: int
    call: Callable


def behind(tasks):
    """Returns the size of the longest chain that begins with each task. Each is listed after what it waits for."""
    found = {}
    for name in reversed(tasks):
        above = [found[other] for other, task in tasks.items() if name in task.waits]
        found[name] = tasks[name].size + max(above, default=0)
    return found


def jobs_for(ready, idle, room):
    """Returns how many jobs the first of so many ready tasks gets, of so many idle processors and so much memory."""
    by_memory = 1 + (room - FIRST_JOB) // FURTHER_JOB
    return max(0, min(MOST_JOBS, idle // ready or min(idle, 1), by_memory))


def memory_of(jobs):
    """Returns the memory that a check with so many jobs takes."""
    return FIRST_JOB + FURTHER_JOB * (jobs - 1)


def run_all(tasks, processors, memory):
    """Runs each task once those it waits for went well, the longest chain first. Returns the one that fails, or None."""
    chains = behind(tasks)
    left, running, is_done = sorted(tasks, key=lambda name: -chains[name]), {}, set()
    with ThreadPoolExecutor(processors) as pool:
        while left or running:
            ready = [name for name in left if is_done.issuperset(tasks[name].waits)]
            for place, name in enumerate(ready):
                idle = processors - sum(jobs for _, jobs in running.values())
                room = memory - sum(memory_of(jobs) for _, jobs in running.values())
                # with nothing beside it, one job may take what there is
                jobs = jobs_for(len(ready) - place, idle, room) or int(not running)
                if jobs:
                    left.remove(name)
                    running[pool.submit(tasks[name].call, jobs)] = name, jobs
            for ended in wait(running, return_when=FIRST_COMPLETED).done:
                name, _ = running.pop(ended)
                if not ended.result():
                    return name
                is_done.add(name)
    return None


def free_memory():
    """Returns the free memory in bytes."""
    for row in Path("/proc/meminfo").read_text().splitlines():
        if row.startswith("MemAvailable:"):
            return 1024 * int(row.split()[1])
    return 0


def load(file):
    """Returns the module in this file."""
    spec = importlib.util.spec_from_file_location(file.stem, file)
    module = importlib.util.module_from_spec(spec)
    sys.modules[file.stem] = module
    spec.loader.exec_module(module)
    return module


printing = threading.Lock()


def left_to_build(rtlib, libraries):
    """Returns the libraries that aren't built. The sum of each, which those above it ask for, is worked out once."""
    of_kit = rtlib.Crate.stamp
    once = functools.cache(of_kit)
    rtlib.Crate.stamp = lambda crate: once(crate)
    try:
        return [it for it in libraries if not it.is_built()]
    finally:
        rtlib.Crate.stamp = of_kit


def build(crate, jobs):
    """Proves and builds one library, and returns whether it is."""
    with printing:
        # (in one piece: what the kit prints meanwhile would come between a line and its end)
        print(f"build: chose --jobs {jobs} for {crate.name}\n", end="", flush=True)
    is_built = crate.build_rlib(["--jobs", str(jobs)], anew=False) == 0
    if not is_built:
        # what else runs ends with this process
        with printing:
            print(f"build: {crate.name} was not built", flush=True)
            os._exit(1)
    return is_built


def main(file):
    """Builds the libraries by the kit's file."""
    rtlib = load(file)
    # as rt itself: what it starts ends with it, and an interrupt ends all
    rtlib.guarded()
    signal.signal(signal.SIGINT, signal.SIG_DFL)
    program = rtlib.Crate(str(TOP / "crates" / crates.PROGRAM), str(TOP), {})
    held = rtlib.lock([*program.below(), program])
    left = left_to_build(rtlib, program.below())
    tasks = {
        it.name: Task(
            [dep.name for dep in it.below() if dep in left], it.count(rb"\n"), lambda jobs, it=it: build(it, jobs)
        )
        for it in left
    }
    failed = run_all(tasks, len(os.sched_getaffinity(0)), int(0.85 * free_memory()))
    for lock in held:
        os.close(lock)
    return int(failed is not None)


def compile_program(file):
    """Compiles the program by the kit's file, over the libraries that are there, to an object in its folder `out/`."""
    rtlib = load(file)
    rtlib.guarded()
    program = rtlib.Crate(str(TOP / "crates" / crates.PROGRAM), str(TOP), {})
    return program.compile(["--backend", "llvm"], f"out/{crates.PROGRAM}.o")


if __name__ == "__main__":
    of_kit = tools.folder() / "bin/rtlib.py"
    if sys.argv[1:] == ["--object"]:
        sys.exit(compile_program(of_kit))
    try:
        sys.exit(main(of_kit) if of_kit.is_file() else 0)
    except (AttributeError, TypeError) as error:
        print(f"build: the kit has another {of_kit.name}, so the libraries are built in turn: {error}", flush=True)

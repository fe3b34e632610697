"""Runs of the built program, several at once, each judged by the evaluator beside this file."""

import multiprocessing
import os
import subprocess
import sys
import typing

from evaluator import VERSIONS, judge, judge_json

TOP = os.path.dirname(os.path.dirname(os.path.abspath(__file__)))
# The program, and beside it the same as the kit's other compiler makes it, where the gate left that.
PROGRAM = os.path.join(TOP, "crates", "framesweep", "out", "framesweep")
BUILDS = [PROGRAM] + [other for other in [PROGRAM + ".by-rattle"] if os.access(other, os.X_OK)]

# Longer than any of these runs takes on a machine that is busy. A run that waits for ever is ended and counts as wrong.
SECONDS = 60
MOST_SHOWN = 3


class Run(typing.NamedTuple):
    """A program, the words of a command, and a deck, behind which a command may have more input."""

    program: str
    command: str
    deck: str
    behind: str = ""
    versions: int = VERSIONS
    as_json: bool = False

    def words(self):
        limit = [] if self.versions == VERSIONS else ["--versions", str(self.versions)]
        return self.command.split() + limit + (["--json"] if self.as_json else [])


def output(run):
    """What a run wrote, or None and what went wrong."""
    try:
        done = subprocess.run(
            [run.program] + run.words(), input=(run.deck + run.behind).encode(), capture_output=True, timeout=SECONDS
        )
    except subprocess.TimeoutExpired:
        return None, f"no end in {SECONDS} seconds"
    if done.returncode or done.stderr:
        return None, f"status {done.returncode}, {done.stderr!r}"
    return done.stdout.decode(), None


def judged(run):
    """What a run wrote, and what is wrong with it."""
    text, fault = output(run)
    if fault:
        return text, [fault]
    return text, (judge_json if run.as_json else judge)(run.deck, text, run.versions)


def judged_all(name, runs):
    """Makes all runs, says what is wrong with the first few that are, and answers for each what it wrote and whether it was
    right."""
    for program in {run.program for run in runs}:
        if not os.access(program, os.X_OK):
            sys.exit(f"{name}: {program} is not built: run ./framesweep once, or the gate")
    with multiprocessing.Pool(os.cpu_count()) as pool:
        found = pool.map(judged, runs, 4)
    wrong = [(run, complaints) for run, (_, complaints) in zip(runs, found) if complaints]
    for run, complaints in wrong[:MOST_SHOWN]:
        print(f"{name}: {run.words()} of\n{run.deck}{run.behind}{complaints[:MOST_SHOWN]}", file=sys.stderr)
    return [(text, not complaints) for text, complaints in found]

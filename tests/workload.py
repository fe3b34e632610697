"""The workload's deck of a number, and the summary of its runs, by docs/workload.md alone."""

import functools

from evaluator import FAULTS, Machine, is_number, read_deck, well_named
from random_decks import Draws

THREADS, OWN, ROWS, CALLS = 8, 8, 24, 500


def script(draws, nodes):
    """A signal's script over two of the nodes before it."""
    p, q = draws.among(nodes), draws.among(nodes)
    return [f"({p} + {q}) % 1000", f"({p} - {q}) % 1000", f"if {p} < {q} then {p} else {q}"][draws.draw(3)]


def declarations(draws, nodes):
    """The lines of all nodes, whose names join the list."""
    for number in range(THREADS * OWN):
        nodes.append(f"s{number}")
        yield f"source {nodes[-1]} = {draws.draw(100)}"
    for thread in range(THREADS):
        one, other = (f"s{OWN * thread + draws.draw(OWN)}" for _ in range(2))
        nodes.append(f"f{thread}")
        yield f"fold {nodes[-1]} = 0 : acc + {one} - {other}"
    for row in range(ROWS):
        for signal in range(5 * row, 5 * row + 5):
            said = script(draws, nodes)
            nodes.append(f"g{signal}")
            yield f"signal {nodes[-1]} = {said}"
        selector, *candidates = (draws.among(nodes) for _ in range(5))
        nodes.append(f"c{row}")
        yield f"choose {nodes[-1]} = ({selector} % 4 + 4) % 4 among {', '.join(candidates)}"


def call(draws, nodes, thread):
    if draws.draw(4) == 0:
        return f"read {draws.among(nodes)}"
    source = f"s{OWN * thread + draws.draw(OWN)}"
    value = draws.draw(1000)
    return f"fire {source} = {value} look {draws.among(nodes)}"


def workload(number):
    """The text of the deck."""
    draws, nodes = Draws(number), []
    lines = list(declarations(draws, nodes))
    for thread in range(THREADS):
        lines.append("thread")
        lines += [call(draws, nodes, thread) for _ in range(CALLS)]
    return "".join(line + "\n" for line in lines)


def summary_of(number, values):
    faults = sum(value in FAULTS for value in values)
    numbers = sum(value for value in values if is_number(value))
    calls = THREADS * CALLS
    return f"number {number}\nthreads {THREADS}\nnodes {len(values)}\ncalls {calls}\nfaults {faults}\nsum {numbers}\n"


@functools.lru_cache(None)
def summary(number):
    """The summary of the run that makes all calls of thread 1, then all of thread 2, and so on."""
    deck = read_deck(workload(number))
    machine = Machine(deck.nodes)
    for calls in well_named(deck):
        for each in calls:
            if each.kind == "fire":
                machine.fire(each.sets)
    return summary_of(number, [machine.values[node.name] for node in deck.nodes])

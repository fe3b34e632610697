"""Decks and schedules by draws from a seed: the same numbers give the same decks on every machine.

Decks have all kinds of nodes, and now and then values that fall out of range, out of kind and out of choice. Their calls set
few sources again and again, so that calls of several threads meet, and some calls have a wrong name.
"""

# The operators of each level, the loosest first, and the levels of those that give a number or a truth.
OPERATORS = [["??"], ["||"], ["&&"], ["==", "!=", "<", "<=", ">", ">="], ["+", "-"], ["*", "/", "%"]]
COMPARISON = 3
LEVELS = {"number": [0, 4, 4, 5], "truth": [0, 1, 2, 3, 3]}
PREFIX = len(OPERATORS)
OTHER = {"number": "truth", "truth": "number"}
SIGNS = {"number": "-", "truth": "!"}
WORDS = {"number": ["0", "1", "2", "3", "7", "10", "9223372036854775807"], "truth": ["true", "false"]}


class Draws:
    """A state of 64 bits, from which numbers are drawn."""

    def __init__(self, seed):
        self.state = seed

    def draw(self, bound):
        """A number from 0 and below the bound."""
        self.state = (self.state * 6364136223846793005 + 1442695040888963407) % 2**64
        return (self.state >> 33) % bound

    def among(self, items):
        return items[self.draw(len(items))]

    def several(self, most, items):
        return [self.among(items) for _ in range(1 + self.draw(most))]


def schedule(draws, threads, length):
    """Numbers of threads, one behind the other."""
    return " ".join(str(1 + draws.draw(threads)) for _ in range(length))


class Scripts:
    """Scripts over names that are mostly numbers and names that are mostly truths. They are made by the levels of the
    grammar, so that parentheses also stand where they need not, and lack where they need not stand."""

    def __init__(self, draws, names):
        self.draws = draws
        self.names = names

    def script(self, depth, kind):
        if depth and self.draws.draw(5) == 0:
            condition = self.script(depth - 1, "truth")
            then = self.script(depth - 1, kind)
            return f"if {condition} then {then} else {self.script(depth - 1, kind)}"
        return self.operators(depth, 0, kind)

    def operators(self, depth, loosest, kind):
        """A script whose outer operator is of this level or a tighter one. Few are of the other kind."""
        if self.draws.draw(40) == 0:
            kind = OTHER[kind]
        level = self.draws.among([level for level in LEVELS[kind] if level >= loosest] + [PREFIX])
        if depth == 0 or level == PREFIX:
            return self.prefix(depth, kind)
        inside = "number" if level == COMPARISON else kind
        left = self.operators(depth - 1, level + 1 if level == COMPARISON else level, inside)
        return f"{left} {self.draws.among(OPERATORS[level])} {self.operators(depth - 1, level + 1, inside)}"

    def prefix(self, depth, kind):
        sign = self.draws.among([SIGNS[kind], "", "", "", ""])
        if depth and self.draws.draw(3) == 0:
            return f"{sign}({self.script(depth - 1, kind)})"
        return sign + self.draws.among(self.draws.among([self.names[kind] or WORDS[kind]] * 2 + [WORDS[kind]]))


class Names:
    """The names of the sources and of all nodes so far, by what their values mostly are."""

    def __init__(self):
        self.sources = []
        self.kinds = {"number": [], "truth": []}

    def all(self):
        return self.kinds["number"] + self.kinds["truth"]


def value(draws, kind):
    if draws.draw(25) == 0:
        return draws.among(["true", "-9223372036854775808", "9223372036854775807"])
    return draws.among(["0", "1", "2", "3", "4", "-1"] if kind == "number" else WORDS[kind])


def selector(draws, names, candidates):
    """A selector whose number mostly names a candidate."""
    several = draws.several(4, candidates)
    count = len(several)
    name = draws.among(names["number"])
    plain = f"({name} % {count} + {count}) % {count}"
    script = draws.among([plain, plain, plain, name, Scripts(draws, names).script(2, "number")])
    return f"{script} among {', '.join(several)}"


def choose(draws, names, kind):
    candidates = names[kind] or names["number"]
    parts = [selector(draws, names, candidates) for _ in range(draws.among([1, 1, 1, 2, 2, 3, 4]))]
    if len(parts) > 1 or draws.draw(3) == 0:
        picks = [f"pick{place}" for place in range(1, len(parts) + 1)]
        parts.append(Scripts(draws, {"number": [], "truth": [], kind: picks}).script(2, kind))
    return " : ".join(parts)


def declaration(draws, name, names, kind):
    line = draws.among(["signal", "signal", "fold", "choose", "choose"])
    if line == "signal":
        return f"signal {name} = {Scripts(draws, names).script(3, kind)}"
    if line == "fold":
        known = {**names, kind: names[kind] + ["acc"] * 3}
        return f"fold {name} = {value(draws, kind)} : {Scripts(draws, known).script(2, kind)}"
    return f"choose {name} = {choose(draws, names, kind)}"


def call(draws, names):
    """A fire or a read, of which few have a wrong name."""
    sources, nodes = list(names.sources), names.all()
    if draws.draw(16) == 0:
        sources, nodes = sources + nodes, nodes + ["nobody"]
    looks = ", ".join(draws.several(3, nodes))
    if draws.draw(4) == 0:
        return f"read {looks}"
    kinds = [(source, "truth" if source in names.kinds["truth"] else "number") for source in draws.several(3, sources)]
    sets = ", ".join(f"{source} = {value(draws, kind)}" for source, kind in kinds)
    return f"fire {sets}" + draws.among(["", f" look {looks}"])


def random_deck(draws, threads):
    """A deck with so many threads."""
    names, lines = Names(), []
    for n in range(1 + draws.draw(4)):
        kind = draws.among(["number", "number", "number", "truth"]) if n else "number"
        lines.append(f"source s{n} = {value(draws, kind)}")
        names.sources.append(f"s{n}")
        names.kinds[kind].append(f"s{n}")
    for n in range(2 + draws.draw(9)):
        kind = draws.among(["number", "number", "truth"])
        lines.append(declaration(draws, f"n{n}", names.kinds, kind))
        names.kinds[kind].append(f"n{n}")
    for _ in range(threads):
        lines.append("thread")
        lines += [call(draws, names) for _ in range(draws.draw(7))]
    return "".join(line + "\n" for line in lines)


def switching_deck(threads, calls):
    """A dashboard whose views switch between gauges, means and each other while these change. Most calls of its threads
    come to depend on what other calls set."""
    lines = ["source page = 0"] + [f"source gauge{n} = {n}" for n in range(8)]
    lines += [f"signal mean{n} = (gauge{n} + gauge{(n + 1) % 8}) / 2" for n in range(8)]
    lines.append("choose view0 = page % 3 among mean0, mean1, gauge0")
    for n in range(1, 8):
        lines.append(f"choose view{n} = (page + {n}) % 4 among mean{n}, mean{(n + 1) % 8}, gauge{n}, view{n - 1}")
    lines += ["fold ticks = 0 : acc + 1 + gauge0 * 0", "signal alarm = view7 > 100"]
    for thread in range(threads):
        lines.append("thread")
        one, other = thread % 8, (thread + 3) % 8
        for n in range(calls):
            kinds = [
                f"fire page = {n % 7} look view7",
                f"fire gauge{one} = {n % 211} look alarm",
                "read view3, view7, alarm",
                f"fire gauge{one} = {n % 13}, gauge{other} = {n % 17}",
            ]
            lines.append(kinds[(n + thread) % 4])
    return "".join(line + "\n" for line in lines)

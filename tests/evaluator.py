"""What the calls of a deck come to, written by docs/decks.md and docs/reports.md alone: it shares nothing with the program.

`judge` tells what is wrong with a report of a deck, if anything is. A report may have its calls in any order that calls of
threads can take; all else in it follows from that order and the deck. Decks have to be without faults.

A value is an `int`, or the words that a report has for it: `true`, `false`, `fault kind` and so on.
"""

import json
import re
import typing

LEAST, LARGEST = -(2**63), 2**63 - 1
VERSIONS = 4_000_000
TRUE, FALSE = "true", "false"
OVERFLOW, ZERO_DIVISOR, KIND, NO_CHOICE = "fault overflow", "fault zero-divisor", "fault kind", "fault no-choice"
FAULTS = frozenset([OVERFLOW, ZERO_DIVISOR, KIND, NO_CHOICE])
TRUTHS = frozenset([TRUE, FALSE])

WORD = r"[A-Za-z0-9_]+"
SIGNS = ["??", "||", "&&", "==", "!=", "<=", ">=", "<", ">", "+", "-", "*", "/", "%", "!", "(", ")", "=", ",", ":"]
PIECE = re.compile("|".join([WORD] + [re.escape(sign) for sign in SIGNS]))

# The levels of two-sided operators, the loosest first.
COMPARISONS = ["==", "!=", "<", "<=", ">", ">="]
LEVELS = [["??"], ["||"], ["&&"], COMPARISONS, ["+", "-"], ["*", "/", "%"]]


# ---- operators over values


def is_number(value):
    return type(value) is int


def in_range(number):
    return number if LEAST <= number <= LARGEST else OVERFLOW


def truth(condition):
    return TRUE if condition else FALSE


def quotient(a, b):
    """The quotient, cut toward 0."""
    return abs(a) // abs(b) if (a < 0) == (b < 0) else -(abs(a) // abs(b))


def divided(a, b):
    return in_range(quotient(a, b)) if b else ZERO_DIVISOR


def remainder(a, b):
    return a - b * quotient(a, b) if b else ZERO_DIVISOR


OF_NUMBERS = {
    "+": lambda a, b: in_range(a + b),
    "-": lambda a, b: in_range(a - b),
    "*": lambda a, b: in_range(a * b),
    "/": divided,
    "%": remainder,
    "<": lambda a, b: truth(a < b),
    "<=": lambda a, b: truth(a <= b),
    ">": lambda a, b: truth(a > b),
    ">=": lambda a, b: truth(a >= b),
}


def combined(sign, a, b):
    """What an operator that wants both its sides gives for two values that are no faults."""
    if sign in ("==", "!="):
        return truth((a == b) == (sign == "==")) if is_number(a) == is_number(b) else KIND
    return OF_NUMBERS[sign](a, b) if is_number(a) and is_number(b) else KIND


# ---- scripts, each a function from the values of names to a value


def two_sided(sign, left, right):
    def strict(values):
        a = left(values)
        if a in FAULTS:
            return a
        b = right(values)
        return b if b in FAULTS else combined(sign, a, b)

    def default(values):
        a = left(values)
        return right(values) if a in FAULTS else a

    def short(values):
        a = left(values)
        if a not in TRUTHS:
            return a if a in FAULTS else KIND
        if a == (FALSE if sign == "&&" else TRUE):
            return a
        b = right(values)
        return KIND if is_number(b) else b

    return {"??": default, "&&": short, "||": short}.get(sign, strict)


def negative(operand):
    def value(values):
        a = operand(values)
        if a in FAULTS:
            return a
        return in_range(-a) if is_number(a) else KIND

    return value


def opposite(operand):
    def value(values):
        a = operand(values)
        if a in FAULTS:
            return a
        return truth(a == FALSE) if a in TRUTHS else KIND

    return value


def choice(condition, then, other):
    def value(values):
        a = condition(values)
        if a not in TRUTHS:
            return a if a in FAULTS else KIND
        return then(values) if a == TRUE else other(values)

    return value


class Reader:
    """Reads the words and signs of a line from left to right."""

    def __init__(self, pieces):
        self.pieces = pieces
        self.place = 0
        self.names = []

    def next(self):
        return self.pieces[self.place] if self.place < len(self.pieces) else None

    def take(self, wanted=None):
        piece = self.next()
        if piece is None or wanted not in (None, piece):
            raise ValueError(f"{piece!r} where {wanted or 'more'} was wanted in {self.pieces}")
        self.place += 1
        return piece

    def has(self, wanted):
        if self.next() != wanted:
            return False
        self.place += 1
        return True

    def script(self):
        if not self.has("if"):
            return self.operators(0)
        condition = self.script()
        self.take("then")
        then = self.script()
        self.take("else")
        return choice(condition, then, self.script())

    def operators(self, level):
        if level == len(LEVELS):
            return self.prefix()
        left = self.operators(level + 1)
        while self.next() in LEVELS[level]:
            sign = self.take()
            left = two_sided(sign, left, self.operators(level + 1))
            if sign in COMPARISONS:
                break
        return left

    def prefix(self):
        if self.has("-"):
            return negative(self.prefix())
        if self.has("!"):
            return opposite(self.prefix())
        return self.atom()

    def atom(self):
        if self.has("("):
            inside = self.script()
            self.take(")")
            return inside
        word = self.take()
        if word.isdigit():
            number = int(word)
            return lambda values: number
        if word in TRUTHS:
            return lambda values: word
        self.names.append(word)
        return lambda values: values[word]

    def value(self):
        sign = -1 if self.has("-") else 1
        word = self.take()
        return sign * int(word) if word.isdigit() else word

    def name_list(self):
        names = [self.take()]
        while self.has(","):
            names.append(self.take())
        return names


# ---- decks


class Selector(typing.NamedTuple):
    script: typing.Callable
    candidates: typing.List[str]


class Node(typing.NamedTuple):
    """A declaration. A source has no script, a choose has selectors, and perhaps a body for its script."""

    kind: str
    name: str
    start: typing.Any
    script: typing.Optional[typing.Callable]
    inputs: typing.List[str]
    selectors: typing.List[Selector]


class Call(typing.NamedTuple):
    """A fire has sets, a read has none."""

    kind: str
    sets: typing.List[typing.Tuple[str, typing.Any]]
    looks: typing.List[str]


class Deck(typing.NamedTuple):
    nodes: typing.List[Node]
    threads: typing.List[typing.List[Call]]


def choose_node(name, reader):
    selectors, body = [], None
    while body is None:
        script = reader.script()
        if reader.has("among"):
            selectors.append(Selector(script, reader.name_list()))
            if not reader.has(":"):
                break
        else:
            body = script
    inputs = [name for name in reader.names if not re.fullmatch("pick[1-4]", name)]
    return Node("choose", name, None, body, inputs, selectors)


def declared(kind, reader):
    name = reader.take()
    reader.take("=")
    if kind == "choose":
        return choose_node(name, reader)
    start = reader.value() if kind in ("source", "fold") else None
    if kind == "fold":
        reader.take(":")
    script = None if kind == "source" else reader.script()
    return Node(kind, name, start, script, [name for name in reader.names if name != "acc"], [])


def called(kind, reader):
    if kind == "read":
        return Call(kind, [], reader.name_list())
    sets = []
    while not sets or reader.has(","):
        name = reader.take()
        reader.take("=")
        sets.append((name, reader.value()))
    return Call(kind, sets, reader.name_list() if reader.has("look") else [])


def read_deck(text):
    """The deck that a text spells. A text that spells none is refused by an exception or read as any deck."""
    deck = Deck([], [])
    for line in text.split("\n"):
        reader = Reader(PIECE.findall(line.split("#")[0]))
        if reader.next() is None:
            continue
        kind = reader.take()
        if kind == "thread":
            deck.threads.append([])
        elif kind in ("fire", "read"):
            deck.threads[-1].append(called(kind, reader))
        else:
            deck.nodes.append(declared(kind, reader))
        if reader.next() is not None:
            raise ValueError(f"{reader.next()!r} stands behind the line {line!r}")
    return deck


def misnamed(deck, call):
    """The place of a call's first wrong name, counted from 1, or None."""
    nodes = {node.name for node in deck.nodes}
    sources = {node.name for node in deck.nodes if node.kind == "source"}
    wrong = [name not in sources for name, _ in call.sets] + [name not in nodes for name in call.looks]
    return wrong.index(True) + 1 if True in wrong else None


# ---- calls, one after the other


def picked(selector, values):
    """The candidate that a selector selects and no fault, or none and the fault."""
    number = selector.script(values)
    if not is_number(number):
        return None, number if number in FAULTS else KIND
    if 0 <= number < len(selector.candidates):
        return selector.candidates[number], None
    return None, NO_CHOICE


class Machine:
    """The values of all nodes, and what each choose picks."""

    def __init__(self, nodes):
        self.nodes = nodes
        self.values = {}
        self.picks = {}
        for node in nodes:
            if node.kind in ("source", "fold"):
                self.values[node.name] = node.start
            else:
                self.compute(node)

    def compute(self, node):
        """The new value of a signal or a choose."""
        if node.kind == "signal":
            self.values[node.name] = node.script(self.values)
            return
        found = [picked(selector, self.values) for selector in node.selectors]
        self.picks[node.name] = [candidate for candidate, _ in found if candidate]
        given = [self.values[candidate] if candidate else fault for candidate, fault in found]
        bodies = {f"pick{place}": value for place, value in enumerate(given, 1)}
        self.values[node.name] = node.script(bodies) if node.script else given[0]

    def fire(self, sets):
        """Makes a fire, and answers how many nodes changed and how many were evaluated."""
        before, resting = dict(self.values), {node.name: self.rests_on(node) for node in self.nodes}
        self.values.update(sets)
        for node in self.nodes:
            if node.kind == "fold":
                if any(self.values[name] != before[name] for name in node.inputs):
                    self.values[node.name] = node.script({**self.values, "acc": before[node.name]})
            elif node.kind != "source":
                self.compute(node)
        changed = {name for name in before if before[name] != self.values[name]}
        evaluated = [node for node in self.nodes if node.kind != "source" and not changed.isdisjoint(resting[node.name])]
        return len(changed), len(evaluated)

    def rests_on(self, node):
        return node.inputs + self.picks.get(node.name, [])

    def shown(self, names):
        return ", ".join(f"{name}={self.values[name]}" for name in names)


# ---- reports


def call_line(machine, version, thread, call):
    """Makes a call, and answers its line."""
    head = f"call {version} thread {thread}"
    if call.kind == "read":
        return f"{head} read {machine.shown(call.looks)}"
    changed, evaluated = machine.fire(call.sets)
    looks = f" look {machine.shown(call.looks)}" if call.looks else ""
    return f"{head} fire changed {changed} evaluated {evaluated}{looks}"


def refusal_lines(deck, made, versions):
    """The lines of refused calls, where so many well-named calls of each thread were made."""
    for thread, calls in enumerate(deck.threads, 1):
        left = made.get(thread, 0)
        for number, call in enumerate(calls, 1):
            place = misnamed(deck, call)
            if place:
                yield f"refused thread {thread} call {number} unknown name {place}"
            elif left == 0:
                yield f"refused thread {thread} call {number} versions used up {versions}"
            else:
                left -= 1


def well_named(deck):
    return [[call for call in calls if not misnamed(deck, call)] for calls in deck.threads]


def report_of(deck, order, versions=VERSIONS):
    """The report in which the calls stand in this order, a list of versions and threads that can be."""
    machine, calls = Machine(deck.nodes), [iter(each) for each in well_named(deck)]
    lines, made = [], {}
    for version, thread in order:
        lines.append(call_line(machine, version, thread, next(calls[thread - 1])))
        made[thread] = made.get(thread, 0) + 1
    refused = list(refusal_lines(deck, made, versions))
    finals = [f"final {machine.shown([node.name])}" for node in deck.nodes]
    done = f"done {len(order)} accepted {len(refused)} refused"
    return "".join(line + "\n" for line in [*lines, *refused, *finals, done])


def can_begin_and_end(order):
    """Whether calls can begin by their versions and end in this order, a thread's next call behind the end of its last."""
    threads, live, begun = dict(order), {}, 0
    for version, thread in order:
        while begun < version:
            begun += 1
            if threads[begun] in live:
                return False
            live[threads[begun]] = begun
        if live.pop(thread, None) != version:
            return False
    return True


def faults_of_order(deck, order, versions):
    """What is wrong with the versions and threads of a report's calls."""
    calls = well_named(deck)
    accepted = min(versions, sum(len(each) for each in calls))
    if len(order) != accepted:
        yield f"{len(order)} calls are accepted, wanted {accepted}"
    elif sorted(version for version, _ in order) != list(range(1, accepted + 1)):
        yield "the versions are not those from 1 on"
    elif any(not 1 <= thread <= len(calls) for _, thread in order):
        yield "a call is of no thread"
    elif any([of for _, of in order].count(thread) > len(each) for thread, each in enumerate(calls, 1)):
        yield "a thread has more calls than the deck gives it"
    elif not can_begin_and_end(order):
        yield "calls that begin by these versions can't end in this order"


# ---- reports as JSON

CALL = "call {version} thread {thread} "
FIRE = CALL + "fire changed {changed} evaluated {evaluated}"
REFUSED = "refused thread {thread} call {call} "

# The lines for calls: the list that each is put into, what it has there beside its own fields, and its form.
LINES = [
    ("calls", {"kind": "fire", "looks": []}, FIRE),
    ("calls", {"kind": "fire"}, FIRE + " look {looks}"),
    ("calls", {"kind": "read"}, CALL + "read {looks}"),
    ("refused", {"reason": "unknown name"}, REFUSED + "unknown name {place}"),
    ("refused", {"reason": "versions used up"}, REFUSED + "versions used up {limit}"),
]


def fields(form, line):
    """The fields of a line, or none where it has another form: looks are any text, all others are numbers."""
    pattern = re.sub(r"\{(\w+)\}", r"(?P<\1>[0-9]+)", form.replace("{looks}", "(?P<looks>.+)"))
    found = re.fullmatch(pattern, line)
    return found and {key: looks(text) if key == "looks" else int(text) for key, text in found.groupdict().items()}


def value(text):
    if text in TRUTHS:
        return text == TRUE
    return {"fault": text[len("fault ") :]} if text in FAULTS else int(text)


def looks(text):
    pairs = [look.split("=") for look in text.split(", ")]
    return [{"name": name, "value": value(rest)} for name, rest in pairs]


def json_of(text):
    """The JSON line of a report that is given as text."""
    *lines, done = text.splitlines()
    whole = {"accepted": fields("done {accepted} accepted {refused} refused", done)["accepted"]}
    whole.update(calls=[], finals=[], refused=[])
    for line in lines:
        if line.startswith("final "):
            whole["finals"] += fields("final {looks}", line)["looks"]
        for kind, beside, form in LINES:
            found = fields(form, line)
            if found:
                whole[kind].append({**beside, **found})
    return json.dumps(whole, sort_keys=True, separators=(",", ":")) + "\n"


# ---- what is wrong with a report


def differences(wanted, told):
    """What a text has otherwise than another, line by line."""
    wanted, told = wanted.split("\n"), told.split("\n")
    found = [f"line {n}: {b!r}, wanted {a!r}" for n, (a, b) in enumerate(zip(wanted, told), 1) if a != b]
    if len(wanted) != len(told):
        found.append(f"{len(told) - 1} lines, wanted {len(wanted) - 1}")
    return found


def judge(deck_text, report_text, versions=VERSIONS):
    """What is wrong with a report of a deck under a limit of versions: a list of complaints, none where it is right."""
    deck = read_deck(deck_text)
    heads = re.findall("^call ([0-9]{1,9}) thread ([0-9]{1,9}) ", report_text, re.MULTILINE)
    order = [(int(version), int(thread)) for version, thread in heads]
    found = list(faults_of_order(deck, order, versions))
    return found or differences(report_of(deck, order, versions), report_text)


def judge_json(deck_text, line, versions=VERSIONS):
    """What is wrong with a report as JSON."""
    deck = read_deck(deck_text)
    try:
        order = [(call["version"], call["thread"]) for call in json.loads(line)["calls"]]
    except (ValueError, KeyError, TypeError) as fault:
        return [f"it has no calls: {fault!r}"]
    found = list(faults_of_order(deck, order, versions))
    return found or differences(json_of(report_of(deck, order, versions)), line)

#!/usr/bin/env python3
"""Checks a report of `tetri plan` against its trace, by the published rules alone.

usage: tools/check.py TRACE REPORT

For an auditor who trusts neither tetri nor its prover: Python 3 alone, no search, no rounding. The rules and the words
are those of docs/FORMATS.md, docs/ASKS.md and docs/CERTIFICATES.md. What is tested, in this order, and where:

  trace       every line, as far as the first that is faulty                           Trace, Text
  report      each line has a form, and may stand behind the one before it             Report, FORMS, BEHIND
  cycle       once the line behind its block was read, by `judge`:
    grants    lawful; worth VALUE; each earns something; worth no less than the carry  Instance, worth, earning
    bound     the sum of the tops, or a proper tree over the program of the cycle      Program, weighed, tree_bound
    mark      optimal where VALUE is BOUND, else wide or spent; NODES
    slot      the number of the cycle, what happened, the starts, the launches         State
  summary     the counts                                                               State.counts

Read `judge` first, the list of the tests; then `worth` and `Instance.fault_of`: what a plan is, and what it is worth;
`Program`: whole numbers that stand for all lawful plans; `weighed` and `tree_bound`: why none is worth more than BOUND.
What a report claims of its plans stands on these; the rest reads, follows the slots, counts. Ends as those of `check`:
0, `accepted N`; 1, `refused: line L: WHY`; 2, a wrong call; 3, an unreadable file; 5, `bad trace: line L: WHY`.
"""
import json
import math
import re
import sys
from collections import defaultdict, namedtuple
from functools import lru_cache
from itertools import accumulate

MOST_WORTH, MOST_SETS, MOST_JOBS = 10 ** 12, 4096, 100000      # of an expression; in a trace
LONGEST_LINE, LONGEST_TRACE = 2 ** 20, 2 ** 26      # bytes; a line without its line feed
WIDEST = 2000                       # columns, and rows, of a program for which a tree stands
U32, U64, RANGE = 2 ** 32 - 1, 2 ** 64 - 1, 2 ** 127 - 1       # numbers of trees are from -RANGE to RANGE

class Refusal(Exception):
    """Why a file is refused, and at which line: None for the line that is read."""

def require(holds, why, line=None):
    """Refuses a file unless this holds."""
    if not holds:
        raise Refusal(why, line)

def lines_of(path):
    """The lines of a file with their numbers; one that is too long is cut short behind the limit."""
    with open(path, "rb") as file:
        yield from enumerate(iter(lambda: file.readline(LONGEST_LINE + 2), b""), 1)

# ---- The trace
# A job as it arrived. `late` is how many slots longer its pieces run, `work` an expression or an Ask.
Job = namedtuple("Job", "name arrival late work")
# The numbers of an ask, its value times the unit; its places: None or the preferred set and duration, and the other.
Ask = namedtuple("Ask", "k places value deadline decays elastic")

class Trace:
    """What a trace says. Nodes and jobs are numbered from 0, in the order in which they come."""
    def __init__(self):
        self.names, self.nodes = [], {}     # the name of each node; the number of each, by name
        self.tags = defaultdict(set)        # the nodes of each tag
        self.closed = defaultdict(int)      # of a node a number whose bit S is 1 where the node is closed in slot S
        self.sets = {}                      # each set of nodes that a leaf or an ask names, once
        self.jobs, self.job_numbers = [], {}
        self.events = defaultdict(list)     # of a slot its events in order: key, and number of the job or node
        self.line = self.size = self.last_slot = 0      # so far: lines, bytes, and the slot of the last event

    def read(self, path):
        """Reads the trace in a file."""
        for self.line, text in lines_of(path):
            self.read_line(text)
        self.line += 1
        require(self.nodes, "no-header")

    def read_line(self, text):
        """Reads a line."""
        self.size += len(text)
        require(len(text.rstrip(b"\n")) <= LONGEST_LINE, "line-too-long")
        require(self.size <= LONGEST_TRACE, "trace-too-long")
        if text.strip(b" \t\r\n"):
            (self.read_event if self.nodes else self.read_header)(json_object(text))

    def read_header(self, header):
        """Reads the first object."""
        require("nodes" in header, "no-header")
        require_keys(header, "window budget until")
        nodes = field(header, "nodes", lambda value: is_list(value, is_node, 1, 4096))
        self.window, self.budget = field(header, "window", whole(1, 64)), field(header, "budget", whole(1, 10000))
        self.until, self.unit = field(header, "until", whole(1, 10000)), field(header, "unit", whole(1, 1000000), 1)
        closures = field(header, "closures", lambda value: is_list(value, is_closure, 0, 4096), [])
        self.names = [node["name"] for node in nodes]
        self.nodes = {name: number for number, name in enumerate(self.names)}
        require(len(self.nodes) == len(self.names), "name-taken")
        for number, node in enumerate(nodes):
            for tag in node.get("tags") or ():
                self.tags[tag].add(number)
        for closure in closures:
            require(closure["node"] in self.nodes, "no-such-node")
            self.closed[self.nodes[closure["node"]]] |= slots(closure["from"], closure["to"] + 1)

    def read_event(self, event):
        """Reads an object behind the header."""
        require_keys(event, "at")
        slot = field(event, "at", whole(0, 2 ** 63 - 1))
        keys = [key for key in ("arrive", "cancel", "drain", "undrain", "fail") if key in event]
        require(len(keys) == 1, "unknown-event")
        key = keys[0]
        if key == "arrive":
            require_wish(event)
        name = field(event, key, is_name)
        job = self.read_job(event, name, slot) if key == "arrive" else None
        require(slot >= self.last_slot, "out-of-order")
        require(slot < self.until, "past-end")
        self.last_slot = slot
        if job:
            self.add_job(job)
        numbers, fault = (self.job_numbers, "job") if key in ("arrive", "cancel") else (self.nodes, "node")
        require(name in numbers, "no-such-" + fault)
        self.events[slot].append((key, numbers[name]))

    def read_job(self, event, name, slot):
        """The job that arrives; its work has texts yet, in place of expressions and sets."""
        late = field(event, "late", whole(-10000, 10000), 0)
        if "strl" in event:
            return Job(name, slot, late, field(event, "strl", lambda value: is_text(value) and "ask" not in event))
        ask = field(event, "ask", lambda value: isinstance(value, dict))
        k, other = field(ask, "k", whole(1, 4096)), field(ask, "set", is_text, "*")
        dur = field(ask, "dur", whole(1, 10000))
        value = self.unit * field(ask, "value", whole(0, MOST_WORTH // self.unit))
        deadline = field(ask, "deadline", whole(1, 20000))
        place = field(ask, "prefer", lambda value: value is None or isinstance(value, dict))
        if place is not None:
            place = field(place, "set", is_text, at="prefer."), field(place, "dur", whole(1, 10000), dur, "prefer.")
        decays = field(ask, "class", lambda value: value in ("steady", "decay"), "steady") == "decay"
        elastic = field(ask, "elastic", lambda value: isinstance(value, bool), False)
        return Job(name, slot, late, Ask(k, (place, (other, dur)), value, deadline, decays, elastic))

    def add_job(self, job):
        """Adds a job, once its texts are read: the set of an ask before the preferred one."""
        require(job.name not in self.job_numbers, "name-taken")
        if isinstance(job.work, Ask):
            places = [place and (Text(self, place[0]).read(Text.set), place[1]) for place in reversed(job.work.places)]
            work = job.work._replace(places=places[::-1])
        else:
            work = Text(self, job.work, job.arrival).read(lambda text: text.expression(1)[0])
        require(len(self.jobs) < MOST_JOBS, "too-many-jobs")
        self.job_numbers[job.name] = len(self.jobs)
        self.jobs.append(job._replace(work=work))

def require_keys(thing, keys, at=""):
    """Refuses an object that lacks one of these keys."""
    for key in keys.split():
        require(key in thing, "missing-field " + at + key)

def require_wish(event):
    """Refuses an arrival that lacks what it asks for."""
    require("strl" in event or "ask" in event, "missing-field strl")
    ask = event.get("ask")
    if isinstance(ask, dict):
        require_keys(ask, "k dur value deadline")
        if isinstance(ask.get("prefer"), dict):
            require_keys(ask["prefer"], "set", "prefer.")

def field(thing, key, is_right, default=None, at=""):
    """What a key of an object holds, which has to be right, or the default where it is left out or holds null."""
    value = default if thing.get(key) is None else thing[key]
    require(is_right(value), "bad-field " + at + key)
    return value

def whole(low, high):
    """A test for whole numbers in these limits."""
    return lambda value: type(value) is int and low <= value <= high

def is_text(value):
    """A test for texts."""
    return isinstance(value, str)

def is_name(value):
    """A test for names."""
    return is_text(value) and re.fullmatch("[A-Za-z0-9_.:/-]{1,64}", value) is not None

def is_list(value, is_right, least, most):
    """A test for lists of so many right things."""
    return isinstance(value, list) and least <= len(value) <= most and all(map(is_right, value))

def is_node(value):
    """A test for objects that describe a node."""
    has_name = isinstance(value, dict) and is_name(value.get("name"))
    return has_name and (value.get("tags") is None or is_list(value["tags"], is_name, 0, LONGEST_LINE))

def is_closure(value):
    """A test for objects that describe a closure."""
    has_name = isinstance(value, dict) and is_name(value.get("node"))
    return has_name and whole(0, 30000)(value.get("to")) and whole(0, value["to"])(value.get("from"))

def json_object(line):
    """The object of a line: JSON in UTF-8, at most 127 deep, without half surrogate pairs; the last of equal keys."""
    try:
        text = line.decode("utf-8")
        value = json.loads(text, parse_int=json_number, parse_float=json_number, parse_constant=json_number)
        tokens = re.findall(r'"[^"\\]*(?:\\.[^"\\]*)*"|[\[{}\]]', text)
        json.dumps([json.loads(token) for token in tokens if "\\u" in token], ensure_ascii=False).encode("utf-8")
    except (ValueError, RecursionError):
        raise Refusal("not-json", None)
    require(max(accumulate((token in "[{") - (token in "]}") for token in tokens), default=0) <= 127, "not-json")
    require(isinstance(value, dict), "not-object")
    return value

def json_number(digits):
    """A whole number of 64 bits, or any other as a float, which no key may hold; NaN and Infinity are no JSON."""
    if not math.isfinite(float(digits)):
        raise ValueError(digits)
    is_whole = re.fullmatch("0|-?[1-9][0-9]*", digits) and -2 ** 63 <= int(digits) < 2 ** 63
    return int(digits) if is_whole else float(digits)

# ---- Expressions: their texts
# `nCk`, or `LnCk` where it is linear: k nodes of a set, from slot `start` on for `dur` slots, together worth `value`.
Leaf = namedtuple("Leaf", "number nodes k start dur value linear")
# `max`, `min` or `sum` of its parts, or `scale` of its one part by the number, or `barrier` at it.
Compound = namedtuple("Compound", "kind parts number")
NAME = "[A-Za-z0-9_.:/-]+"
FAULTS = ("unknown-set", "uneven", "mixed", "too-rich", "too-many-sets")

class Text:
    """A text of STRL. A fault of form ends it; the first in place of those of meaning is told at its end."""
    def __init__(self, trace, text, arrival=0):
        self.trace, self.arrival = trace, arrival
        self.text = text.encode("utf-8").decode("latin-1")
        self.place = self.number_place = 0
        self.faults, self.leaf_places = [], []

    def read(self, part):
        """The whole text, which has to be this part."""
        found = part(self)
        self.need(self.skip() == len(self.text), self.place, "trailing")
        for place, fault in sorted(self.faults):
            self.need(False, place, FAULTS[fault])
        return found

    def need(self, holds, place, fault):
        """Ends the text with a fault unless this holds."""
        require(holds, "bad-strl %d %s" % (place, fault))

    def note(self, holds, place, fault):
        """Gathers a fault of meaning unless this holds."""
        if not holds:
            self.faults.append((place, FAULTS.index(fault)))

    def skip(self):
        """Passes blanks, and gives the place behind them."""
        self.place = re.compile("[ \t\r\n]*").match(self.text, self.place).end()
        return self.place

    def has(self, mark):
        """Whether this mark stands next, which is passed then."""
        found = self.text.startswith(mark, self.skip())
        self.place += found
        return found

    def take(self, pattern):
        """What stands next, which has to be of this pattern."""
        found = re.compile(pattern).match(self.text, self.skip())
        self.need(found, self.place, "unexpected" if self.place < len(self.text) else "ended")
        self.place = found.end()
        return found.group()

    def listed(self, read, mark):
        """Parts with this mark between them."""
        parts = [read()]
        while self.has(mark):
            parts.append(read())
        return parts

    def number(self, low, high):
        """A number in these limits, behind a comma; one of twenty digits is above all of them."""
        self.take(",")
        digits = self.take("[0-9]+")
        self.number_place = self.place - len(digits)
        number = int(digits.lstrip("0")[:20] or "0")
        self.need(low <= number <= high, self.number_place, "number-range")
        return number

    def set(self):
        """The nodes that all parts of a set share."""
        place = self.skip()
        nodes = frozenset.intersection(*self.listed(lambda: self.set_part(place), "&"))
        self.note(nodes in self.trace.sets or len(self.trace.sets) < MOST_SETS, place, "too-many-sets")
        return self.trace.sets.setdefault(nodes, nodes)

    def set_part(self, place):
        """The nodes of a part of the set at this place."""
        if self.has("*"):
            return frozenset(self.trace.nodes.values())
        if not self.has("{"):
            tag = self.take(NAME)
            self.note(tag in self.trace.tags, place, "unknown-set")
            return frozenset(self.trace.tags.get(tag, ()))
        if self.has("}"):
            return frozenset()
        nodes = {self.trace.nodes.get(name) for name in self.listed(lambda: self.take(NAME), ",")}
        self.take("}")
        self.note(None not in nodes, place, "unknown-set")
        return frozenset(nodes)

    def expression(self, depth):
        """An expression that is so deep in the text, and what it may be worth at most."""
        word = self.take("[A-Za-z]+")
        place = self.place - len(word)
        self.need(word in ("nCk", "LnCk", "max", "min", "sum", "scale", "barrier"), place, "unexpected")
        self.need(depth <= 64, place, "too-deep")
        expression, most = self.leaf(word, place) if word in ("nCk", "LnCk") else self.compound(word, depth)
        self.note(most <= MOST_WORTH, place, "too-rich")
        return expression, most

    def leaf(self, word, place):
        """A leaf behind its word, which stands at this place."""
        self.need(len(self.leaf_places) < 128, place, "too-many-leaves")
        self.leaf_places.append(place)
        self.take(r"\(")
        nodes, k = self.set(), self.number(1, 4096)
        start, dur = self.arrival + self.number(0, 10000), self.number(1, 10000)
        value = self.number(0, MOST_WORTH) * self.trace.unit
        self.note(word == "nCk" or value % k == 0, self.number_place, "uneven")
        self.take(r"\)")
        return Leaf(len(self.leaf_places) - 1, nodes, k, start, dur, value, word == "LnCk"), value

    def compound(self, kind, depth):
        """A compound expression behind its word."""
        self.take(r"\(")
        if kind in ("max", "min", "sum"):
            read, number = self.listed(lambda: self.expression(depth + 1), ","), 0
        else:
            read, number = [self.expression(depth + 1)], self.number(0, MOST_WORTH)
        number *= self.trace.unit if kind == "barrier" else 1
        self.take(r"\)")
        parts, mosts = zip(*read)
        leaves = leaves_in(Compound(kind, parts, number))
        for leaf in leaves if kind in ("min", "sum") else ():
            self.note(leaf.start == leaves[0].start, self.leaf_places[leaf.number], "mixed")
        most = {"sum": sum(mosts), "scale": number * mosts[0]}.get(kind, max(*mosts, number))
        return Compound(kind, parts, number), most

# ---- Expressions: what they are worth
def leaves_in(expression):
    """The leaves of an expression."""
    if isinstance(expression, Leaf):
        return [expression]
    return [leaf for part in expression.parts for leaf in leaves_in(part)]

def worth_by(expression, worth_of_leaf):
    """What an expression is worth, by what each leaf is worth."""
    if isinstance(expression, Leaf):
        return worth_of_leaf(expression)
    worths = [worth_by(part, worth_of_leaf) for part in expression.parts]
    if expression.kind == "scale":
        return expression.number * worths[0]
    if expression.kind == "barrier":
        return expression.number if worths[0] >= expression.number else 0
    return {"max": max, "min": min, "sum": sum}[expression.kind](worths)

def worth(expression, granted):
    """What it is worth where each leaf is granted so many nodes."""
    def of_leaf(leaf):
        count = granted.get(leaf.number, 0)
        return leaf.value // leaf.k * min(count, leaf.k) if leaf.linear else leaf.value if count == leaf.k else 0
    return worth_by(expression, of_leaf)

def top(expression, first, end):
    """What it is worth where each leaf that starts from slot `first` on and before slot `end` is worth its value."""
    return worth_by(expression, lambda leaf: leaf.value if first <= leaf.start < end else 0)

def earning(expression, granted):
    """The numbers of the leaves that earn what it is worth: of a `max` those of the first part that is worth most."""
    if worth(expression, granted) == 0:
        return set()
    if isinstance(expression, Leaf):
        return {expression.number}
    parts = expression.parts
    counting = [max(parts, key=lambda part: worth(part, granted))] if expression.kind == "max" else parts
    return set().union(*(earning(part, granted) for part in counting))

def pruned(expression, first, end):
    """What is left of it without the leaves that start outside these slots; None where nothing is."""
    if isinstance(expression, Leaf):
        return expression if first <= expression.start < end else None
    parts = [pruned(part, first, end) for part in expression.parts]
    left = [part for part in parts if part is not None]
    if not left or (expression.kind == "min" and len(left) < len(parts)):
        return None
    return expression._replace(parts=left)

def options(ask, arrival, start):
    """The leaves that an ask offers for a start, as far as they end in time: on preferred nodes, then on the others."""
    leaves = []
    for is_other, (nodes, dur) in ((number, place) for number, place in enumerate(ask.places) if place):
        took = start + dur - arrival
        value = ask.value * (ask.deadline - took + 1) // ask.deadline if ask.decays else ask.value
        value -= value % ask.k if ask.elastic else 0
        if took <= ask.deadline:
            leaves.append(Leaf(2 * (start - arrival) + is_other, nodes, ask.k, start, dur, value, ask.elastic))
    return leaves

def offer(job, first, end):
    """The expression that a pending job offers for a window. An ask that did not expire has an option at once."""
    if not isinstance(job.work, Ask):
        return job.work
    leaves = [leaf for start in range(first, end) for leaf in options(job.work, job.arrival, start)]
    return Compound("max", leaves, 0) if len(leaves) > 1 else leaves[0]

def is_useless(job, now):
    """Whether a job can be worth nothing by starts from now on. An ask is worth no less where it starts earlier."""
    if isinstance(job.work, Ask):
        return all(leaf.value == 0 for leaf in options(job.work, job.arrival, now))
    return top(job.work, now, math.inf) == 0

# ---- States
# Nodes for a leaf of a job, in the order of the header.
Grant = namedtuple("Grant", "job leaf nodes")
# A leaf of a launched job as it runs: the slot in which it is expected to have ended, and the slot in which it has.
Piece = namedtuple("Piece", "job leaf nodes expected end")
COUNTS = ("cycles", "launched", "ended", "cancelled", "expired", "worth", "optimal")

class State:
    """What is pending and what runs, from slot to slot."""
    def __init__(self, trace):
        self.trace, self.now = trace, 0
        self.drained, self.pending, self.pieces, self.last_plan = set(), set(), [], []
        self.counts = dict.fromkeys(COUNTS, 0)

    def begin(self):
        """Begins the slot, and gives what happens as lines of a report tell it."""
        return self.end_pieces() + self.take_events() + self.run_over() + self.expire()

    def end_pieces(self):
        """Ends the pieces whose time is over. A launch has ended with its last piece."""
        over = [piece for piece in self.pieces if piece.end <= self.now]
        self.pieces = [piece for piece in self.pieces if piece.end > self.now]
        self.counts["ended"] += len({piece.job for piece in over} - {piece.job for piece in self.pieces})
        return sorted(("end", piece.job, piece.leaf) for piece in over)

    def take_events(self):
        """The events of the slot take effect, in the order of the trace."""
        cancelled, failed = [], []
        for key, number in self.trace.events[self.now]:
            if key == "arrive":
                self.pending.add(number)
            elif key == "cancel":
                cancelled += self.stop(lambda piece: piece.job == number) or self.pending & {number}
                self.pending.discard(number)
            elif key == "undrain":
                self.drained.discard(number)
            else:
                self.drained.add(number)
                lost = self.stop(lambda piece: key == "fail" and number in piece.nodes)
                self.pending |= lost
                failed += lost
        self.counts["cancelled"] += len(cancelled)
        return [("cancel", job) for job in cancelled] + [("fail", job) for job in failed]

    def stop(self, is_lost):
        """All pieces end of the jobs with a piece of this kind."""
        jobs = {piece.job for piece in self.pieces if is_lost(piece)}
        self.pieces = [piece for piece in self.pieces if piece.job not in jobs]
        return jobs

    def run_over(self):
        """Pieces that were expected to have ended are expected to end in the next slot."""
        over = sorted(("over", piece.job, piece.leaf) for piece in self.pieces if piece.expected <= self.now)
        self.pieces = [piece._replace(expected=max(piece.expected, self.now + 1)) for piece in self.pieces]
        return over

    def expire(self):
        """Jobs expire that can be worth nothing from now on."""
        expired = sorted(job for job in self.pending if is_useless(self.trace.jobs[job], self.now))
        self.pending -= set(expired)
        self.counts["expired"] += len(expired)
        return [("expire", job) for job in expired]

    def carry(self, instance):
        """What the last plan granted to pending jobs by leaves that may still start, if all is lawful; else nothing."""
        left = [grant for grant in self.last_plan if grant[:2] in instance.live]
        return left if instance.first_fault(left) is None else []

    def launch(self, instance, grants):
        """Launches each job that has a grant which starts now with all its grants, and goes to the next slot."""
        launched = {grant.job for grant in grants if instance.live[grant[:2]].start == self.now}
        kept = [grant for grant in grants if grant.job in launched]
        for grant in kept:
            leaf, late = instance.live[grant[:2]], self.trace.jobs[grant.job].late
            self.pieces.append(Piece(*grant, leaf.start + leaf.dur, leaf.start + max(1, leaf.dur + late)))
        self.counts["cycles"] += 1
        self.counts["launched"] += len(launched)
        self.counts["worth"] += instance.worth_of(kept)
        self.pending -= launched
        self.last_plan, self.now = grants, self.now + 1
        return [("launch", job) for job in sorted(launched)]

# ---- The instance of a cycle
def slots(start, end):
    """A number whose bits from `start` on and before `end` are 1."""
    return (1 << end) - (1 << start)

class Instance:
    """What the pending jobs offer, and which nodes are free for it."""
    def __init__(self, state):
        trace = state.trace
        self.first, self.end = state.now, state.now + trace.window
        self.closed, self.drained = trace.closed, frozenset(state.drained)
        self.busy = {node: piece.expected for piece in state.pieces for node in piece.nodes}
        self.offers = {job: offer(trace.jobs[job], self.first, self.end) for job in sorted(state.pending)}
        self.live = {(job, leaf.number): leaf for job, expression in self.offers.items()
                     for leaf in leaves_in(expression) if self.first <= leaf.start < self.end}

    def is_closed(self, node, start, end):
        """Whether a node is closed in one of these slots."""
        return node in self.closed and self.closed[node] & slots(start, end) != 0

    def is_free(self, node, start, end):
        """Whether a node may be granted over these slots."""
        is_idle = node not in self.drained and self.busy.get(node, self.first) <= start
        return is_idle and not self.is_closed(node, start, end)

    def granted(self, grants):
        """How many nodes each leaf of each job is granted."""
        counts = defaultdict(dict)
        for grant in grants:
            counts[grant.job][grant.leaf] = len(grant.nodes)
        return counts

    def worth_of(self, grants):
        """What grants are worth together."""
        return sum(worth(self.offers[job], counts) for job, counts in self.granted(grants).items())

    def idle(self, grants):
        """The places of the grants that earn their jobs nothing."""
        earn = {job: earning(self.offers[job], counts) for job, counts in self.granted(grants).items()}
        return [place for place, grant in enumerate(grants) if grant.leaf not in earn[grant.job]]

    def first_fault(self, grants):
        """The place of the first grant that breaks a rule, and the rule; None where all are lawful together."""
        places, taken = {}, defaultdict(list)
        for place, grant in enumerate(grants):
            fault = self.fault_of(grant, places, taken)
            if fault:
                return place, fault
            places[grant[:2]] = place
            for node in grant.nodes:
                taken[node].append((place, self.live[grant[:2]]))
        return None

    def fault_of(self, grant, places, taken):
        """The first rule that a grant breaks; the places of those before it are given by leaf and by node."""
        if grant[:2] not in self.live:
            return "not-live" if grant.job in self.offers else "not-pending"
        leaf, nodes, place = self.live[grant[:2]], grant.nodes, places.get(grant[:2])
        start, end = leaf.start, leaf.start + leaf.dur
        broken = [
            *["doubled %d" % place for _ in range(place is not None)],
            *["bad-nodes" for node, behind in zip(nodes, nodes[1:]) if node >= behind],
            *["too-many" for _ in range(len(nodes) > leaf.k)],
            *["outside %d" % node for node in nodes if node not in leaf.nodes],
            *["not-free %d" % node for node in nodes if not self.is_free(node, start, end)],
            *["clash %d %d" % (other, node) for node in nodes for other, held in taken[node]
              if held.start < end and start < held.start + held.dur]]
        return broken[0] if broken else None

# ---- The program of a cycle
class Program:
    """The integer program of an instance. Columns are whole numbers from 0 to upper bounds. A row has terms, pairs of a
    column and a factor, whose sum is at most its right side. The objective is the sum of columns times costs."""
    def __init__(self, instance):
        self.instance, self.upper, self.rows = instance, [], []
        self.available = lru_cache(None)(self.available)
        left = list(filter(None, (pruned(offer, instance.first, instance.end) for offer in instance.offers.values())))
        self.find_partitions({leaf.nodes for expression in left for leaf in leaves_in(expression)})
        objective = defaultdict(int)
        for expression in left:
            for column, factor in self.add(expression, self.column(1)):
                objective[column] += factor
        self.add_supply()
        self.costs = [objective[column] for column in range(len(self.upper))]

    def find_partitions(self, sets):
        """Groups the nodes that are in the same sets and closed in the same slots from now on, by their least nodes."""
        sets_of, groups = defaultdict(list), defaultdict(list)
        for number, nodes in enumerate(sets):
            for node in nodes:
                sets_of[node].append(number)
        for node in sorted(sets_of):
            closed = self.instance.closed.get(node, 0) >> self.instance.first
            groups[tuple(sets_of[node]), closed].append(node)
        self.partitions = list(groups.values())
        self.inside = {nodes: [place for place, group in enumerate(self.partitions) if group[0] in nodes]
                       for nodes in sets}
        self.counts = [[] for _ in self.partitions]     # of each: the columns that count its nodes, with their leaves

    def available(self, partition, slot):
        """How many nodes of a partition are available in a slot."""
        return sum(self.instance.is_free(node, slot, slot + 1) for node in self.partitions[partition])

    def column(self, upper):
        """Adds a column, and gives its number."""
        self.upper.append(upper)
        return len(self.upper) - 1

    def row(self, terms, right=0):
        """Adds a row. Terms of one column are added up, and those of 0 left out."""
        factors = defaultdict(int)
        for column, factor in terms:
            factors[column] += factor
        self.rows.append(([(column, factor) for column, factor in factors.items() if factor], right))

    def add(self, expression, indicator):
        """Adds columns and rows of an expression under an indicator; gives its form, terms that sum to its worth."""
        if isinstance(expression, Leaf):
            return self.add_leaf(expression, indicator)
        if expression.kind in ("max", "sum"):
            return self.add_choice(expression, indicator)
        if expression.kind == "min":
            return self.add_min(expression, indicator)
        form = self.add(expression.parts[0], indicator)
        if expression.kind == "scale":
            return times(expression.number, form)
        self.row([(indicator, expression.number)] + times(-1, form))
        return [(indicator, expression.number)]

    def add_leaf(self, leaf, indicator):
        """A leaf counts the nodes that it takes of each partition in its set."""
        counts = []
        for partition in self.inside[leaf.nodes]:
            is_closed = self.instance.is_closed(self.partitions[partition][0], leaf.start, leaf.start + leaf.dur)
            count = self.column(0 if is_closed else min(leaf.k, self.available(partition, leaf.start)))
            self.counts[partition].append((count, leaf))
            counts.append((count, 1))
        self.row(counts + [(indicator, -leaf.k)])
        if leaf.linear:
            return times(leaf.value // leaf.k, counts)
        self.row([(indicator, leaf.k)] + times(-1, counts))
        return [(indicator, leaf.value)]

    def add_choice(self, expression, indicator):
        """Each part of a `max` or a `sum` has an indicator of its own, of which one may be 1, or all."""
        own = [(self.column(1), 1) for _ in expression.parts]
        self.row(own + [(indicator, -1 if expression.kind == "max" else -len(own))])
        return [term for part, (column, _) in zip(expression.parts, own) for term in self.add(part, column)]

    def add_min(self, expression, indicator):
        """The column of a `min` is at most what each part is worth."""
        column = self.column(top(expression, self.instance.first, self.instance.end))
        for part in expression.parts:
            self.row([(column, 1)] + times(-1, self.add(part, indicator)))
        return [(column, 1)] if self.upper[column] > 0 else []

    def add_supply(self):
        """In no slot of the window are more nodes of a partition used than are available."""
        for partition, counts in enumerate(self.counts):
            for slot in range(self.instance.first, self.instance.end):
                users = [(count, 1) for count, leaf in counts if leaf.start <= slot < leaf.start + leaf.dur]
                if users:
                    self.row(users, self.available(partition, slot))

def times(number, terms):
    """Terms times a number."""
    return [(column, number * factor) for column, factor in terms]

# ---- Certificates
def in_range(number, column):
    """A number that is formed to weigh, at this column."""
    if not -RANGE <= number <= RANGE:
        raise Refusal("past {} %d" % column, None)
    return number

def weighed(program, region, q, weights):
    """The weighed number: by weak duality no point of the region has q times its objective above it."""
    total, taken = 0, defaultdict(list)
    for row, weight in weights:
        terms, right = program.rows[row]
        total = in_range(total + in_range(weight * right, 0), 0)
        for column, factor in terms:
            taken[column].append(weight * factor)
    for column, (cost, lower, upper) in enumerate(zip(program.costs, *region)):
        rest = in_range(q * cost, column)
        for product in taken.get(column, ()):
            rest = in_range(rest - in_range(product, column), column)
        total = in_range(total + in_range(rest * (upper if rest > 0 else lower), column), column)
    return total

def is_point(program, region, cells, objective):
    """Whether these columns with their values, all others being 0, are a point of the region that is worth this."""
    values = defaultdict(int, cells)
    point = [values[column] for column in range(len(program.costs))]
    return (all(column < len(point) for column in values)
            and all(lower <= value <= upper for value, lower, upper in zip(point, *region))
            and all(sum(factor * point[column] for column, factor in terms) <= right for terms, right in program.rows)
            and sum(cost * value for cost, value in zip(program.costs, point)) == objective)

def sides(program, region, column, at):
    """The low side and the high side of a split."""
    lower, upper = region
    require(column < len(upper), "bad-tree {} column")
    require(lower[column] <= at < upper[column], "bad-tree {} at")
    low, high = upper[:column] + [at] + upper[column + 1:], lower[:column] + [at + 1] + lower[column + 1:]
    return [(lower, low), (high, upper)]

def end_bound(program, region, kind, q, weights, objective=0, cells=()):
    """What no point of a region is worth more than, by the node that ends it."""
    require(all(row < len(program.rows) for row, _ in weights), "bad-tree {} row")
    require(all(weight >= 0 for _, weight in weights), "bad-tree {} negative")
    require(q >= 0, "bad-tree {} denominator")
    number = weighed(program, region, q, weights)
    require(q > 0 or number < 0, "bad-tree {} denominator")
    require(kind != "whole" or is_point(program, region, cells, objective), "bad-tree {} point")
    return min(number // q, U64) if q > 0 else 0

def tree_bound(program, nodes):
    """The bound of a proper tree. The regions that are open stand as its nodes come: the next one last."""
    still_open = list(accumulate((1 if node.kind == "split" else -1 for node in nodes), initial=1))
    require(still_open[-1] == 0 and 0 not in still_open[:-1], "bad-tree 0 shape", nodes[0].number)
    regions, bound = [([0] * len(program.upper), program.upper)], 0
    for place, node in enumerate(nodes):
        region = regions.pop()
        try:
            if node.kind == "split":
                regions += sides(program, region, *node.values[:2])
            else:
                bound = max(bound, end_bound(program, region, node.kind, *node.values))
        except Refusal as fault:
            raise Refusal(fault.args[0].format(place), node.number)
    return bound

def certified(instance, lines):
    """The bound that a certificate shows, and how many nodes of it are no `rest`."""
    program = Program(instance)
    columns, rows = len(program.upper), len(program.rows)
    wants_tree = bool(instance.offers) and columns <= WIDEST and rows <= WIDEST
    is_right = lines[0].kind != "tops" if wants_tree else lines[0][1:] == ("tops", (columns, rows))
    require(is_right, "bad-tree 0 kind", lines[0].number)
    if wants_tree:
        return tree_bound(program, lines), sum(line.kind != "rest" for line in lines)
    return sum(top(expression, instance.first, instance.end) for expression in instance.offers.values()), 0

# ---- A cycle
# A line of a report: its number, its first word, and what stands behind that.
Line = namedtuple("Line", "number kind values")
EVENTS, TREE = ("end", "cancel", "fail", "over", "expire"), ("split", "close", "whole", "rest")

def judge(state, block, next_line):
    """Tests the lines of a cycle, and goes to the next slot."""
    happened, instance = state.begin(), Instance(state)
    (cycle,), (plan,), lines = of_kind(block, "cycle"), of_kind(block, "plan"), of_kind(block, "grant")
    value, bound, mark, nodes = plan.values
    grants = [Grant(job, leaf, granted) for job, leaf, _, granted in (line.values for line in lines)]
    fault = instance.first_fault(grants)
    if fault is not None:
        raise Refusal("unlawful %d %s" % fault, lines[fault[0]].number)
    found = instance.worth_of(grants)
    require(value == found, "wrong-value %d %d" % (value, found), plan.number)
    for place in instance.idle(grants):
        raise Refusal("waste-grant %d" % place, lines[place].number)
    carried = instance.worth_of(state.carry(instance))
    require(value >= carried, "below-carry %d %d" % (value, carried), plan.number)
    certificate = of_kind(block, "tops", *TREE)
    shown, counted = certified(instance, certificate)
    require(bound == shown, "wrong-bound %d %d" % (bound, shown), plan.number)
    right_mark = "optimal" if value == bound else "wide" if certificate[0].kind == "tops" else "spent"
    is_counted = nodes == counted and (mark != "spent" or nodes == state.trace.budget)
    require(mark == right_mark and is_counted, "wrong-mark", plan.number)
    require(cycle.values == (state.now,), "wrong-events", cycle.number)
    require_same(of_kind(block, *EVENTS), happened, plan.number)
    for line, grant in zip(lines, grants):
        require(line.values[2] == instance.live[grant[:2]].start, "wrong-events", line.number)
    require_same(of_kind(block, "launch"), state.launch(instance, grants), next_line)
    state.counts["optimal"] += mark == "optimal"

def of_kind(block, *kinds):
    """The lines of these kinds."""
    return [line for line in block if line.kind in kinds]

def require_same(lines, wanted, next_line):
    """Refuses the first line that differs from what is wanted, or the next one where a line is missing."""
    for line, want in zip(lines, wanted + [None] * len(lines)):
        require((line.kind, *line.values) == want, "wrong-events", line.number)
    require(len(lines) >= len(wanted), "wrong-events", next_line)

# ---- The report
def number_in(word, low, high):
    """A number in these limits, without leading zeros."""
    require(re.fullmatch("0|-?[1-9][0-9]{0,38}", word) and low <= int(word) <= high, "malformed")
    return int(word)

def known(table, word):
    """What a word means, which has to be one of these."""
    require(word in table, "malformed")
    return table[word]

def grant_nodes(trace, word):
    """Nodes with commas between them, no more than a trace may have."""
    require(word.count(",") < 4096, "malformed")
    return [known(trace.nodes, name) for name in word.split(",")]

def entries(word, value_in):
    """A dash, or pairs NUMBER:VALUE with commas between them, ascending by their numbers."""
    parts = [entry.partition(":") for entry in word.split(",")] if word != "-" else []
    pairs = [(number_in(number, 0, U32), value_in(value)) for number, _, value in parts]
    require(all(pair[0] < behind[0] for pair, behind in zip(pairs, pairs[1:])), "malformed")
    return pairs

def weight(word):
    """A number of a tree that is not 0."""
    require(word != "0", "malformed")
    return number_in(word, -RANGE, RANGE)

def fraction(word):
    """A fraction in lowest terms that is not 0. Why a region was split is not tested, so nothing is kept of it."""
    numerator, _, denominator = word.partition("/")
    require(math.gcd(weight(numerator), number_in(denominator, 1, RANGE)) == 1, "malformed")

READERS = {
    "job": lambda trace, word: known(trace.job_numbers, word),
    "nodes": grant_nodes,
    "u32": lambda trace, word: number_in(word, 0, U32),
    "u64": lambda trace, word: number_in(word, 0, U64),
    "signed": lambda trace, word: number_in(word, -RANGE, RANGE),
    "weights": lambda trace, word: entries(word, weight),
    "fractions": lambda trace, word: entries(word, fraction),
    "mark": lambda trace, word: known({mark: mark for mark in ("optimal", "spent", "wide")}, word),
    "kind": lambda trace, word: known(dict.fromkeys(("ratio", "row", "entry", "point", "lcm", "weigh")), word),
    "why": lambda trace, word: word}
FORMS = {                           # what stands behind the first word of a line
    "cycle": "u32", "end": "job u32", "cancel": "job", "fail": "job", "over": "job u32", "expire": "job",
    "plan": "u64 u64 mark u32", "grant": "job u32 u32 nodes", "tops": "u64 u64", "launch": "job",
    "split point": "u32 signed why fractions", "split past": "u32 signed why kind u32 u32 u32",
    "split long": "u32 signed why", "close": "signed weights", "whole": "signed weights signed weights",
    "rest": "signed weights"}
BEHIND = {                          # the lines that may stand behind each line
    None: ("cycle", "summary"),
    "cycle": (*EVENTS, "plan"),
    **{kind: (*EVENTS[place:], "plan") for place, kind in enumerate(EVENTS)},
    **dict.fromkeys(("plan", "grant"), ("grant", "tops", *TREE)),
    **dict.fromkeys(TREE, (*TREE, "launch", "cycle", "summary")),
    **dict.fromkeys(("tops", "launch"), ("launch", "cycle", "summary")),
    "summary": ()}

def read_summary(words):
    """The numbers of KEY=NUMBER for each count."""
    pairs = [word.partition("=") for word in words]
    require(tuple(key for key, _, _ in pairs) == COUNTS, "malformed")
    return tuple(number_in(number, 0, RANGE if key == "worth" else U64) for key, _, number in pairs)

class Report:
    """A report as its lines come: the block that is not tested yet, and the kind of the last line."""
    def __init__(self, trace):
        self.trace, self.state, self.line, self.block, self.behind = trace, State(trace), 0, [], None

    def read(self, path):
        """Checks the report in a file."""
        for self.line, text in lines_of(path):
            self.read_line(text.rstrip(b"\n"))
        self.line += 1
        require(self.behind == "summary", "malformed")

    def read_line(self, text):
        """Reads a line, and tests the block that it ends."""
        require(len(text) <= LONGEST_LINE, "line-too-long")
        kind, *words = text.decode("latin-1").split(" ")
        require(kind in BEHIND[self.behind], "malformed")
        values = read_summary(words) if kind == "summary" else self.values_of(kind, words)
        if kind in ("cycle", "summary"):
            if self.block:
                judge(self.state, self.block, self.line)
            self.block = []
            is_last, counts = self.state.now == self.trace.until, tuple(self.state.counts.values())
            require(not is_last if kind == "cycle" else is_last and values == counts, "wrong-events")
        self.block.append(Line(self.line, kind, values))
        self.behind = kind

    def values_of(self, kind, words):
        """What the words behind the first one say."""
        form = known(FORMS, "split " + words[2] if kind == "split" and len(words) > 2 else kind).split()
        require(len(words) == len(form), "malformed")
        return tuple(READERS[name](self.trace, word) for name, word in zip(form, words))

def main(words):
    """Checks, and says what came of it; gives the exit number."""
    reader, told, status = Trace(), "bad trace: line %d: %s", 5
    try:
        if len(words) == 2:
            reader.read(words[0])
            reader, told, status = Report(reader), "refused: line %d: %s", 1
            reader.read(words[1])
            print("accepted %d" % reader.state.now)
            return 0
        told, status = "usage: tools/check.py TRACE REPORT", 2
    except Refusal as refusal:
        told %= (refusal.args[1] or reader.line, refusal.args[0])
    except OSError:
        told, status = "read fault", 3
    print(told, file=sys.stderr)
    return status

if __name__ == "__main__":
    sys.exit(main(sys.argv[1:]))

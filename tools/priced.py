#!/usr/bin/env python3
"""Recomputes the bounds that prices give the cycles of a report, from the trace, the report and the lines of prices.

usage: tools/priced.py TRACE REPORT PRICED

The definitions are those of docs/PRICES.md, over exact fractions. First the report is checked by tools/check.py. Then each line
`priced NUMBER VALUE BOUND PRICED` is held against its cycle: PRICED has to be the lesser of BOUND and the bound of the prices in
the lines behind it, or BOUND where no price is told. Ends with 0 and `agrees: N cycles`; 1, a line and what is wrong with it; else
as tools/check.py does.
"""
import copy
import re
import sys
from collections import defaultdict
from fractions import Fraction
from functools import lru_cache

import check
from check import Instance, Leaf, Refusal, leaves_in, pruned, require, top

class Priced:
    """An instance with a price for some partitions and slots: a fraction by least node and slot."""
    def __init__(self, instance):
        self.instance, self.prices = instance, defaultdict(Fraction)
        self.available = lru_cache(None)(self.available)
        left = [pruned(offer, instance.first, instance.end) for offer in instance.offers.values()]
        self.offers = [offer for offer in left if offer is not None]
        sets = {leaf.nodes for offer in self.offers for leaf in leaves_in(offer)}
        alike = defaultdict(list)
        for node in sorted(set().union(*sets)):
            closed = instance.closed.get(node, 0) >> instance.first
            alike[frozenset(nodes for nodes in sets if node in nodes), closed].append(node)
        self.partitions = {group[0]: group for group in alike.values()}
        self.inside = {nodes: [least for least, group in self.partitions.items() if nodes.issuperset(group)] for nodes in sets}

    def available(self, least, slot):
        """How many nodes of a partition are free in a slot."""
        return sum(self.instance.is_free(node, slot, slot + 1) for node in self.partitions[least])

    def places(self, leaf):
        """The cost of a node and the capacity of each partition in a leaf's set, cheapest first."""
        end = leaf.start + leaf.dur
        return sorted(
            (sum(self.prices[least, slot] for slot in range(leaf.start, min(end, self.instance.end))),
             0 if self.instance.is_closed(least, leaf.start, end) else self.available(least, leaf.start))
            for least in self.inside[leaf.nodes])

    def value(self, expression, times):
        """What an expression gains whose worth counts so many times, and its least cost."""
        if isinstance(expression, Leaf):
            return self.leaf_value(expression, times)
        if expression.kind == "scale":
            return self.value(expression.parts[0], times * expression.number)
        gains, costs = zip(*(self.value(part, times) for part in expression.parts))
        if expression.kind == "barrier":
            reached = top(expression.parts[0], self.instance.first, self.instance.end) >= expression.number
            return (min(max(0, times * expression.number - costs[0]), gains[0]) if reached else 0), costs[0]
        if expression.kind == "min":
            return min(max(0, gain - (sum(costs) - cost)) for gain, cost in zip(gains, costs)), sum(costs)
        return (max if expression.kind == "max" else sum)(gains), min(costs)

    def leaf_value(self, leaf, times):
        """The same of a leaf."""
        places, each = self.places(leaf), times * (leaf.value // leaf.k)
        if leaf.linear:
            return filled(leaf.k, places, lambda cost: max(0, each - cost)), filled(1, places)
        enough = sum(capacity for _, capacity in places) >= leaf.k
        return (max(0, times * leaf.value - filled(leaf.k, places)) if enough else 0), filled(leaf.k, places)

    def bound(self):
        """What all jobs gain and the free nodes of the window cost, rounded down."""
        slots = range(self.instance.first, self.instance.end)
        supply = sum(self.prices[least, slot] * self.available(least, slot) for least in self.partitions for slot in slots)
        return (sum(self.value(offer, 1)[0] for offer in self.offers) + supply) // 1

def filled(count, places, worth=lambda cost: cost):
    """The sum over so many nodes, taken from each place in turn as far as its capacity goes."""
    total = 0
    for cost, capacity in places:
        total += min(count, capacity) * worth(cost)
        count -= min(count, capacity)
    return total

def cycles_of(trace, report):
    """The instance, the value and the bound of each cycle of an accepted report."""
    cycles, judge = [], check.judge

    def watched(state, block, next_line):
        begun = copy.deepcopy(state, {id(state.trace): state.trace})
        begun.begin()
        judge(state, block, next_line)
        (plan,) = check.of_kind(block, "plan")
        cycles.append((Instance(begun), plan.values[0], plan.values[1]))

    check.judge = watched
    check.Report(trace).read(report)
    check.judge = judge
    return cycles

def numbers(form, line):
    """The whole numbers of a line of this form."""
    found = re.fullmatch(form, line)
    require(found, "malformed")
    return [int(number) for number in found.groups()]

class Lines:
    """The lines of prices as they come: the cycle that they are of, and the sums so far."""
    def __init__(self, trace, cycles):
        self.trace, self.cycles = trace, cycles
        self.cycle, self.told, self.last, self.sums = None, None, None, [0] * 5

    def read(self, line):
        """Reads a line; whether it is the last one."""
        if line.startswith("price "):
            self.read_price(line)
            return False
        self.end_cycle()
        if not line.startswith("summary "):
            self.begin_cycle(numbers("priced " + " ".join(["([0-9]+)"] * 4), line))
            return False
        form = " ".join("%s=([0-9]+)" % key for key in ("cycles", "optimal", "value", "bound", "priced"))
        require(numbers("summary " + form, line) == self.sums, "wrong-summary")
        return True

    def begin_cycle(self, told):
        """Begins a cycle."""
        number, value, bound, priced = told
        require(number < len(self.cycles) and (self.told is None or self.told[0] < number), "wrong-number")
        instance, *printed = self.cycles[number]
        require([value, bound] == printed, "wrong-plan")
        require(value <= priced, "below-value")
        self.told, self.cycle, self.last = told, Priced(instance), None
        self.sums = [a + b for a, b in zip(self.sums, (1, value == priced, value, bound, priced))]

    def read_price(self, line):
        """Reads a price."""
        _, name, slot, price = line.split(" ")
        node, fraction = self.trace.nodes.get(name), Fraction(price)
        place = node, int(slot)
        require(self.cycle is not None and node in self.cycle.partitions, "wrong-node")
        require(self.cycle.instance.first <= int(slot) < self.cycle.instance.end, "wrong-slot")
        require(price == "%d/%d" % (fraction.numerator, fraction.denominator) and fraction > 0, "wrong-price")
        require(self.last is None or self.last < place, "out-of-order")
        self.last, self.cycle.prices[place] = place, fraction

    def end_cycle(self):
        """Tests the bound of the cycle before this line."""
        if self.cycle is not None:
            _, _, bound, priced = self.told
            found = min(bound, self.cycle.bound())
            require(priced == found or (self.last is None and priced == bound), "wrong-bound %d" % found)
        self.cycle = None

def main(words):
    """Checks, and says what came of it; gives the exit number."""
    if len(words) != 3:
        print("usage: tools/priced.py TRACE REPORT PRICED", file=sys.stderr)
        return 2
    status = check.main(words[:2])
    if status:
        return status
    trace = check.Trace()
    trace.read(words[0])
    lines = Lines(trace, cycles_of(trace, words[1]))
    with open(words[2], encoding="ascii") as file:
        texts = file.read().splitlines()
    for number, line in enumerate(texts, 1):
        try:
            is_last = lines.read(line)
            require(is_last == (number == len(texts)), "malformed")
        except Refusal as refusal:
            print("line %d: %s" % (number, refusal.args[0]), file=sys.stderr)
            return 1
    print("agrees: %d cycles" % lines.sums[0])
    return 0

if __name__ == "__main__":
    sys.exit(main(sys.argv[1:]))

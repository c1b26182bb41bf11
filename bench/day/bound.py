#!/usr/bin/env python3
"""What no scheduler can earn more than over a whole trace, knowing all arrivals from the start, by prices of the nodes in each slot.

usage: bench/day/bound.py TRACE [--steps N] [--earned N]     no step is made once the bound is the worth that a run earned

It prints the bound and how many steps were taken, as JSON.

The day is one choice: each job takes one of its options, a leaf that starts in a slot of the run from its arrival on, or none. An option keeps its nodes for
as long as it really runs, until the run ends or the job is cancelled, and no node serves two jobs at once. That is all which is asked, so each run of a
scheduler is such a choice. Put a price on a node of each partition in each slot, and let each job take the option that gains it most, its worth less the
price of its nodes. Then no choice is worth more than all gains and the price of all nodes in all slots, whatever the prices are. Steps along what is wanted
beyond what is there look for prices that make this small.

Prices are whole numbers of 1/65,536 worth, and every sum is exact. Worths are whole, so the bound is rounded down.

It knows asks that are not elastic, and expressions of `nCk` and `max`. Closures and drained nodes are passed over, which leaves the bound valid. A trace with
a node that fails is refused, as its job may be launched twice.
"""
import argparse
import json
import os
import sys
from collections import defaultdict

sys.path.insert(0, os.path.join(os.path.dirname(os.path.abspath(__file__)), "..", "..", "tools"))
import check

UNIT = 65536
# Each step goes as far as if the bound could fall by the share `gap`, along a mean of all ways so far. So many steps without a tenth of it lessen it.
FIRST_GAP, LAST_GAP, LESS, PATIENCE, MEMORY = 0.1, 0.00001, 0.7, 10, 0.85


class Unknown(Exception):
    """The trace has something that the bound does not know."""


def leaves_of(job, until):
    """The leaves that a job may start with in a run."""
    if isinstance(job.work, check.Ask):
        last = min(until, job.arrival + job.work.deadline)
        leaves = [leaf for start in range(job.arrival, last) for leaf in check.options(job.work, job.arrival, start)]
    else:
        leaves = choices(job.work)
    if any(leaf.linear for leaf in leaves):
        raise Unknown("a leaf may take fewer nodes")
    return [leaf for leaf in leaves if leaf.value > 0 and job.arrival <= leaf.start < until]


def choices(expression):
    """The leaves of an expression that is a choice between leaves."""
    if isinstance(expression, check.Leaf):
        return [expression]
    if expression.kind != "max":
        raise Unknown(expression.kind)
    return [leaf for part in expression.parts for leaf in choices(part)]


class Day:
    """All options of all jobs of a trace, over the partitions of its nodes."""

    def __init__(self, trace):
        self.until = trace.until
        cancelled = {}
        for slot, events in trace.events.items():
            for key, number in events:
                if key == "fail":
                    raise Unknown("a node that fails")
                if key == "cancel":
                    cancelled.setdefault(number, slot)
        offers = []
        for number, job in enumerate(trace.jobs):
            end = min(trace.until, cancelled.get(number, trace.until))
            offers.append([(leaf, min(end, leaf.start + max(1, leaf.dur + job.late))) for leaf in leaves_of(job, end)])
        self.sizes, inside = partitions({leaf.nodes for offer in offers for leaf, _ in offer})
        numbers = {}        # of a place, which is partitions, first slot and last
        self.jobs = []      # of each job its options, the worthiest first: worth in units, place and count of nodes
        for offer in offers:
            options = set()
            for leaf, end in offer:
                if leaf.k <= len(leaf.nodes):
                    options.add((leaf.value * UNIT, numbers.setdefault((inside[leaf.nodes], leaf.start, end), len(numbers)), leaf.k))
            if options:
                self.jobs.append(sorted(options, key=lambda option: (-option[0], option[1])))
        self.places = list(numbers)

    def costs(self, prices):
        """Of each partition what one of its nodes costs up to each slot."""
        out = []
        for row in prices:
            total, sums = 0, [0]
            for price in row:
                total += price
                sums.append(total)
            out.append(sums)
        return out

    def weigh(self, prices):
        """The bound by prices, in units, and how many nodes are wanted of each partition in each slot."""
        costs = self.costs(prices)
        ranked = [None] * len(self.places)
        total = sum(size * sums[-1] for size, sums in zip(self.sizes, costs))
        change = [[0] * (self.until + 1) for _ in self.sizes]
        for options in self.jobs:
            most, chosen = 0, None
            for worth, number, k in options:
                if worth <= most:
                    break
                place = ranked[number]
                if place is None:
                    parts, start, end = self.places[number]
                    place = ranked[number] = sorted((costs[part][end] - costs[part][start], part) for part in parts)
                left, gain = k, worth
                for cost, part in place:
                    taken = min(left, self.sizes[part])
                    gain -= taken * cost
                    left -= taken
                    if not left:
                        break
                if gain > most:
                    most, chosen = gain, (number, k)
            if chosen:
                total += most
                self.want(change, ranked[chosen[0]], *chosen)
        return total, [sums_of(row)[:-1] for row in change]

    def want(self, change, ranked, number, k):
        """Counts the nodes of an option, the cheapest of its place."""
        _, start, end = self.places[number]
        for _, part in ranked:
            taken = min(k, self.sizes[part])
            change[part][start] += taken
            change[part][end] -= taken
            k -= taken
            if not k:
                break

    def bound(self, steps, earned=0):
        """The least bound that so many steps find, rounded down, and how many were taken."""
        prices = [[0] * self.until for _ in self.sizes]
        way = [[0] * self.until for _ in self.sizes]
        value, wanted = self.weigh(prices)
        least, gap, waited = value, FIRST_GAP, 0
        for step in range(steps):
            if least // UNIT <= earned or gap < LAST_GAP:
                return least // UNIT, step
            way = [[MEMORY * before + excess(price, count - size) for before, price, count in zip(*rows)]
                   for *rows, size in zip(way, prices, wanted, self.sizes)]
            length = sum(change * change for row in way for change in row)
            if length == 0:
                return least // UNIT, step
            stride = (value - least * (1 - gap)) / length
            prices = [[max(0, round(price + stride * change)) for price, change in zip(*rows)] for rows in zip(prices, way)]
            value, wanted = self.weigh(prices)
            waited = 0 if value < least * (1 - gap / 10) else waited + 1
            least = min(least, value)
            if waited == PATIENCE:
                gap, waited = gap * LESS, 0
        return least // UNIT, steps


def excess(price, more):
    """By how much a price should move; one of 0 falls no more."""
    return more if price > 0 or more > 0 else 0


def sums_of(row):
    """The sums of a row up to each place and with it."""
    total, out = 0, []
    for number in row:
        total += number
        out.append(total)
    return out


def partitions(sets):
    """The sizes of the greatest groups of nodes that no set tells apart, and which groups are in each set."""
    members = defaultdict(set)
    for number, nodes in enumerate(sets):
        for node in nodes:
            members[node].add(number)
    groups = defaultdict(int)
    for of in members.values():
        groups[frozenset(of)] += 1
    order = sorted(groups, key=sorted)
    inside = {nodes: tuple(part for part, of in enumerate(order) if number in of) for number, nodes in enumerate(sets)}
    return [groups[of] for of in order], inside


def day_of(path):
    """The day of a trace in a file."""
    trace = check.Trace()
    trace.read(path)
    return Day(trace)


def main():
    parser = argparse.ArgumentParser(description=__doc__, formatter_class=argparse.RawDescriptionHelpFormatter)
    parser.add_argument("trace")
    parser.add_argument("--steps", type=int, default=500)
    parser.add_argument("--earned", type=int, default=0)
    options = parser.parse_args()
    bound, steps = day_of(options.trace).bound(options.steps, options.earned)
    print(json.dumps({"bound": bound, "steps": steps}))


if __name__ == "__main__":
    main()

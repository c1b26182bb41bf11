"""The workloads of the study: how the trace of each seed is made."""
import importlib.machinery
import importlib.util
import json
import os
import tempfile

from figures import called

HERE = os.path.dirname(os.path.abspath(__file__))
TOP = os.path.dirname(os.path.dirname(HERE))
RACKS, ASKS, QUEUE = os.path.join(TOP, "bench", "prices", "racks"), os.path.join(HERE, "asks"), os.path.join(HERE, "queue")
CLUSTER = os.path.join(TOP, "examples", "cluster.swf")
BUDGET = 1      # of a search, in each header: plans with a cost of delay need it


class Workload:
    """A name, what it is called in the table, its seeds, and what writes the trace of a seed."""

    def __init__(self, name, title, seeds, make):
        self.name, self.title, self.seeds, self.make = name, title, seeds, make


def script(path, words):
    """What writes the trace of a seed by a maker with these words."""
    return lambda seed: called([path, *words.split(), str(seed), str(BUDGET)])


def trial(name):
    """A script of trials as a module."""
    loader = importlib.machinery.SourceFileLoader(name, os.path.join(TOP, "trials", name))
    module = importlib.util.module_from_spec(importlib.util.spec_from_loader(name, loader))
    loader.exec_module(module)
    return module


def imported(program, log, options):
    """The trace of a log in a file."""
    words = [word for key, value in options.items() for word in ("--" + key, str(value))]
    return called([program, "import", "swf", log, *words])


def imported_log(program, folder, jobs, seed, options):
    """The trace of a made log."""
    path = os.path.join(folder, "log-%d-%d.swf" % (jobs, seed))
    return imported(program, kept(path, lambda: trial("waiting").made_log(jobs, seed).encode()), options)


def workloads(program, folder):
    """All workloads, in the order of the table."""
    made = {"slot": 300, "slack": 24, "window": 8, "budget": BUDGET, "class": "steady", "worth": "node-slots"}
    cluster = {**made, "slack": 12, "window": 4}
    return [
        Workload("racks", "racks, 2 jobs a slot", range(1, 7), script(RACKS, "64 120 8 2")),
        Workload("mixed-1.0", "racks, 1 job a slot", range(1, 5), script(RACKS, "64 160 8 1")),
        Workload("mixed-1.25", "racks, 1.25 jobs a slot", range(1, 5), script(RACKS, "64 160 8 1.25")),
        Workload("mixed-1.5", "racks, 1.5 jobs a slot", range(1, 5), script(RACKS, "64 160 8 1.5")),
        Workload("asks", "asks with deadlines and preferred nodes", range(1, 7), script(ASKS, "64 120 8 1.25")),
        Workload("queue", "a queue without deadlines", range(1, 7), script(QUEUE, "32 300 1.0 16")),
        Workload("logs", "made logs", range(1, 16), lambda seed: imported_log(program, folder, 100, seed, made)),
        Workload("cluster", "`examples/cluster.swf`", [0], lambda _: imported(program, CLUSTER, cluster)),
    ]


def kept(path, make):
    """The file, which is made where it is not there; several may make it at once."""
    if not os.path.exists(path):
        with tempfile.NamedTemporaryFile(dir=os.path.dirname(path), delete=False) as file:
            file.write(make())
        os.replace(file.name, path)
    return path


def with_header(trace, changes):
    """A trace with other values in its header."""
    head, rest = trace.split(b"\n", 1)
    return json.dumps({**json.loads(head), **changes}, separators=(",", ":")).encode() + b"\n" + rest

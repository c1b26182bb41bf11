"""One cycle planned and checked by tetri_ctl."""
import json
import re
from dataclasses import dataclass, field

from . import queue
from .programs import Failed, TimedOut

ORDER = re.compile(r"scontrol update JobId=([0-9]+(?:_[0-9]+)?) ReqNodeList=([A-Za-z0-9_.:/,-]+) && scontrol release \1")
# Options that are passed to `plan` by themselves where its help names them.
USUAL = (("--delay-cost", ["--delay-cost", "auto"]), ("--keep-promise", ["--keep-promise"]))
# For so many slots of waiting a job is worth as much again, where the words of an operator do not say it.
AGEING = "24"


@dataclass
class Grant:
    job: str
    start: int
    nodes: tuple


@dataclass
class Plan:
    """What a checked report says of the cycle, with the files that it came from."""

    value: int = 0
    bound: int = 0
    mark: str = ""
    greedy: bool = False
    grants: dict = field(default_factory=dict)
    orders: list = field(default_factory=list)
    rejects: dict = field(default_factory=dict)
    counts: dict = field(default_factory=dict)
    files: dict = field(default_factory=dict)


class Planner:
    """Plans by `words`, the program tetri_ctl, within `seconds` a call."""

    def __init__(self, programs, words, queue_options, plan_options, slot, seconds):
        self.programs, self.words, self.slot, self.seconds = programs, words, slot, seconds
        self.queue_options = list(queue_options)
        if not any(it.split("=")[0] == "--ageing" for it in self.queue_options):
            self.queue_options += ["--ageing", AGEING]
        self.plan_options, self.usual = list(plan_options), None

    def _called(self, *words, **more):
        return self.programs.asked([*self.words, *words], self.seconds, may_stop=True, **more)

    def _options(self):
        """The words of an operator, or else the usual ones that this program knows."""
        if self.plan_options:
            return self.plan_options
        if self.usual is None:
            told = self._called("plan", "--help").out.decode("utf-8", "replace")
            self.usual = [word for name, words in USUAL if re.search(rf"(?<![\w-]){name}(?![\w-])", told) for word in words]
        return self.usual

    def cycle(self, files, now):
        """The plan of a table."""
        inputs = [word for name in ("jobs", "arrays", "nodes", "reservations") for word in (f"--{name}", f"@{name}")]
        made = self._called("queue", *inputs, "--rejects", "@rejects", "--now", queue.moment(now), "--slot", str(self.slot), *self.queue_options,
                            files={**files, "rejects": b""})
        trace, greedy, options = made.out, False, self._options()
        if any(it.split("=")[0] == "--delay-cost" for it in options):
            # A plan with a cost of delay has the bound of a search's root alone.
            trace = with_budget(trace, 1)
        try:
            report = self._called("plan", *options, "@trace", files={"trace": trace}).out
        except TimedOut:
            greedy, trace = True, with_budget(trace, 1)
            report = self._called("plan", "--search", "exact", "@trace", files={"trace": trace}).out
        both = {"trace": trace, "report": report}
        checked = self._called("check", "@trace", "@report", files=both).out
        if not checked.startswith(b"accepted"):
            raise Failed(f"check: {checked.decode('utf-8', 'replace').strip()[:200]}")
        told = self._called("orders", "@trace", "@report", "--slurm", files=both).out
        plan = read_report(report.decode("ascii", "replace"))
        plan.greedy, plan.orders = greedy, read_orders(told.decode("ascii", "replace"))
        plan.rejects, plan.counts = read_rejects(made.files["rejects"]), read_counts(made.err)
        plan.files = {"trace.jsonl": trace, "report": report, "orders": told, "table": files["jobs"], "table.nodes": files["nodes"]}
        return plan


def with_budget(trace, nodes):
    """A trace whose search trees have so many nodes."""
    head, mark, rest = trace.partition(b"\n")
    header = json.loads(head)
    header["budget"] = nodes
    return json.dumps(header, separators=(",", ":")).encode() + mark + rest


def read_report(text):
    """The plan of the last cycle of a report, which is checked."""
    plan = Plan()
    for line in ("\n" + text).split("\ncycle ")[-1].splitlines()[1:]:
        words = line.split(" ")
        if words[0] == "plan":
            plan.value, plan.bound, plan.mark = int(words[1]), int(words[2]), words[3]
        elif words[0] == "grant":
            plan.grants.setdefault(words[1], Grant(words[1], int(words[3]), tuple(words[4].split(","))))
    return plan


def read_orders(text):
    """The orders, each a job and its nodes. A line of another form is refused with the whole plan."""
    found = []
    for line in text.splitlines():
        order = ORDER.fullmatch(line)
        if not order:
            raise Failed(f"orders: a line of another form: {line[:80]}")
        found.append((order[1], tuple(order[2].split(","))))
    return found


def read_rejects(text):
    """Why a line was not taken, by the job's name."""
    found = {}
    for line in text.decode("utf-8", "replace").splitlines():
        word, name = (line.split("\t") + [""])[:2]
        found[name] = word
    return found


def read_counts(text):
    """How many lines became what."""
    rows = (line.split(" ") for line in text.decode("utf-8", "replace").splitlines())
    return {row[0]: int(row[1]) for row in rows if len(row) == 2 and row[1].isdigit()}


def reasons(verdicts, plan, now, slot):
    """Gives each planned job its reason: when and where it starts, or why it does not within the window."""
    busy = {}
    for it in verdicts:
        grant = plan.grants.get(it.job.name) if it.in_table else None
        for name in grant.nodes if grant else ():
            busy.setdefault(name, []).append((grant.start, it.job.name))
    for it in verdicts:
        if not it.in_table or it.is_shadow:
            if it.is_shadow and it.job.name in plan.grants:
                grant = plan.grants[it.job.name]
                when = "now" if grant.start == 0 else f"from {queue.clock_time(now + grant.start * slot)} on"
                it.reason += f"; the plan keeps {','.join(grant.nodes)} free for it {when}"
            continue
        grant = plan.grants.get(it.job.name)
        if grant:
            it.reason = f"{queue.clock_time(now + grant.start * slot)} on {','.join(grant.nodes)}" if grant.start else f"now on {','.join(grant.nodes)}"
        elif plan.rejects.get(it.job.name) == "throttled":
            it.reason = "as many tasks of its array run as may at once"
        elif it.job.name in plan.rejects:
            it.reason = f"tetri_ctl queue does not take it: {plan.rejects[it.job.name]}"
        else:
            it.reason = _why_not(it, busy, now, slot)


def _why_not(verdict, busy, now, slot):
    """Why a job has no start within the window."""
    names = {it.name for it in verdict.usable}
    up = [it for it in verdict.usable if not it.word.startswith(("down", "drain", "unknown", "error", "future", "mixed"))]
    if len(up) < verdict.width:
        return f"no start in this window: it takes {verdict.width} nodes, {len(names)} are as it asks, and {len(up)} of them are up"
    free = sum(it.idle for it in up)
    promised = sorted({(start, job) for name in names for start, job in busy.get(name, [])})
    text = f"no start in this window: of {len(names)} nodes as it asks {free} are idle"
    if promised:
        text += f", promised until {queue.clock_time(now + (promised[-1][0] + 1) * slot)} and later to {', '.join(job for _, job in promised[:5])}" + (
            f" and {len(promised) - 5} others" if len(promised) > 5 else "")
    return text

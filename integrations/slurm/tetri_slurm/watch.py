"""The loop: cycle after cycle, what is told of them, and the way out when none ends well."""
import json
import os
import socket
import sys
import time
from collections import Counter
from dataclasses import dataclass, field

from . import mark, metrics, order, plan, query, queue
from .programs import Failed, Stopped


@dataclass
class Settings:
    """What an operator chose; cli.py tells what each is."""

    every: float = 30
    slot: int = 30
    seconds: float = 20
    call_seconds: float = 20
    grace: float = 10
    give_up_after: float = 600
    dry_run: bool = False
    need_log: bool = False
    name: str = field(default_factory=socket.gethostname)
    program: tuple = ("tetri_ctl",)
    plan_options: tuple = ()
    queue_options: tuple = ()
    metrics: str = ""
    most_handed: int = 500
    rules: queue.Rules = queue.Rules()


class Say:
    """What was done goes to standard output; what an operator must act on to standard error, the same thing once an hour."""

    def __init__(self, clock, out=sys.stdout, err=sys.stderr):
        self.clock, self.out, self.err, self.said = clock, out, err, {}

    def told(self, text):
        self._write(self.out, text)

    def act(self, text, about=None):
        about, now = about or text, self.clock.now()
        if now - self.said.get(about, -3600) < 3600:
            return
        self.said = {key: then for key, then in self.said.items() if now - then < 3600}
        self.said[about] = now
        self._write(self.err, f"tetri-slurm: {text}")

    @staticmethod
    def _write(stream, text):
        try:
            print(text, file=stream, flush=True)
        except OSError:
            pass


class Clock:
    """The clock of this machine."""

    def __init__(self, ends=None):
        self.ends = ends

    @staticmethod
    def now():
        return time.time()

    time = now

    def sleep(self, seconds):
        """Sleeps, not longer than until the loop is told to end."""
        self.ends.wait(seconds) if self.ends else time.sleep(seconds)


class Loop:
    def __init__(self, settings, programs, clock, folder, say, stopping=lambda: False):
        self.settings, self.clock, self.folder, self.say, self.stopping = settings, clock, folder, say, stopping
        self.query = query.Query(programs, settings.call_seconds, clock)
        self.orders = order.Orders(programs, self.query, settings.call_seconds, clock, settings.name, settings.every)
        self.planner = plan.Planner(programs, settings.program, settings.queue_options, settings.plan_options, settings.slot, settings.seconds)
        self.counts = Counter()
        self.last_well = clock.now()
        self.kept_free = {}
        self.user_held, self.ordered_arrays = set(), set()
        self.beside = {"planned": {}, "started": []}
        self.warned = False

    def run(self):
        """Cycles until the loop is told to end."""
        notify("READY=1")
        while not self.stopping():
            began = self.clock.now()
            self.cycle()
            notify("WATCHDOG=1")
            if not self.stopping():
                self.clock.sleep(max(0.0, self.settings.every - (self.clock.now() - began)))
        notify("STOPPING=1")

    def cycle(self):
        """One cycle; whether it ended well."""
        began = self.clock.now()
        name = time.strftime("%Y%m%d-%H%M%S", time.localtime(began)) + f".{int(began * 1000) % 1000:03}"
        summary = {"name": name, "time": int(began), "every": self.settings.every, "dry": self.settings.dry_run, "well": False, "last_well": int(self.last_well), "jobs": {},
                   "counts": {}, "ordered": {}, "refused": {}, "handed_over": {}, "taken_back": {}, "plan": {}}
        files = {}
        self.orders.hangs = False
        try:
            if self.settings.need_log:
                self._try_log()
            self._work(summary, files)
            summary["well"] = True
        except Stopped:
            summary["failed"] = "told to end"
        except Failed as why:
            summary["failed"] = str(why)
        except Exception as error:  # pylint: disable=broad-except
            # A fault of the loop itself ends its cycle alone.
            where = error.__traceback__
            while where.tb_next:
                where = where.tb_next
            summary["failed"] = f"{type(error).__name__}: {error} ({os.path.basename(where.tb_frame.f_code.co_filename)} line {where.tb_lineno})"
        self._end(summary, files, began)
        return summary["well"]

    def _try_log(self):
        try:
            self.folder.write("trying", b"")
        except OSError as why:
            raise Failed(f"the log: {why}") from why

    def _work(self, summary, files):
        snapshot = self.query.snapshot()
        files.update(snapshot.raw)
        self._warn(snapshot)
        if not self.settings.dry_run:
            self._no_other_loop(snapshot)
            self._take_back(snapshot, summary)
        verdicts = queue.Sorter(snapshot, self.settings.rules).sorted()
        self._tell_last_tasks(verdicts)
        self._keep_no_longer(verdicts, snapshot.now)
        summary["verdicts"] = verdicts
        try:
            found = self.planner.cycle(queue.table(snapshot, verdicts), snapshot.now)
            files.update(found.files)
            plan.reasons(verdicts, found, snapshot.now, self.settings.slot)
            summary["plan"] = {"value": found.value, "bound": found.bound, "mark": found.mark, "greedy": found.greedy}
            self._tell_greedy(found)
            self._give(snapshot, verdicts, found, summary)
        finally:
            # Behind the orders, since Slurm starts at once what it can; and without a plan too.
            self._hand_over(verdicts, summary)
        self._compare(snapshot, summary)

    def _tell_greedy(self, found):
        self.counts["greedy"] += found.greedy
        if found.greedy:
            self.say.act(f"planning takes more than {self.settings.seconds:g} s: greedy plans until it does not; give it more by --seconds, or fewer jobs by --most", "greedy")

    def _warn(self, snapshot):
        """Says once what of this site an operator has to know."""
        if self.warned:
            return
        self.warned = True
        if snapshot.scheduler == "sched/builtin":
            self.say.act("SchedulerType is sched/builtin, by which a job that was handed over and waits stops all behind it: use sched/backfill")
        if snapshot.unread:
            self.say.act(f"{len(snapshot.unread)} records of squeue or sinfo cannot be read; their nodes are closed")

    def _no_other_loop(self, snapshot):
        """Ends the cycle where a loop of another machine gave orders lately."""
        since = snapshot.now - max(2 * self.settings.every, 60)
        for job in snapshot.jobs:
            its = job.mark
            if its and its.state == mark.ORDERED and its.time > since and its.host != mark.safe(self.settings.name):
                raise Failed(f"another loop, on {its.host}, ordered job {job.name} at {queue.clock_time(its.time)}: this one waits; end one of them")

    def _take_back(self, snapshot, summary):
        """Takes back each order whose job waits longer than it should, or came back into the queue."""
        for place, job in enumerate(snapshot.jobs):
            its = job.mark
            if not job.pending or not its or its.state != mark.ORDERED:
                continue
            fresh = not job.held and job.restarts == its.restarts and snapshot.now - its.time < self.settings.grace
            if fresh:
                continue
            self._halt()
            freed, why = self.orders.take_back(job)
            if why:
                summary["refused"][job.name] = why
                self.say.act(f"job {job.name} keeps a list of nodes that is not its user's: {why}", f"take back {job.name}")
            elif freed is None:
                snapshot.jobs[place] = job.changed(state="GONE")
            else:
                snapshot.jobs[place] = freed
                self.counts["taken_back"] += 1
                text = "came back into the queue" if job.restarts > its.restarts else f"did not start ({job.reason} {job.description})".replace(" )", ")")
                summary["taken_back"][job.name] = text
                self.say.told(f"job {job.name} {text}: taken back")

    def _halt(self):
        """Ends the cycle between two calls."""
        if self.stopping():
            raise Stopped("told to end")
        if self.orders.hangs:
            raise Failed(f"scontrol hangs: no answer in {self.settings.call_seconds:g} s")

    def _tell_last_tasks(self, verdicts):
        """Slurm may tell the last task of an array as held by an operator once the one before it began; nobody can tell it from a real hold, which stands."""
        last = Counter(it.job.array for it in verdicts if it.job.array is not None)
        for it in verdicts:
            job = it.job
            is_last = last[job.array] == 1 and job.array in self.ordered_arrays and job.name in self.user_held
            if is_last and it.state == queue.HELD and job.reason == "JobHeldAdmin":
                self.say.act(f"job {job.name} is the last task of its array and now held by an operator, or Slurm says so by mistake; "
                             f"if nobody held it: scontrol uhold {job.name}")
        self.user_held = {it.job.name for it in verdicts if it.job.held_by_user}

    def _keep_no_longer(self, verdicts, now):
        """Keeps no nodes free for a job that Slurm did not start though they were, before twice as many cycles as the last time."""
        waiting = {it.job.name for it in verdicts if it.is_shadow}
        self.kept_free = {name: kept for name, kept in self.kept_free.items() if name in waiting}
        for it in verdicts:
            if it.is_shadow and self.kept_free.get(it.job.name, (0, 0))[1] > now:
                it.in_table = False
                it.reason += f"; nodes were kept free for it and it did not start, so none are before {queue.clock_time(self.kept_free[it.job.name][1])}"

    def _hand_over(self, verdicts, summary):
        handed = 0
        for it in verdicts:
            if it.action != "hand over":
                continue
            if self.settings.dry_run or handed >= self.settings.most_handed:
                it.reason += "; not done yet"
                continue
            self._halt()
            why = self.orders.hand_over(it.job, it.reason)
            if why:
                summary["refused"][it.job.name] = why
                self.say.act(f"job {it.job.name} cannot be handed over: {why}", f"hand over {it.job.name}")
                it.reason += f"; not done yet: {why}"
            else:
                handed += 1
                self.counts["handed_over"] += 1
                summary["handed_over"][it.job.name] = it.reason
                self.say.told(f"job {it.job.name} handed over: {it.reason}")

    def _give(self, snapshot, verdicts, found, summary):
        by_name = {it.job.name: it for it in verdicts if it.in_table}
        others_wait = any(job.pending and not job.held for job in snapshot.jobs) or any(it.action for it in verdicts)
        taken, given = set(), 0
        for name, nodes in found.orders:
            it = by_name.get(name)
            if it is None:
                summary["refused"][name] = "ordered by the plan, and not asked for"
                continue
            if it.is_shadow and not self.settings.rules.plan_all:
                tries = self.kept_free.get(name, (0, 0))[0]
                self.kept_free[name] = (tries + 1, snapshot.now + min(self.settings.every * (2 ** tries if tries else 0), 3600))
                taken |= set(nodes)
                continue
            why = self._unfit(snapshot, nodes, taken)
            if not why and self.settings.dry_run:
                summary["ordered"][name] = ",".join(nodes)
                self.say.told(f"would order job {name} on {','.join(nodes)}")
                continue
            if not why:
                self._halt()
                why = self.orders.give(it.job, nodes, others_wait)
            if why:
                summary["refused"][name] = why
                it.reason = f"not ordered: {why}"
                self.counts["order_failures"] += 1
                self.say.told(f"job {name} not ordered: {why}")
                continue
            taken |= set(nodes)
            given += 1
            self.counts["orders"] += 1
            self.ordered_arrays.add(it.job.array)
            it.reason = f"ordered on {','.join(nodes)}"
            summary["ordered"][name] = ",".join(nodes)
            self.say.told(f"ordered job {name} on {','.join(nodes)}")
        self.ordered_arrays &= {job.array for job in snapshot.jobs}
        if summary["refused"] and not given and self.orders.hangs:
            self._halt()

    @staticmethod
    def _unfit(snapshot, nodes, taken):
        """Why nodes cannot be ordered now, or ""."""
        for name in nodes:
            node = snapshot.nodes.get(name)
            if node is None or not node.idle:
                return f"{name} is {node.word if node else 'unknown'}"
            if name in taken:
                return f"{name} is ordered for another job"
        return ""

    def _compare(self, snapshot, summary):
        """Of a dry run: when a job would have been ordered, beside when Slurm started it."""
        if not self.settings.dry_run:
            return
        planned, pending = self.beside["planned"], {it.name for it in snapshot.jobs if it.pending}
        for name in summary["ordered"]:
            planned.setdefault(name, snapshot.now)
        for job in snapshot.jobs:
            if job.state == "RUNNING" and job.started and job.started >= self.beside.get("since", snapshot.now) and all(it[0] != job.name for it in self.beside["started"]):
                self.beside["started"].append([job.name, job.started, planned.get(job.name)])
        self.beside["started"] = self.beside["started"][-10_000:]
        running = {it[0] for it in self.beside["started"]}
        self.beside["planned"] = {name: then for name, then in planned.items() if name in pending or name in running}
        self.beside.setdefault("since", snapshot.now)
        summary["beside"] = self.beside

    def _end(self, summary, files, began):
        """Tells and keeps what became of a cycle, and gives all jobs back where none has ended well for long."""
        now = self.clock.now()
        summary["seconds"] = round(now - began, 3)
        verdicts = summary.pop("verdicts", [])
        summary["jobs"] = {it.job.name: [it.state, it.reason] for it in verdicts}
        states = Counter(it.state for it in verdicts)
        summary["counts"] = {state: states[state] for state in (queue.PLANNED, queue.OVER, queue.BACKING_OFF, queue.HELD)}
        if summary["well"]:
            self.last_well = now
            self.counts["well"] += 1
        elif summary.get("failed") != "told to end":
            self.counts["failed"] += 1
            self.say.act(f"cycle failed: {summary['failed']}", f"failed {summary['failed'][:60]}")
            if now - self.last_well >= self.settings.give_up_after and not self.settings.dry_run:
                self.say.act(f"no cycle has ended well for {int(now - self.last_well)} s: all held jobs are given back to Slurm", "given back")
                summary["given_back"] = self.release_all()
        summary["last_well"] = int(self.last_well)
        self._keep(summary, files)
        self._write_metrics(summary)

    def _keep(self, summary, files):
        text = json.dumps(summary, indent=1).encode()
        beside = summary.pop("beside", None)
        try:
            self.folder.write("last.json", text)
            if beside is not None:
                text = json.dumps(summary, indent=1).encode()
            self.folder.keep(summary["name"], {"cycle.json": text, **files})
        except OSError as why:
            self.say.act(f"the log in {self.folder.path} cannot be written: {why}", "log")

    def _write_metrics(self, summary):
        if not self.settings.metrics:
            return
        values = {"last_cycle_timestamp_seconds": int(self.last_well), "last_try_timestamp_seconds": int(self.clock.now()), "cycle_duration_seconds": summary["seconds"],
                  "cycles_total": ("result", {"well": self.counts["well"], "failed": self.counts["failed"]}), "greedy_cycles_total": self.counts["greedy"],
                  "jobs": ("state", {state.replace(" ", "_"): count for state, count in summary["counts"].items()}), "orders_total": self.counts["orders"],
                  "order_failures_total": self.counts["order_failures"], "taken_back_total": self.counts["taken_back"], "handed_over_total": self.counts["handed_over"],
                  "log_bytes": self.folder.bytes()}
        if summary["plan"]:
            values |= {"plan_value": summary["plan"]["value"], "plan_bound": summary["plan"]["bound"]}
        try:
            metrics.write(self.settings.metrics, values)
        except OSError as why:
            self.say.act(f"metrics cannot be written: {why}", "metrics")

    def release_all(self):
        """Gives all held jobs back to Slurm; how many, or why it could not."""
        self.orders.hangs = False
        try:
            jobs, _ = query.jobs_of(self.query.queue())
        except Failed as why:
            self.say.act(f"cannot give jobs back: {why}", "give back")
            return str(why)
        given = 0
        for job in order.to_give_back(jobs):
            why = self.orders.give_back(job)
            if self.orders.hangs:
                self.say.act("cannot give jobs back: scontrol hangs", "give back")
                return "scontrol hangs"
            if why:
                self.say.act(f"job {job.name} cannot be given back: {why}", f"give back {job.name}")
            else:
                given += 1
                self.say.told(f"job {job.name} given back to Slurm")
        return given


def notify(text):
    """Tells systemd, where it started the loop."""
    where = os.environ.get("NOTIFY_SOCKET")
    if not where:
        return
    try:
        with socket.socket(socket.AF_UNIX, socket.SOCK_DGRAM) as line:
            line.sendto(text.encode(), "\0" + where[1:] if where.startswith("@") else where)
    except OSError:
        pass

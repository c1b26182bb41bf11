"""What becomes of each pending job, and the table of those that are planned, as `tetri_ctl queue` reads it."""
import re
import time
from collections import Counter
from dataclasses import dataclass

from . import hosts, mark

PLANNED, OVER, BACKING_OFF, HELD = "planned", "handed over", "backing off", "held"
# What Slurm says of a released job that waits for nothing but nodes.
WAITS_FOR_NODES = ("Resources", "Priority", "None", "")
NAME = re.compile(r"[A-Za-z0-9_.:/-]{1,64}\Z")
# Names of nodes in the sets of one trace, in bytes: a trace has 64 MiB at most.
MOST_SET_BYTES = 24 << 20


@dataclass
class Verdict:
    """What becomes of one job. `action` is what the loop does about it in this cycle: "hand over", or nothing. `is_shadow` is a job that Slurm starts by
    itself: the plan keeps nodes free for it, and it is never ordered."""

    job: object
    state: str
    reason: str
    action: str = ""
    is_shadow: bool = False
    usable: tuple = ()
    barred: tuple = ()
    width: int = 0
    limit: int | None = None
    in_table: bool = False
    busy: str = ""


@dataclass(frozen=True)
class Rules:
    """What an operator chose."""

    leave_held: bool = False
    plan_all: bool = False
    tries: int = 5
    most_of_array: int = 100
    most_of_user: int = 1000
    most: int = 5000


def clock_time(seconds):
    return time.strftime("%H:%M:%S", time.localtime(seconds))


class Sorter:
    """Sorts the jobs of a snapshot."""

    def __init__(self, snapshot, rules):
        self.snapshot, self.rules, self.now = snapshot, rules, snapshot.now
        self.by_partition = {}
        for node in snapshot.nodes.values():
            for partition in node.partitions:
                self.by_partition.setdefault(partition, []).append(node)
        self.whole_site = snapshot.select == "select/linear"
        self.known = {}

    def sorted(self):
        """A verdict for each pending job, the one that waits longest first. What is left of a long array behind its first tasks is one verdict."""
        pending = [it for it in self.snapshot.jobs if it.pending]
        verdicts = []
        for job in pending:
            if job.tasks and job.held_by_user and not (job.mark and job.mark.state == mark.OVER):
                verdicts += self._array(job)
            else:
                verdicts.append(self.verdict(job))
        verdicts.sort(key=_age)
        self._limit(verdicts)
        return verdicts

    def _array(self, job):
        """The verdicts of what is left of an array in one record: where it is handed over it stays one, else its first tasks each have one."""
        whole = self.verdict(job)
        if whole.state != PLANNED:
            return [whole]
        first, count = hosts.tasks(job.tasks, self.rules.most_of_array)
        found = []
        for task in first:
            its = job.changed(name=f"{job.array}_{task}", tasks="")
            found.append(Verdict(its, PLANNED, "", usable=whole.usable, barred=whole.barred, width=whole.width, limit=whole.limit, in_table=True))
        if count > len(first):
            found.append(Verdict(job, PLANNED, f"{count - len(first)} tasks behind {len(first)} others of this array"))
        return found

    def verdict(self, job):
        """What becomes of a job, whose list of nodes is its user's own unless it is ORDERED."""
        its = job.mark
        if its and its.state == mark.ORDERED:
            if job.held:
                return Verdict(job, HELD if not job.held_by_user else BACKING_OFF, f"ordered at {clock_time(its.time)}, and its list of nodes could not be taken back yet")
            return Verdict(job, PLANNED, f"ordered at {clock_time(its.time)} on {job.required}, not started yet", busy=job.required, limit=self._limit_of(job))
        if job.held and not job.held_by_user:
            return Verdict(job, HELD, "held by an operator" if job.reason == "JobHeldAdmin" else f"held by Slurm: {job.reason} {job.description}".strip())
        if not job.held:
            return self._released(job, its)
        if its and its.state == mark.OVER:
            return Verdict(job, HELD, "held again, by its user or an operator, after it was handed over")
        why = self.cannot_say(job)
        if not why and its and its.tries >= self.rules.tries:
            why = f"ordered {its.tries} times and never started, last because of {its.why or 'nothing that Slurm told'}"
        if not why and job.eligible > self.now and not job.restarts:
            why = f"begins at {time.strftime('%Y-%m-%d %H:%M:%S', time.localtime(job.eligible))}"
        if why:
            if self.rules.leave_held:
                return Verdict(job, HELD, f"left held: {why}")
            return Verdict(job, OVER, why, "hand over")
        partition = self.snapshot.partitions[job.partition]
        if not partition.up:
            return Verdict(job, BACKING_OFF, f"partition {partition.name} is {partition.state}")
        if its and its.until > self.now:
            return Verdict(job, BACKING_OFF, f"ordered {its.tries} times and not started ({its.why or 'no reason told'}); not before {clock_time(its.until)}")
        if job.eligible > self.now:
            return Verdict(job, BACKING_OFF, f"Slurm put it back into the queue; not before {clock_time(job.eligible)}")
        return self._planned(job)

    def _planned(self, job, is_shadow=False):
        usable, barred = self.usable(job)
        return Verdict(job, PLANNED, "", "", is_shadow, usable, barred, self.width(job, usable), self._limit_of(job), True)

    def _released(self, job, its):
        """A job that is not held, which Slurm starts by itself. Where it waits for nodes, the plan keeps some for it."""
        why = f"Slurm says {job.reason}" + (f" ({job.description})" if job.description else "")
        if its and its.state == mark.OVER:
            found = Verdict(job, OVER, f"{its.why or 'as it is'}; {why}")
        else:
            found = Verdict(job, OVER, f"released, not by the loop; {why}")
        if job.reason not in WAITS_FOR_NODES or job.eligible > self.now or job.leader:
            return found
        partition = self.snapshot.partitions.get(job.partition.split(",")[0])
        if partition is None or not partition.up:
            return found
        if self.rules.plan_all and not self.cannot_say(job):
            return self._planned(job)
        shadow = self._planned(job.changed(partition=partition.name, tasks=""), is_shadow=True)
        if job.tasks:
            first, _ = hosts.tasks(job.tasks, 1)
            shadow.job = shadow.job.changed(name=f"{job.array}_{first[0]}" if first else job.name)
        if len(shadow.usable) >= max(shadow.width, 1):
            shadow.state, shadow.reason = OVER, found.reason
            return shadow
        return found

    def _limit_of(self, job):
        """The seconds that a job may run, or None for no limit."""
        partition = self.snapshot.partitions.get(job.partition)
        if job.limit is not None or partition is None:
            return job.limit
        return partition.default_limit if partition.default_limit is not None else partition.limit

    def cannot_say(self, job):
        """Why a trace cannot say what a job asks for, or Slurm would not start it as it is; "" where it can."""
        if job.leader:
            return "a heterogeneous job"
        if job.dependency:
            return f"waits for other jobs ({job.dependency})"
        if job.reservation:
            return f"asks for the reservation {job.reservation}"
        if job.more:
            return f"asks for {', '.join(job.more)}"
        if "," in job.partition:
            return f"names several partitions ({job.partition})"
        partition = self.snapshot.partitions.get(job.partition)
        if partition is None:
            return f"the partition {job.partition} is not told by scontrol"
        if job.features and not re.fullmatch(r"[A-Za-z0-9_.:/-]+(&[A-Za-z0-9_.:/-]+)*|[A-Za-z0-9_.:/-]+(\|[A-Za-z0-9_.:/-]+)*", job.features):
            return f"the features {job.features} are no a&b and no a|b"
        if not self._whole_nodes(job, partition):
            return f"may share its nodes: partition {partition.name} does not give whole ones"
        return self._against_partition(job, partition) or self._against_nodes(job)

    def _whole_nodes(self, job, partition):
        if partition.exclusive or job.sharing == "none":
            return True
        return self.whole_site and not partition.oversubscribes and job.sharing in ("", "none")

    def _against_partition(self, job, partition):
        if job.most not in (0, job.width):
            return f"takes {job.width} to {job.most} nodes"
        if partition.most_nodes is not None and job.width > partition.most_nodes:
            return f"partition {partition.name} gives at most {partition.most_nodes} nodes to a job"
        if job.width < partition.least_nodes:
            return f"partition {partition.name} gives at least {partition.least_nodes} nodes to a job"
        if partition.limit is not None and job.limit is not None and job.limit > partition.limit:
            return f"partition {partition.name} ends jobs after {partition.limit // 60} minutes"
        return ""

    def _against_nodes(self, job):
        try:
            wanted = set(hosts.expand(job.required))
            hosts.expand(job.excluded)
        except hosts.NoHosts:
            return "its list of nodes cannot be read"
        if wanted and len(wanted) != job.width:
            return f"names {len(wanted)} of its {job.width} nodes"
        usable, _ = self.usable(job)
        if len(usable) < job.width:
            return f"asks for {job.width} nodes, and {len(usable)} are as it asks"
        if job.cpus > job.width * min(it.cpus for it in usable):
            return f"asks for {job.cpus} processors, and {job.width} nodes may not have them"
        return ""

    def usable(self, job):
        """The nodes that serve a job, in whatever state they are, and those that are barred beyond its own list since they have too little memory, disk or processors."""
        key = (job.partition, job.features, job.required, job.excluded, job.memory, job.disk, job.node_cpus)
        if key not in self.known:
            self.known[key] = self._usable(job)
        return self.known[key]

    def _usable(self, job):
        try:
            wanted, never = set(hosts.expand(job.required)), set(hosts.expand(job.excluded))
        except hosts.NoHosts:
            return (), ()
        several = re.split(r"[&|]", job.features) if re.fullmatch(r"[A-Za-z0-9_.:/&|-]+", job.features) else []
        test = any if "|" in job.features else all
        serving = [node for node in self.by_partition.get(job.partition, []) if (not several or test(it in node.features for it in several))
                   and (not wanted or node.name in wanted) and node.name not in never]
        large = [node for node in serving if node.cpus >= job.node_cpus and (not job.memory or node.memory >= job.memory) and (not job.disk or node.disk >= job.disk)]
        names = {it.name for it in large}
        return tuple(large), tuple(it.name for it in serving if it.name not in names)

    def width(self, job, usable):
        return min(job.width, len(usable)) if job.restarts and usable else job.width

    def _limit(self, verdicts):
        """Keeps the plan within bounds for each user, each array and all: those that wait longest go first, and the others are told."""
        of_user, of_array, total, size = Counter(), Counter(), 0, 0
        for it in verdicts:
            if not it.in_table:
                continue
            job = it.job
            by_name = job.required or job.excluded or it.barred or "|" in job.features
            needs = sum(len(node.name) + 1 for node in it.usable) if by_name else 0
            array = job.array if job.array is not None else job.name
            if of_array[array] >= self.rules.most_of_array:
                self._put_off(it, f"behind {of_array[array]} others of its array")
            elif of_user[job.user] >= self.rules.most_of_user:
                self._put_off(it, f"behind {of_user[job.user]} others of its user")
            elif total >= self.rules.most or size + needs > MOST_SET_BYTES:
                self._put_off(it, f"behind {total} others")
            else:
                of_user[job.user] += 1
                of_array[array] += 1
                total += 1
                size += needs

    @staticmethod
    def _put_off(verdict, why):
        verdict.in_table = False
        if not verdict.is_shadow:
            verdict.reason = why


def _age(verdict):
    """The oldest first. A task that was parted from its array has a number of its own, and keeps its turn; what is left of a long array comes behind its first tasks."""
    job = verdict.job
    task = job.name.partition("_")[2]
    return job.submitted, job.array or job.number, int(task) if task.isdigit() else 1 << 32


def _duration(seconds):
    if seconds is None:
        return "UNLIMITED"
    seconds = max(0, int(seconds))
    return f"{seconds // 86400}-{seconds % 86400 // 3600:02}:{seconds % 3600 // 60:02}:{seconds % 60:02}"


def moment(seconds):
    return time.strftime("%Y-%m-%dT%H:%M:%S", time.localtime(seconds))


def _row(name, state, partition="", width=1, limit="", left="", since=0, nodes="", features="", reason="", wanted="", barred=""):
    values = (name, state, partition, str(width), limit, left, moment(since), nodes, "0", features or "(null)", reason, "(null)", "NO", wanted, barred, "(null)")
    return "\t".join(values)


def table(snapshot, verdicts):
    """The files that `tetri_ctl queue` reads: jobs, arrays, nodes, reservations."""
    rows = [_running(snapshot, job) for job in snapshot.jobs if job.has_nodes and job.nodes]
    for it in verdicts:
        job = it.job
        if it.busy:
            rows.append(_row(job.name, "PENDING", job.partition, job.width, _duration(it.limit), since=job.submitted, reason="Priority", wanted=it.busy))
        elif it.in_table:
            barred = ",".join([*([job.excluded] if job.excluded else []), *it.barred])
            features = job.features if re.fullmatch(r"[A-Za-z0-9_.:/&|-]+", job.features) else ""
            rows.append(_row(job.name, "PENDING", job.partition, it.width, _duration(it.limit), since=job.submitted, features=features, reason="JobHeldUser",
                             wanted=job.required, barred=barred))
    limits = {job.array: job.throttle for job in snapshot.jobs if job.array is not None and job.throttle}
    nodes = [f"{node.name}\t{node.word}\t{partition}\t{','.join(node.features)}" for node in least_wanted_first(snapshot, verdicts) for partition in node.partitions]
    return {"jobs": _lines(rows), "arrays": _lines(f"{array}_[0%{most}]" for array, most in sorted(limits.items())), "nodes": _lines(nodes),
            "reservations": snapshot.reservations}


def least_wanted_first(snapshot, verdicts):
    """The nodes, those that serve fewest of the planned jobs first: the planner takes the first of nodes that serve equally, and should keep the rare ones for who needs them."""
    wanted, of_kind = Counter(), {}
    for it in verdicts:
        if it.in_table:
            # Jobs of one kind share one tuple of nodes.
            of_kind.setdefault(id(it.usable), [it.usable, 0])[1] += 1
    for nodes, jobs in of_kind.values():
        for node in nodes:
            # Who can use few nodes wants each of them more than who can use any.
            wanted[node.name] += jobs / len(nodes)
    return sorted((it for it in snapshot.nodes.values() if NAME.match(it.name)), key=lambda it: wanted[it.name])


def _running(snapshot, job):
    """The line of a job that has nodes. An end that cannot be told closes them for its whole limit."""
    if job.state == "COMPLETING":
        left = 0
    elif job.ends and job.state != "SUSPENDED":
        left = max(0, job.ends - snapshot.now)
    else:
        left = job.limit
    return _row(job.name, "COMPLETING" if job.state == "COMPLETING" else "RUNNING", job.partition, job.width, left=_duration(left), since=job.submitted, nodes=job.nodes)


def _lines(rows):
    return "".join(row + "\n" for row in rows).encode()

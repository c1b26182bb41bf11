"""A stand-in for Slurm that keeps a virtual clock: what squeue --json, sinfo --json and scontrol answer, and when jobs start.

Its rules were seen with Slurm 22.05.8, and `run` compares them with a real one: what an update, a release and a hold change; that an update of a task parts it from its array; that a
job which waits without a list of nodes stops all behind it in its partition but for backfill, and one with a list does not; that a failed node
puts its jobs back into the queue with their lists, for two minutes by a begin time.
"""
import heapq
import json
import re

HIGHEST, FIRST = 4294967293, 4294901760
PASS, BACKFILL, COMPLETES, REQUEUED = 2, 30, 4, 120


class Clock:
    """A clock that moves when it is told."""

    def __init__(self, now):
        self.at = float(now)

    def now(self):
        return self.at

    time = now


class Job:
    def __init__(self, number, **more):
        self.number, self.array, self.task, self.parted = number, None, None, False
        self.user, self.partition, self.width, self.most, self.limit, self.seconds = "anna", "batch", 1, 1, 3600, 600
        self.features, self.required, self.excluded, self.licence, self.throttle = "", "", "", False, 0
        self.begin, self.after, self.memory = 0, None, 0
        self.submitted, self.state, self.reason, self.priority, self.comment = 0, "PENDING", "None", 0, ""
        self.nodes, self.started, self.ends, self.restarts, self.first_start, self.ended = (), 0, 0, 0, None, 0
        self.held_spans, self.starts, self.turn = [], 0, 0
        for key, value in more.items():
            setattr(self, key, value)

    @property
    def name(self):
        return f"{self.array}_{self.task}" if self.array else str(self.number)


class Slurm:
    def __init__(self, clock, nodes, partitions, licences=2):
        """`nodes` tells the features of each node, `partitions` the nodes of each and more: (names, most nodes or None)."""
        self.clock, self.features, self.partitions = clock, nodes, partitions
        self.names = list(nodes)
        self.place = {name: number for number, name in enumerate(self.names)}
        self.within = {name: frozenset(those) for name, (those, _) in partitions.items()}
        self.licences, self.jobs, self.events, self.last, self.numbers = licences, {}, [], FIRST, 0
        self.owner, self.down = {}, set()
        self.next_pass, self.next_backfill, self.turn = None, clock.now() + BACKFILL, 0
        self.active, self.problems, self.alive = {}, [], True
        self.sets, self.changed = {}, True

    # ------------------------------------------------------------ jobs come

    def submit(self, held, tasks=None, **more):
        """The jobs of a submission: one, or the tasks of an array."""
        self.numbers += 1
        number, made = self.numbers, []
        for task in tasks if tasks is not None else [None]:
            job = Job(number, submitted=self.clock.now(), **more)
            job.array, job.task = (number, task) if task is not None else (None, None)
            self.turn += 1
            job.turn = self.turn
            self.jobs[job.name] = self.active[job.name] = job
            job.reason, job.priority = ("JobHeldUser", 0) if held else ("None", self._priority())
            made.append(job)
        self._soon()
        return made

    def _priority(self):
        self.last -= 1
        return self.last

    def _soon(self):
        """The main scheduler looks at the queue in a moment."""
        self.changed = True
        if self.next_pass is None:
            self.next_pass = self.clock.now() + PASS

    # ------------------------------------------------------------ time passes

    def at(self, when, what):
        self.turn += 1
        heapq.heappush(self.events, (when, self.turn, what))

    def advance(self, until):
        """Lets everything happen that happens until then."""
        while True:
            due = min(it for it in (self.events[0][0] if self.events else None, self.next_pass, self.next_backfill) if it is not None)
            if due > until:
                self.clock.at = max(self.clock.at, until)
                return
            self.clock.at = max(self.clock.at, due)
            if self.events and self.events[0][0] <= due:
                heapq.heappop(self.events)[2]()
            elif self.next_pass is not None and self.next_pass <= due:
                self.next_pass = None
                if self.alive:
                    self._schedule(False)
            else:
                self.next_backfill = due + BACKFILL
                # Where nothing changed since the last time, no other job could start now.
                if self.alive and self.changed:
                    self.changed = False
                    self._schedule(True)

    def serving(self, job):
        """The nodes that may serve a job."""
        key = (job.partition, job.features, job.excluded)
        if key not in self.sets:
            found = set().union(*(self.within[it] for it in job.partition.split(",")))
            if job.features:
                test = any if "|" in job.features else all
                several = re.split(r"[&|]", job.features.strip("[]"))
                found = {it for it in found if test(feature in self.features[it] for feature in several)}
            self.sets[key] = frozenset(found - set(expand(job.excluded)))
        return self.sets[key]

    def can_ever_start(self, job):
        """Whether Slurm could start a job on an empty cluster."""
        most = self.partitions[job.partition.split(",")[0]][1]
        wanted = set(expand(job.required))
        return len(self.serving(job)) >= job.width and wanted <= self.serving(job) and (most is None or job.width <= most) and len(wanted) <= max(job.width, job.most)

    def _schedule(self, backfills):
        now, idle = self.clock.now(), {it for it in self.names if it not in self.owner and it not in self.down}
        blocked, promised = set(), []
        pending = sorted((it for it in self.active.values() if it.state == "PENDING" and it.priority), key=lambda it: (-it.priority, it.turn))
        used = sum(it.licence for it in self.active.values() if it.state == "RUNNING")
        running = {}
        for it in self.active.values():
            if it.state in ("RUNNING", "COMPLETING") and it.array:
                running[it.array] = running.get(it.array, 0) + 1
        for job in pending:
            why = self._not_yet(job, used, running, now)
            if why:
                job.reason = why
                continue
            if job.partition in blocked and not backfills:
                job.reason = "Priority"
                continue
            nodes = self._nodes_for(job, idle)
            if nodes is not None and promised and not self._harmless(job, nodes, promised, now):
                free = idle - set().union(*(those for when, those in promised if when < now + job.limit))
                nodes = self._nodes_for(job, free)
            if nodes is None:
                if job.required and len(expand(job.required)) >= job.width:
                    # A job with a list keeps its nodes and stops nobody else.
                    idle -= set(expand(job.required))
                    job.reason = "Resources" if not job.partition in blocked else "Priority"
                    continue
                job.reason = "Priority" if job.partition in blocked else "Resources"
                blocked.add(job.partition)
                if backfills and len(promised) < 20:
                    promise = self._promise(job, now, promised)
                    if promise:
                        promised.append(promise)
                continue
            self._start(job, nodes)
            idle -= set(nodes)
            used += job.licence
            if job.array:
                running[job.array] = running.get(job.array, 0) + 1

    def _not_yet(self, job, used, running, now):
        most = self.partitions[job.partition.split(",")[0]][1]
        if job.begin > now:
            return "BeginTime"
        if job.after is not None and job.after.state not in ("COMPLETED", "CANCELLED"):
            return "Dependency"
        if most is not None and job.width > most:
            return "PartitionNodeLimit"
        if job.throttle and running.get(job.array, 0) >= job.throttle:
            return "JobArrayTaskLimit"
        if job.licence and used >= self.licences:
            return "Licenses"
        if not self.can_ever_start(job):
            return "PartitionConfig"
        return ""

    def _nodes_for(self, job, idle):
        """The nodes that a job would get, or None. A list of its own is part of them."""
        wanted = expand(job.required)
        if not all(it in idle for it in wanted):
            return None
        free = [it for it in self.names if it in idle and it in self.serving(job) and it not in wanted] if len(wanted) < job.width else []
        found = wanted + free[:max(0, max(job.width, job.most) - len(wanted))]
        return found if len(found) >= job.width else None

    @staticmethod
    def _harmless(job, nodes, promised, now):
        return all(when >= now + job.limit or not those & set(nodes) for when, those in promised)

    def _promise(self, job, now, promised):
        """When a job that waits could start, and where, by the limits of those that run and what was promised before."""
        frees = {it: now for it in self.serving(job) if it not in self.down}
        for it, owner in self.owner.items():
            if it in frees:
                frees[it] = max(now + 1, owner.started + owner.limit)
        for when, those in promised:
            for it in those & set(frees):
                frees[it] = max(frees[it], when + 3600)
        if len(frees) < job.width:
            return None
        order = sorted(frees, key=lambda it: (frees[it], self.place[it]))[:job.width]
        return frees[order[-1]], set(order)

    def _start(self, job, nodes):
        now = self.clock.now()
        for it in nodes:
            if it in self.owner or it in self.down:
                self.problems.append(f"{now:.0f}: job {job.name} on {it}, which {self.owner.get(it) and self.owner[it].name} has")
            self.owner[it] = job
        job.state, job.reason, job.nodes, job.started, job.parted = "RUNNING", "None", tuple(nodes), now, True
        job.starts += 1
        if job.first_start is None:
            job.first_start = now
        mine = job.starts
        self.at(now + job.seconds, lambda: self._complete(job, mine))

    def _complete(self, job, turn):
        if job.state == "RUNNING" and job.starts == turn:
            job.state, job.ended = "COMPLETING", self.clock.now()
            self.at(self.clock.now() + COMPLETES, lambda: self._free(job, "COMPLETED"))

    def _free(self, job, state):
        for it in job.nodes:
            if self.owner.get(it) is job:
                del self.owner[it]
        job.state = state
        self.active.pop(job.name, None)
        self._soon()

    def fail_node(self, name):
        """A node fails: its job goes back into the queue with its list."""
        self.down.add(name)
        job = self.owner.get(name)
        if job is None:
            return
        for it in job.nodes:
            if self.owner.get(it) is job:
                del self.owner[it]
        if job.state == "RUNNING":
            job.state, job.nodes, job.restarts, job.begin, job.most = "PENDING", (), job.restarts + 1, self.clock.now() + REQUEUED, 0
            job.reason = "BeginTime" if job.priority else "JobHeldUser"
            self.at(job.begin + 1, self._soon)
        self._soon()

    def mend_node(self, name):
        self.down.discard(name)
        self._soon()

    def cancel(self, job):
        if job.state == "PENDING":
            self._free(job, "CANCELLED")

    def hold(self, job, by_operator=True):
        if job.state == "PENDING":
            job.priority, job.reason, job.parted = 0, "JobHeldAdmin" if by_operator else "JobHeldUser", True
            if by_operator:
                job.held_spans.append([self.clock.now(), None])

    def release(self, job):
        if job.held_spans and job.held_spans[-1][1] is None:
            job.held_spans[-1][1] = self.clock.now()
        if job.state == "PENDING" and not job.priority:
            job.priority, job.reason = self._priority(), "None"
            self._soon()

    # ------------------------------------------------------------ what is answered

    def answer(self, words):
        """The status, output and message of a command."""
        if words[:1] == ["squeue"]:
            return 0, json.dumps({"meta": {}, "errors": [], "jobs": self._records()}).encode(), b""
        if words[:1] == ["sinfo"]:
            return 0, json.dumps({"nodes": [self._node(it) for it in self.names]}).encode(), b""
        if words[1:3] == ["show", "partition"]:
            return 0, "".join(f"PartitionName={name} Default=NO MaxNodes={'UNLIMITED' if most is None else most} MaxTime=UNLIMITED MinNodes=0 DefaultTime=NONE OverSubscribe=NO State=UP\n"
                              for name, (_, most) in self.partitions.items()).encode(), b""
        if words[1:3] == ["show", "reservation"]:
            return 0, b"No reservations in the system\n", b""
        if words[1:3] == ["show", "config"]:
            return 0, b"SchedulerType           = sched/backfill\nSelectType              = select/linear\n", b""
        if words[1:3] == ["show", "job"]:
            return self._shown(words[3])
        if words[1] in ("release", "uhold", "hold"):
            return self._held(words[1], words[2])
        if words[1] == "update":
            return self._updated(dict(it.split("=", 1) for it in words[2:]))
        return 1, b"", b"no such command"

    def _named(self, name):
        """The pending or running jobs of a name: a job, a task, an array, or tasks of it in brackets."""
        tasks = re.fullmatch(r"([0-9]+)_\[(.*)\]", name)
        if tasks:
            return [self.active[it] for it in (f"{tasks[1]}_{task}" for task in numbers_of(tasks[2])) if it in self.active]
        if name in self.active:
            return [self.active[name]]
        return [it for it in self.active.values() if str(it.array) == name]

    def _held(self, command, name):
        jobs = [it for it in self._named(name) if it.state in ("PENDING", "RUNNING")]
        if not jobs:
            return 1, b"", b"Job has already finished"
        for job in jobs:
            if command == "release":
                if job.state == "PENDING" and not job.priority:
                    job.priority, job.reason = self._priority(), "None"
            else:
                job.priority, job.reason = 0, "JobHeldUser" if command == "uhold" else "JobHeldAdmin"
        self._soon()
        return 0, b"", b""

    def _updated(self, values):
        jobs = self._named(values["JobId"])
        if not jobs:
            return 1, b"", b"Invalid job id specified"
        if any(it not in self.place for it in expand(values.get("ReqNodeList", ""))):
            return 1, b"", b"Invalid node name specified for job"
        for job in jobs:
            job.parted = job.parted or len(jobs) == 1
            if "AdminComment" in values:
                job.comment = values["AdminComment"]
            if "ReqNodeList" in values:
                if job.state != "PENDING":
                    return 1, b"", b"Job is no longer pending execution"
                job.required = values["ReqNodeList"]
            if "Priority" in values:
                if not job.priority:
                    return 1, b"", b"Job is in held state, pending scheduler release"
                job.priority = int(values["Priority"])
        self._soon()
        return 0, b"", b""

    def _shown(self, name):
        jobs = [self.jobs[name]] if name in self.jobs else []
        if not jobs:
            return 1, b"", b"Invalid job id specified"
        job = jobs[0]
        line = (f"JobId={job.number} JobName=x Priority={job.priority} Nice=0 JobState={job.state} Reason={job.reason} Dependency=(null) Requeue=1 "
                f"Restarts={job.restarts} ReqNodeList={job.required or '(null)'} ExcNodeList=(null) AdminComment={job.comment}\n")
        return 0, line.encode(), b""

    def _records(self):
        """Records as squeue has them: tasks that were never touched are one record of their array."""
        records, together = [], {}
        for job in self.active.values():
            if job.array and not job.parted:
                together.setdefault(job.array, []).append(job)
            else:
                records.append(self._record(job, job.task, ""))
        for tasks in together.values():
            text = ",".join(spans_of([it.task for it in tasks])) + (f"%{tasks[0].throttle}" if tasks[0].throttle else "")
            records.append(self._record(tasks[0], *((None, text) if len(tasks) > 1 else (tasks[0].task, ""))))
        return records

    def _record(self, job, task, text):
        pending = job.state == "PENDING"
        waits = job.after is not None and job.after.state not in ("COMPLETED", "CANCELLED")
        return {"job_id": job.number if not job.parted or not job.array else job.number * 100_000 + job.task, "array_job_id": job.array or 0, "array_task_id": task,
                "array_task_string": text, "array_max_tasks": job.throttle, "admin_comment": job.comment, "job_state": job.state, "state_reason": job.reason, "state_description": "",
                "user_name": job.user, "partition": job.partition, "node_count": job.width, "max_nodes": job.most, "cpus": job.width, "memory_per_node": job.memory or None,
                "minimum_cpus_per_node": 1, "time_limit": -(-job.limit // 60), "submit_time": int(job.submitted), "eligible_time": int(job.begin), "start_time": int(job.started if not pending else job.begin),
                "end_time": int(job.started + job.limit) if not pending else 0, "priority": job.priority, "restart_cnt": job.restarts, "features": job.features,
                "required_nodes": job.required, "excluded_nodes": job.excluded, "nodes": compact(",".join(job.nodes)), "shared": None, "resv_name": "",
                "dependency": f"afterany:{job.after.number}(unfulfilled)" if waits else "", "licenses": "tool" if job.licence else "", "het_job_id": 0}

    def _node(self, name):
        owner = self.owner.get(name)
        state, flags = ("down", []) if name in self.down else ("allocated", ["COMPLETING"] if owner.state == "COMPLETING" else []) if owner else ("idle", [])
        return {"name": name, "state": state, "state_flags": flags, "active_features": ",".join(self.features[name]),
                "partitions": [it for it, those in self.within.items() if name in those], "cpus": 1, "real_memory": 1000, "temporary_disk": 0, "gres": ""}


def numbers_of(text):
    found = []
    for piece in text.split(","):
        first, _, last = piece.partition("-")
        found += range(int(first), int(last or first) + 1)
    return found


CACHE = {}


def expand(text):
    """The hosts of a list as n[1-3,7] or n1,n2."""
    if not text:
        return []
    if text not in CACHE:
        if len(CACHE) > 100_000:
            CACHE.clear()
        found = []
        for part in re.findall(r"[^,\[]+(?:\[[^\]]*\])?", text):
            front, mark, rest = part.partition("[")
            found += [f"{front}{it}" for it in numbers_of(rest[:-1])] if mark else [part]
        CACHE[text] = found
    return list(CACHE[text])


def compact(text):
    """A list of hosts as Slurm prints it, n[1-3,7]."""
    names = expand(text)
    if len(names) < 2:
        return text
    return f"n[{','.join(spans_of([int(it.lstrip('n')) for it in names]))}]"


def spans_of(numbers):
    """Numbers as 1-3 and 7."""
    spans = []
    for it in sorted(numbers):
        if spans and spans[-1][1] == it - 1:
            spans[-1][1] = it
        else:
            spans.append([it, it])
    return [f"{first}-{last}" if last > first else str(first) for first, last in spans]

"""What Slurm says: the jobs of `squeue --json`, the nodes of `sinfo --json`, partitions and reservations of scontrol. The one place that knows these keys.

Tried with Slurm 22.05 (openapi/v0.0.38), whose samples are in tests/data. Later plugins wrap numbers as {"set":true,"number":5} and tell states as
lists, which is read too, and not tried on a real one."""
import json
import re
from dataclasses import dataclass, field, replace

from . import hosts, mark
from .programs import Failed

# Values that Slurm uses for "not set" and "without end".
UNSET = (0xFFFE, 0xFFFFFFFE, 0xFFFFFFFFFFFFFFFE)
ENDLESS = (0xFFFF, 0xFFFFFFFF, 0xFFFFFFFFFFFFFFFF)
WITH_NODES = ("COMPLETING", "RUNNING", "SUSPENDED", "CONFIGURING", "STOPPED", "SIGNALING", "STAGE_OUT", "RESIZING")
# What one order can say of a job that asks for more than nodes, by the key that tells it.
MORE_THAN_NODES = {
    "licenses": "licences", "tres_per_node": "gres", "tres_per_job": "gres", "tres_per_socket": "gres", "tres_per_task": "gres", "cpus_per_tres": "gres",
    "memory_per_tres": "gres", "burst_buffer": "a burst buffer", "contiguous": "contiguous nodes", "core_spec": "reserved cores", "thread_spec": "reserved threads",
    "reboot": "a reboot", "deadline": "a deadline", "prefer": "preferred nodes", "sockets_per_node": "sockets of a node", "cores_per_socket": "cores of a socket",
    "federation_origin": "a federation", "batch_features": "features of the first node", "cluster_features": "features of a cluster", "mcs_label": "an MCS label",
}


@dataclass(frozen=True)
class Job:
    """A job, a task of an array, or what is left of an array in one record (`tasks`)."""

    name: str
    number: int
    state: str
    reason: str
    description: str = ""
    user: str = ""
    partition: str = ""
    width: int = 1
    most: int = 0
    cpus: int = 1
    memory: int = 0
    disk: int = 0
    node_cpus: int = 1
    limit: int | None = None
    submitted: int = 0
    eligible: int = 0
    started: int = 0
    ends: int = 0
    priority: int = 0
    restarts: int = 0
    features: str = ""
    required: str = ""
    excluded: str = ""
    comment: str = ""
    nodes: str = ""
    array: int | None = None
    throttle: int = 0
    tasks: str = ""
    sharing: str = ""
    dependency: str = ""
    reservation: str = ""
    leader: int = 0
    more: tuple = ()

    @property
    def mark(self):
        return mark.read(self.comment)

    @property
    def pending(self):
        return self.state == "PENDING"

    @property
    def has_nodes(self):
        return self.state in WITH_NODES

    @property
    def held_by_user(self):
        return self.reason == "JobHeldUser"

    @property
    def held(self):
        return self.reason.startswith("JobHeld") or self.priority == 0

    def changed(self, **more):
        return replace(self, **more)


@dataclass(frozen=True)
class Node:
    name: str
    state: str
    flags: tuple = ()
    features: tuple = ()
    partitions: tuple = ()
    cpus: int = 1
    memory: int = 0
    disk: int = 0
    gres: str = ""

    @property
    def word(self):
        """The state in the words of `sinfo`: idle, allocated, completing, reserved, maint, or what else there is."""
        flags = set(self.flags) - {"PLANNED", "CLOUD", "DYNAMIC_NORM", "DYNAMIC_FUTURE"}
        if self.state not in ("idle", "allocated", "mixed"):
            return self.state
        for flag, word in (("MAINTENANCE", "maint"), ("MAINT", "maint"), ("RESERVED", "reserved"), ("COMPLETING", "completing")):
            if flag in flags:
                # A node that is reserved or completes, and down, drained or silent as well, is not to be used later either.
                return word if flags <= {"MAINTENANCE", "MAINT", "RESERVED", "COMPLETING"} else "drained"
        if flags <= {"POWERED_DOWN", "POWER_DOWN", "POWERED_DOWN"} and flags:
            return self.state + "~"
        if flags == {"POWERING_UP"}:
            return self.state + "#"
        return "drained" if flags else self.state

    @property
    def idle(self):
        return self.word in ("idle", "idle~", "idle#")


@dataclass(frozen=True)
class Partition:
    name: str
    up: bool = True
    state: str = "UP"
    most_nodes: int | None = None
    least_nodes: int = 0
    limit: int | None = None
    default_limit: int | None = None
    exclusive: bool = False
    oversubscribes: bool = False


@dataclass
class Snapshot:
    """What Slurm said at one moment."""

    now: int
    jobs: list
    nodes: dict
    partitions: dict
    reservations: bytes = b""
    select: str = ""
    scheduler: str = ""
    raw: dict = field(default_factory=dict)
    unread: list = field(default_factory=list)


def number(value, endless=None):
    """A number as the plugins write it: 5, null, or {"set":true,"infinite":false,"number":5}; None where it is not set."""
    if isinstance(value, dict):
        if value.get("infinite"):
            return endless
        value = value.get("number") if value.get("set") else None
    if value is None or isinstance(value, bool) or value in UNSET:
        return None
    if value in ENDLESS:
        return endless
    return int(value)


def words(value):
    """A text, or a list of texts, as a list."""
    return [str(it) for it in value] if isinstance(value, list) else [str(value)] if value not in (None, "") else []


def _state(value):
    found = [it.upper() for it in words(value)]
    return next((it for it in WITH_NODES if it in found), found[0] if found else "")


def _memory_of_node(record):
    """MiB on each node, as far as the job says it."""
    each = number(record.get("memory_per_node"))
    if each is None:
        each = (number(record.get("memory_per_cpu")) or 0) * max(1, number(record.get("minimum_cpus_per_node")) or 1)
    return each


def _more(record):
    """What a job asks for beyond nodes."""
    found = []
    for key, what in MORE_THAN_NODES.items():
        value = record.get(key)
        asked = number(value) if isinstance(value, (int, dict)) and not isinstance(value, bool) else value
        if asked and what not in found:
            found.append(what)
    return tuple(found)


def job_of(record):
    """A job of a record of `squeue --json`."""
    array = number(record.get("array_job_id")) or None
    task = number(record.get("array_task_id"))
    tasks = str(record.get("array_task_string") or "") if task is None and array else ""
    told = int(record["job_id"])
    minutes = number(record.get("time_limit"))
    sharing = words(record.get("shared"))
    return Job(
        name=f"{array}_{task}" if array and task is not None else str(told), number=told, state=_state(record["job_state"]),
        reason=str(record.get("state_reason") or ""), description=str(record.get("state_description") or ""), user=str(record.get("user_name") or record.get("user_id") or ""),
        partition=str(record.get("partition") or ""), width=number(record.get("node_count")) or 1, most=number(record.get("max_nodes")) or 0,
        cpus=number(record.get("cpus")) or 1, memory=_memory_of_node(record), disk=number(record.get("minimum_tmp_disk_per_node")) or 0,
        node_cpus=number(record.get("minimum_cpus_per_node")) or 1, limit=None if minutes is None else minutes * 60,
        submitted=number(record.get("submit_time")) or 0, eligible=number(record.get("eligible_time")) or 0, started=number(record.get("start_time")) or 0,
        ends=number(record.get("end_time")) or 0, priority=number(record.get("priority")) or 0, restarts=number(record.get("restart_cnt")) or 0,
        features=str(record.get("features") or ""), required=str(record.get("required_nodes") or ""), excluded=str(record.get("excluded_nodes") or ""),
        comment=str(record.get("admin_comment") or ""), nodes=str(record.get("nodes") or ""), array=array, throttle=number(record.get("array_max_tasks")) or 0,
        tasks=tasks, sharing=sharing[0] if sharing else "", dependency=str(record.get("dependency") or ""), reservation=str(record.get("resv_name") or ""),
        leader=number(record.get("het_job_id")) or 0, more=_more(record))


def node_of(record):
    """A node of a record of `sinfo --json`."""
    states = [it.lower() for it in words(record.get("state"))]
    base = next((it for it in states if it in ("down", "error", "future", "unknown")), next((it for it in states if it in ("idle", "allocated", "mixed")), "unknown"))
    flags = [it.upper() for it in words(record.get("state_flags"))] + [it.upper() for it in states if it != base]
    features = record.get("active_features") or record.get("features") or ""
    listed = features if isinstance(features, list) else [it for it in features.split(",") if it]
    return Node(str(record["name"]), base, tuple(flags), tuple(listed), tuple(words(record.get("partitions"))), number(record.get("cpus")) or 1,
                number(record.get("real_memory")) or 0, number(record.get("temporary_disk")) or 0, str(record.get("gres") or ""))


def _records(text, key, program):
    try:
        told = json.loads(text)
        return told[key]
    except (ValueError, KeyError, TypeError) as error:
        raise Failed(f"{program} --json: no list of {key} ({str(error)[:80]}); it takes a Slurm of 21.08 or later whose serializer of JSON is installed") from error


def seconds_of(text):
    """The seconds of a time of a partition, as 1-12:00:00, or None for UNLIMITED and NONE."""
    found = re.fullmatch(r"(?:([0-9]+)-)?([0-9]+):([0-9]+)(?::([0-9]+))?", text)
    if not found:
        return None
    days, first, second, third = (int(it) if it else 0 for it in found.groups())
    return days * 86400 + (first * 3600 + second * 60 + third if found[4] else first * 60 + second)


def partition_of(line):
    told = dict(re.findall(r"(\w+)=(\S*)", line))
    most = told.get("MaxNodes", "UNLIMITED")
    sharing = told.get("OverSubscribe", "NO")
    return Partition(told["PartitionName"], told.get("State") == "UP", told.get("State", ""), int(most) if most.isdigit() else None,
                     int(told.get("MinNodes", "0")) if told.get("MinNodes", "0").isdigit() else 0, seconds_of(told.get("MaxTime", "")),
                     seconds_of(told.get("DefaultTime", "")), sharing == "EXCLUSIVE", sharing.startswith(("YES", "FORCE")))


class Query:
    """Asks Slurm, each call within `seconds`."""

    def __init__(self, programs, seconds, clock):
        self.programs, self.seconds, self.clock = programs, seconds, clock

    def _asked(self, *command):
        return self.programs.asked(list(command), self.seconds).out

    def snapshot(self):
        """What Slurm says now."""
        now = int(self.clock.now())
        queue, nodes = self.queue(), self._json("sinfo")
        partitions = self._asked("scontrol", "show", "partition", "--oneliner").decode("utf-8", "replace")
        reservations = self._asked("scontrol", "show", "reservation", "--oneliner")
        config = dict(re.findall(r"^(SelectType|SchedulerType)\s*=\s*(\S+)", self._asked("scontrol", "show", "config").decode("utf-8", "replace"), re.M))
        return read_all(now, queue, nodes, partitions, reservations, config.get("SelectType", ""), config.get("SchedulerType", ""))

    def queue(self):
        """The text of `squeue --json`."""
        return self._json("squeue")

    def _json(self, program):
        answer = self.programs.run([program, "--all", "--json"], self.seconds)
        if answer.status != 0:
            hint = "; it takes a Slurm of 21.08 or later whose serializer of JSON is installed" if b"json" in answer.err.lower() or b"option" in answer.err else ""
            raise Failed(f"{program} --json: {answer.reason()}{hint}")
        return answer.out

    def job(self, name):
        """What Slurm says of one job just now, as far as an order needs it; None where it is not there. A job whose texts look like fields is looked up among all."""
        answer = self.programs.run(["scontrol", "show", "job", name, "--oneliner"], self.seconds)
        if answer.status != 0:
            return None
        line = answer.out.decode("utf-8", "replace")
        states = re.findall(r" JobState=(\S+) Reason=(\S+) Dependency=", line)
        priorities, lists, restarts = (re.findall(rf" {key}=(\S+) ", line) for key in ("Priority", "ReqNodeList", "Restarts"))
        if line.count("\n") != 1 or any(len(it) != 1 for it in (states, priorities, lists, restarts)) or not restarts[0].isdigit() or not priorities[0].isdigit():
            return next((it for it in jobs_of(self.queue())[0] if it.name == name), None)
        required = "" if lists[0] == "(null)" else lists[0]
        return Job(name, 0, states[0][0], states[0][1], priority=int(priorities[0]), required=required, restarts=int(restarts[0]))


def jobs_of(text):
    """The jobs of `squeue --json`, and the records that cannot be read."""
    jobs, unread = [], []
    for record in _records(text, "jobs", "squeue"):
        try:
            jobs.append(job_of(record))
        except (KeyError, TypeError, ValueError):
            unread.append(record)
    return jobs, unread


def read_all(now, queue, nodes, partitions, reservations=b"", select="", scheduler=""):
    jobs, unread = jobs_of(queue)
    found = {}
    for record in _records(nodes, "nodes", "sinfo"):
        try:
            node = node_of(record)
            found[node.name] = node
        except (KeyError, TypeError, ValueError):
            unread.append(record)
    listed = (partition_of(line) for line in partitions.splitlines() if line.startswith("PartitionName="))
    # A record that cannot be read closes the nodes that it names.
    for record in unread:
        try:
            for name in hosts.expand(str(record.get("nodes") or "")) if isinstance(record, dict) else []:
                if name in found:
                    found[name] = replace(found[name], state="unknown")
        except hosts.NoHosts:
            pass
    return Snapshot(now, jobs, found, {it.name: it for it in listed}, reservations, select, scheduler,
                    {"squeue.json": queue, "sinfo.json": nodes, "partitions": partitions.encode(), "reservations": reservations}, unread)

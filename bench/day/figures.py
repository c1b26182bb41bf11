"""The figures of a run, as `tetri_ctl stats` and `tetri_ctl jobs` tell them."""
import json
import math
import re
import subprocess

TEN_MINUTES = 600       # seconds
# What these figures are called by `stats`. One that does not tell them leaves them to `waits_of_all`.
TOLD = {"wait of all": "all jobs wait mean", "wait of wide": "wide jobs wait mean", "slowdown": "bounded slowdown mean"}


def called(words, given=None):
    """What a call writes, which has to end well."""
    done = subprocess.run(words, input=given, capture_output=True)
    if done.returncode != 0:
        raise SystemExit("%s: ended with %d: %s" % (" ".join(words), done.returncode, done.stderr.decode().strip()))
    return done.stdout


def lines_in(data):
    """The objects of lines of JSON."""
    return [json.loads(line) for line in data.splitlines() if line.strip()]


def figures_of(program, trace, run):
    """The figures of a run of the trace by a report, or by a policy where `run` is `--policy` and its name."""
    told = {line["figure"]: line["all"] for line in lines_in(called([program, "stats", trace, *run, "--format", "jsonl"]))}
    if all(name in told for name in TOLD.values()):
        waits = {figure: number(told[name]) for figure, name in TOLD.items()}
    else:
        with open(trace, "rb") as file:
            waits = waits_of_all(lines_in(called([program, "jobs", trace, *run, "--format", "jsonl"])), lines_in(file.read()))
    return {
        "earned": told["worth launched"],
        "offered": told["worth offered"],
        "worth": 100 * told["worth launched"] / max(1, told["worth offered"]),
        "expired": told["expired"],
        "wait": number(told["wait mean"]),
        "longest wait": number(told["wait greatest"]),
        "use": 100 * number(told["use"]),
        **waits,
    }


def number(value):
    """A figure as a number, of nothing as 0."""
    return 0.0 if value is None else float(value)


def waits_of_all(rows, lines):
    """What the rows of jobs tell beyond `stats`: the mean wait of all launches and of all jobs without one that were not cancelled, which waited until they
    expired or the run ended; the same of wide jobs, which want a quarter of the nodes or more; and the slowdown of launches, bounded at ten minutes."""
    header, wanted = lines[0], {line["arrive"]: nodes_wanted(line) for line in lines[1:] if "arrive" in line}
    waiters = [row for row in rows if row["start"] is not None or row["outcome"] != "cancelled"]
    wide = [row["wait"] for row in waiters if 4 * wanted[row["job"]] >= len(header["nodes"])]
    least = math.ceil(TEN_MINUTES / header.get("slot_seconds", TEN_MINUTES))
    ends = [(row, header["until"] if row["end"] is None else row["end"]) for row in rows if row["start"] is not None]
    slowdowns = [slowdown(row["wait"], end - row["start"], least) for row, end in ends]
    return {"wait of all": mean(row["wait"] for row in waiters), "wait of wide": mean(wide), "slowdown": mean(slowdowns)}


def nodes_wanted(arrival):
    """How many nodes a job wants, of an expression the most that a leaf wants."""
    if "ask" in arrival:
        return arrival["ask"]["k"]
    return max(int(count) for count in re.findall(r"nCk\([^,]+,\s*([0-9]+)", re.sub(r"\{[^}]*\}", "*", arrival["strl"])))


def slowdown(wait, ran, least):
    """The time from arrival to end by the time that it ran, which counts as so much at least."""
    return max(1.0, (wait + ran) / max(ran, least))


def mean(values):
    """The mean, of nothing 0."""
    values = list(values)
    return sum(values) / len(values) if values else 0.0

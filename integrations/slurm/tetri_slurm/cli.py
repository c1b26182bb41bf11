"""Starts the held jobs of a Slurm cluster by plans of tetri_ctl. docs/SLURM.md is the page for operators.

usage: tetri-slurm [--every SECONDS | --once] [--dry-run [--all]] [OPTION ..] [-- OPTION ..]
       tetri-slurm --status | --release-all | why JOB [OPTION ..]

Words behind -- go to `tetri_ctl queue`, as --window or --ageing.
"""
import argparse
import json
import os
import shlex
import signal
import sys
import threading
import time

from . import hosts, log, query, queue, watch
from .programs import Failed, Programs

FAILED, USAGE, LOCKED = 1, 2, 3


def parser():
    words = argparse.ArgumentParser(prog="tetri-slurm", usage=__doc__.split("usage: ")[1].split("\n\n")[0], allow_abbrev=False)
    more = words.add_argument
    more("--every", type=float, metavar="SECONDS", help="a cycle each so many seconds (30)")
    more("--once", action="store_true", help="one cycle; ends with 1 where it failed")
    more("--dry-run", action="store_true", help="change nothing: say what would be ordered")
    more("--all", action="store_true", help="with --dry-run: plan jobs that are not held as if they were")
    more("--status", action="store_true", help="tell the last cycle; ends with 1 where none ended well for three cycles")
    more("--release-all", action="store_true", help="give all held jobs back to Slurm")
    more("--log", default=os.environ.get("LOGS_DIRECTORY", "tetri-slurm.log"), metavar="FOLDER", help="where cycles are kept (./tetri-slurm.log)")
    more("--keep-days", type=float, default=14, metavar="DAYS", help="how long a cycle is kept (14)")
    more("--keep-bytes", type=int, default=1 << 30, metavar="BYTES", help="how much all kept cycles may take (1073741824)")
    more("--need-log", action="store_true", help="leave a cycle out where it cannot be kept")
    more("--metrics", default="", metavar="FILE", help="write metrics there for node_exporter's textfile collector")
    more("--slot", type=int, metavar="SECONDS", help="seconds of a slot (those of --every)")
    more("--seconds", type=float, metavar="SECONDS", help="how long a plan may take before it is made greedily (two thirds of --every)")
    more("--call-seconds", type=float, default=20, metavar="SECONDS", help="how long a call of Slurm's programs may take (20)")
    more("--grace", type=float, default=10, metavar="SECONDS", help="how long an ordered job may wait before it is taken back, in the first cycle after it (10)")
    more("--give-up-after", type=float, default=600, metavar="SECONDS", help="give all held jobs back when no cycle has ended well for so long (600)")
    more("--leave-held", action="store_true", help="leave what cannot be planned held, in place of handing it over")
    more("--tries", type=int, default=5, metavar="N", help="hand a job over after so many orders that came to nothing (5)")
    more("--most", type=int, default=5000, metavar="N", help="jobs that are planned at a time (5000)")
    more("--most-of-user", type=int, default=1000, metavar="N", help="of one user (1000)")
    more("--most-of-array", type=int, default=100, metavar="N", help="of one array (100)")
    more("--program", default="tetri_ctl", metavar="WORDS", help="the program that plans (tetri_ctl)")
    more("--plan-options", default="", metavar="WORDS", help="words of `tetri_ctl plan` (--delay-cost auto --ageing 24 --keep-promise, as far as it knows them)")
    more("--name", default="", metavar="NAME", help="what marks on jobs call this loop (the host's name)")
    more("why", nargs="*", metavar="why JOB", help="tell what becomes of a job")
    return words


def settings_of(given, behind):
    every = given.every or 30
    chosen = watch.Settings(every=every, slot=given.slot or max(1, round(every)), seconds=given.seconds or every * 2 / 3, call_seconds=given.call_seconds,
                            grace=given.grace, give_up_after=given.give_up_after, dry_run=given.dry_run, need_log=given.need_log,
                            program=tuple(shlex.split(given.program)), plan_options=tuple(shlex.split(given.plan_options)), queue_options=tuple(behind),
                            metrics=given.metrics,
                            rules=queue.Rules(given.leave_held, given.all, given.tries, given.most_of_array, given.most_of_user, given.most))
    if given.name:
        chosen.name = given.name
    return chosen


def status(folder):
    """Tells the last cycle."""
    last = log.last_cycle(folder)
    if last is None:
        print(f"no cycle is kept in {folder.path}")
        return FAILED
    age = time.time() - last["last_well"]
    late = not last["well"] and age > 3 * last["every"] or time.time() - last["time"] > 3 * last["every"] + last["seconds"]
    how = "ended well" if last["well"] else f"failed: {last['failed']}"
    print(f"cycle of {time.strftime('%Y-%m-%d %H:%M:%S', time.localtime(last['time']))}, {last['seconds']:.1f} s: {how}")
    print(", ".join(f"{count} {state}" for state, count in last["counts"].items()))
    ordered = "would be ordered" if last["dry"] else "ordered"
    print(f"{len(last['ordered'])} {ordered}, {len(last['handed_over'])} handed over, {len(last['taken_back'])} taken back, {len(last['refused'])} refused")
    if last["plan"]:
        print(f"plan {last['plan']['value']}, bound {last['plan']['bound']}, {last['plan']['mark']}" + (", greedy since the search took too long" if last["plan"]["greedy"] else ""))
    for job, why in list(last["refused"].items())[:20]:
        print(f"refused: job {job}: {why}")
    if last.get("beside"):
        print(beside(last["beside"]))
    if late:
        print(f"no cycle has ended well for {age:.0f} s")
    return FAILED if late else 0


def beside(told):
    """The plan of a dry run beside what Slurm did."""
    both = [(started, planned) for _, started, planned in told["started"] if planned is not None]
    earlier = [started - planned for started, planned in both if started > planned]
    text = f"Slurm started {len(told['started'])} jobs since {time.strftime('%Y-%m-%d %H:%M:%S', time.localtime(told.get('since', 0)))}; {len(both)} of them would have been ordered before"
    if earlier:
        text += f", {len(earlier)} earlier than Slurm did, by {sum(earlier) / len(earlier):.0f} s in the mean"
    running = {name for name, _, _ in told["started"]}
    waiting = sum(name not in running for name in told["planned"])
    return text + f"; {waiting} would have been ordered and still wait"


def why(folder, name, asked):
    """Tells what becomes of a job, from the last cycle, or else from what Slurm says."""
    last = log.last_cycle(folder) or {"jobs": {}}
    array, _, task = name.partition("_")
    found = {name: last["jobs"][name]} if name in last["jobs"] else {it: told for it, told in last["jobs"].items() if task == "" and it.startswith(array + "_")}
    for it, (state, reason) in found.items():
        print(f"job {it}: {state}: {reason}")
    if found:
        return 0
    try:
        snapshot = asked.snapshot()
    except Failed as error:
        print(f"job {name}: not in the last cycle, and Slurm cannot be asked: {error}")
        return FAILED
    for job in snapshot.jobs:
        its = hosts.tasks(job.tasks, 1_000_000)[0] if job.tasks else []
        if name not in (job.name, str(job.number)) and not (job.array is not None and str(job.array) == array and task.isdigit() and int(task) in its):
            continue
        if job.pending:
            verdict = queue.Sorter(snapshot, queue.Rules()).verdict(job)
            told = last["jobs"].get(job.name) or [verdict.state, verdict.reason or "in the next cycle"]
            print(f"job {name}: {told[0]}: {told[1]}")
        else:
            print(f"job {name}: {job.state}" + (f" on {job.nodes}" if job.nodes else ""))
        return 0
    print(f"job {name}: Slurm knows no such job")
    return FAILED


def main():
    words, behind = sys.argv[1:], []
    if "--" in words:
        place = words.index("--")
        words, behind = words[:place], words[place + 1:]
    given = parser().parse_args(words)
    if given.why and (given.why[0] != "why" or len(given.why) != 2) or given.all and not given.dry_run or given.once and given.every or (
            given.every is not None and not 0 < given.every <= 3600):
        parser().print_usage(sys.stderr)
        return USAGE
    ends = threading.Event()
    clock = watch.Clock(ends)
    folder, settings = log.Folder(given.log, given.keep_bytes, given.keep_days), settings_of(given, behind)
    programs, say = Programs(ends.is_set), watch.Say(clock)
    if given.status:
        return status(folder)
    if given.why:
        return why(folder, given.why[1], query.Query(programs, settings.call_seconds, clock))
    for it in (signal.SIGTERM, signal.SIGINT):
        signal.signal(it, lambda *_: ends.set())
    loop = watch.Loop(settings, programs, clock, folder, say, ends.is_set)
    if given.release_all:
        return 0 if isinstance(loop.release_all(), int) else FAILED
    return locked(given, folder, loop, say)


def locked(given, folder, loop, say):
    """Runs the loop under the lock of its folder. Where the folder cannot be written, it runs without."""
    try:
        handle = folder.lock()
    except OSError as error:
        say.act(f"the log in {folder.path} cannot be written, so no other loop is kept out: {error}", "lock")
        handle = -1
    if handle is None:
        print(f"tetri-slurm: another loop has the lock of {folder.path}; this one ends", file=sys.stderr)
        return LOCKED
    if given.once or given.every is None:
        return 0 if loop.cycle() else FAILED
    loop.run()
    return 0

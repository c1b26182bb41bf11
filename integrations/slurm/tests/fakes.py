"""What the tests stand in for: programs with given answers, a clock, and what was said."""
import os

from tetri_slurm import query
from tetri_slurm.programs import Answer, Programs

DATA = os.path.join(os.path.dirname(os.path.abspath(__file__)), "data")
NOW = 1796202940


def data(name):
    with open(os.path.join(DATA, name), "rb") as file:
        return file.read()


def snapshot(select="select/linear"):
    """What a Slurm 22.05.8 said, as it was recorded."""
    return query.read_all(NOW, data("squeue-22.05.8.json"), data("sinfo-22.05.8.json"), data("partitions-22.05.8").decode(), data("reservations-22.05.8"), select, "sched/backfill")


class Clock:
    def __init__(self, now=NOW):
        self.at = float(now)

    def now(self):
        return self.at

    time = now

    def sleep(self, seconds):
        self.at += seconds


class Given(Programs):
    """Answers calls by a function of their words, and keeps the words."""

    def __init__(self, answer):
        super().__init__()
        self.answer, self.calls = answer, []

    def run(self, words, seconds, files=None, may_stop=False):
        self.calls.append(list(words))
        found = self.answer(list(words), files or {})
        return found if isinstance(found, Answer) else Answer(0, found or b"")


class Heard:
    def __init__(self):
        self.tellings, self.acts = [], []

    def told(self, text):
        self.tellings.append(text)

    def act(self, text, about=None):
        self.acts.append(text)


def job(name="7", **more):
    """A held job that can be planned."""
    usual = {"number": 7, "state": "PENDING", "reason": "JobHeldUser", "user": "anna", "partition": "batch", "width": 1, "most": 1, "limit": 600, "submitted": NOW - 60}
    return query.Job(name, **{**usual, **more})

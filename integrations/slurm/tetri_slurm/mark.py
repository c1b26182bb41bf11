"""The mark of the loop on a job: one word in its AdminComment, behind what the site wrote there. What has to outlive the loop is there, and nowhere else."""
import re
from dataclasses import dataclass, replace

ORDERED, BACKED, OVER = "ordered", "backing-off", "handed-over"
WORD = re.compile(r"(?:^|\s+)tetri-slurm:1;(\S*)")


@dataclass(frozen=True)
class Mark:
    """state: the list of nodes on the job is ours (ORDERED), or the job was ordered and freed (BACKED), or it was given to Slurm as it is (OVER).
    time: when the mark was made. tries: orders in a row that came to nothing. until: when the job may be ordered again. restarts: how often Slurm had
    started the job when it was ordered. wanted: the user's own list of nodes. host: where the loop ran. why: what Slurm said, or why it was given."""

    state: str
    time: int = 0
    tries: int = 0
    until: int = 0
    restarts: int = 0
    wanted: str = ""
    host: str = ""
    why: str = ""

    def changed(self, **more):
        return replace(self, **more)


def safe(text):
    """A text without what would break the word."""
    return re.sub(r"[^A-Za-z0-9_.:,/\[\]()|&*+-]+", "_", text)[:200]


def read(comment):
    """The mark in a comment, or None."""
    found = WORD.search(comment)
    if not found:
        return None
    values = dict(it.split("=", 1) for it in found[1].split(";") if "=" in it)
    if values.get("state") not in (ORDERED, BACKED, OVER):
        return None
    numbers = {key: int(values[key]) for key in ("time", "tries", "until", "restarts") if re.fullmatch(r"[0-9]{1,12}", values.get(key, ""))}
    return Mark(values["state"], wanted=values.get("wanted", ""), host=values.get("host", ""), why=values.get("why", "").replace("_", " "), **numbers)


def without(comment):
    """What the site wrote."""
    return WORD.sub("", comment).strip()


def written(comment, mark):
    """A comment with this mark in the place of an earlier one, or without one for None."""
    site = without(comment)
    if mark is None:
        return site
    values = [("state", mark.state), ("time", mark.time), ("tries", mark.tries), ("until", mark.until), ("restarts", mark.restarts),
              ("wanted", mark.wanted), ("host", safe(mark.host)), ("why", safe(mark.why))]
    word = "tetri-slurm:1;" + ";".join(f"{key}={value}" for key, value in values if value not in ("", 0))
    return f"{site} {word}".strip()

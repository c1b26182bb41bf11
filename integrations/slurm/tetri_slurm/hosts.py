"""Lists of hosts as Slurm writes them: n[1-3,7],login."""
import re

MOST = 100_000


class NoHosts(ValueError):
    """A text that is no list of hosts."""


def expand(text):
    """The names of a list, in its order."""
    names = []
    for part in _parts(text):
        names += _names(part)
        if len(names) > MOST:
            raise NoHosts(f"more than {MOST} hosts")
    return names


def _parts(text):
    """The parts between the commas that stand in no bracket."""
    if text in ("", "(null)", "N/A"):
        return []
    parts, depth, begun = [], 0, 0
    for place, letter in enumerate(text):
        depth += (letter == "[") - (letter == "]")
        if letter == "," and depth == 0:
            parts.append(text[begun:place])
            begun = place + 1
    return parts + [text[begun:]]


def _names(part):
    names, pieces = [""], re.findall(r"\[[^\[\]]*\]|[^\[\]]+", part)
    if "".join(pieces) != part:
        raise NoHosts(part)
    for piece in pieces:
        texts = _numbers(piece[1:-1]) if piece.startswith("[") else [piece]
        if len(names) * len(texts) > MOST:
            raise NoHosts(f"more than {MOST} hosts")
        names = [name + text for name in names for text in texts]
    if not all(re.fullmatch(r"[A-Za-z0-9_.:/-]+", name) for name in names):
        raise NoHosts(part)
    return names


def _numbers(text):
    found = []
    for piece in text.split(","):
        ends = re.fullmatch(r"([0-9]{1,9})(?:-([0-9]{1,9}))?", piece)
        if not ends:
            raise NoHosts(text)
        first, last = int(ends[1]), int(ends[2] or ends[1])
        if last < first or last - first >= MOST:
            raise NoHosts(text)
        found += [str(number).zfill(len(ends[1])) for number in range(first, last + 1)]
    return found


def tasks(text, most):
    """The first tasks of an array as 0-5,8,10-20:2%3 tells them, `most` at most, and how many there are."""
    first, count = [], 0
    for piece in text.split("%")[0].split(","):
        ends = re.fullmatch(r"([0-9]+)(?:-([0-9]+)(?::([0-9]+))?)?", piece)
        if not ends:
            continue
        numbers = range(int(ends[1]), int(ends[2] or ends[1]) + 1, int(ends[3] or 1))
        first += numbers[:max(0, most - len(first))]
        count += len(numbers)
    return first, count

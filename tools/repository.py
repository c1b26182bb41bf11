"""What the tools read of this repository and of the machine: crates.txt, the kit, and the folder in which they keep things."""
import os
import shutil

TOP = os.path.normpath(os.path.join(os.path.dirname(os.path.abspath(__file__)), ".."))


def uses(top=TOP):
    """Each crate of the repository, with those of the repository that it uses."""
    found = {}
    with open(os.path.join(top, "crates.txt"), encoding="utf-8") as file:
        for line in file:
            name, mark, rest = line.split("#")[0].partition(":")
            if mark:
                found[name.split()[0]] = rest.split()
    return {name: [one for one in below if one in found] for name, below in found.items()}


def needed(crate, below):
    """The crates that a crate stands on, and itself."""
    wanted, rest = {crate}, [crate]
    while rest:
        for one in below[rest.pop()]:
            if one not in wanted:
                wanted.add(one)
                rest.append(one)
    return wanted


def kit():
    """The folder of the kit, which is that of the command rt, or None."""
    command = shutil.which("rt")
    return os.path.dirname(os.path.dirname(os.path.realpath(command))) if command else None


def kit_line(folder):
    """The line that names the kit, as `rt version` prints it."""
    with open(os.path.join(folder, "KIT-ID"), encoding="utf-8") as file:
        return file.read().strip()


def cache():
    """The folder in which the tools keep what they made, outside the repository."""
    home = os.environ.get("XDG_CACHE_HOME", "")
    return os.path.join(home if os.path.isabs(home) else os.path.expanduser("~/.cache"), "tetri")

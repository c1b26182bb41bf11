"""Builds the program tetri, and measures one call of it."""
import os, subprocess, time

TOP = os.path.dirname(os.path.dirname(os.path.abspath(__file__)))
PROGRAM = os.path.join(TOP, "crates", "tetri_main", "out", "tetri_main")


def build():
    """The script beside the examples proves and builds the program."""
    subprocess.run([os.path.join(TOP, "examples", "run"), "--proved"], stdout=subprocess.DEVNULL, check=True)


def measure(words, report):
    """What the call says on standard error, its seconds of wall time, and the most memory that was resident, in MiB."""
    with open(report, "wb") as out:
        begun = time.monotonic()
        child = subprocess.Popen([PROGRAM] + words, stdout=out, stderr=subprocess.PIPE)
        said = child.stderr.read().decode().strip()
        _, _, used = os.wait4(child.pid, 0)
        return said, time.monotonic() - begun, used.ru_maxrss / 1024

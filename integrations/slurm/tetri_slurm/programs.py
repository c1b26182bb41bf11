"""Runs other programs, each with a limit of time."""
import os
import re
import signal
import subprocess
import time

# A word @NAME stands for the file of this name, which lives in memory: no full or read-only disk can stop a cycle.
FILE = re.compile(r"@([a-z]+)\Z")


class Failed(Exception):
    """Why a call, or a whole cycle, came to nothing."""


class TimedOut(Failed):
    """A call that took longer than it may."""


class Stopped(Failed):
    """The loop was told to end while a program worked."""


class Answer:
    """What a program wrote, and its exit number."""

    def __init__(self, status, out=b"", err=b"", files=None):
        self.status, self.out, self.err, self.files = status, out, err, files or {}

    def reason(self):
        return " ".join(self.err.decode("utf-8", "replace").split())[-300:] or f"status {self.status}"


class Programs:
    """Runs programs of this machine. `stopping` tells whether a long call should end early."""

    def __init__(self, stopping=lambda: False):
        self.stopping = stopping

    def run(self, words, seconds, files=None, may_stop=False):
        """The answer of a program. `files` holds contents by name: a word @NAME becomes a file with this content, and what is in it afterwards is
        in the answer. A program that takes longer is killed with all that it started."""
        handles = {name: _file_with(name, content) for name, content in (files or {}).items()}
        try:
            seen = [f"/proc/self/fd/{handles[FILE.match(it)[1]]}" if FILE.match(it) and FILE.match(it)[1] in handles else it for it in words]
            answer = self._answer(seen, seconds, list(handles.values()), may_stop)
            answer.files = {name: _content(handle) for name, handle in handles.items()}
            return answer
        finally:
            for handle in handles.values():
                os.close(handle)

    def _answer(self, words, seconds, handles, may_stop):
        name = " ".join(words[:3])
        environment = dict(os.environ, SLURM_BITSTR_LEN="0", SLURM_TIME_FORMAT="standard")
        try:
            child = subprocess.Popen(words, stdin=subprocess.DEVNULL, stdout=subprocess.PIPE, stderr=subprocess.PIPE, pass_fds=handles,
                                     start_new_session=True, env=environment)
        except OSError as error:
            raise Failed(f"{words[0]}: {error.strerror or error}") from error
        ends = time.monotonic() + seconds
        while True:
            left = ends - time.monotonic()
            try:
                out, err = child.communicate(timeout=max(0.01, min(left, 0.5)))
                return Answer(child.returncode, out, err)
            except subprocess.TimeoutExpired:
                if may_stop and self.stopping():
                    _end(child)
                    raise Stopped("told to end") from None
                if time.monotonic() >= ends:
                    _end(child)
                    raise TimedOut(f"{name}: no answer in {seconds:g} s") from None

    def asked(self, words, seconds, **more):
        """What a program wrote, where it ended with 0."""
        answer = self.run(words, seconds, **more)
        if answer.status != 0:
            raise Failed(f"{' '.join(words[:3])}: {answer.reason()}")
        return answer


def _end(child):
    """Kills a program and what it started, and waits a moment for it. One that cannot be killed is left."""
    try:
        os.killpg(child.pid, signal.SIGKILL)
    except ProcessLookupError:
        pass
    for stream in (child.stdout, child.stderr):
        stream.close()
    try:
        child.wait(timeout=1)
    except subprocess.TimeoutExpired:
        pass


def _file_with(name, content):
    handle = os.memfd_create(name)
    at = 0
    while at < len(content):
        at += os.write(handle, content[at:at + (1 << 24)])
    return handle


def _content(handle):
    os.lseek(handle, 0, os.SEEK_SET)
    parts = []
    while part := os.read(handle, 1 << 20):
        parts.append(part)
    return b"".join(parts)

"""The command, run as a program with stand-ins for squeue, sinfo, scontrol and tetri_ctl in its path."""
import os
import socket
import subprocess
import sys
import tempfile
import unittest

from tests.fakes import DATA
from tetri_slurm import watch

COMMAND = os.path.join(os.path.dirname(DATA), "..", "tetri-slurm")
SCRIPTS = {
    "squeue": 'cat "$DATA/squeue-22.05.8.json"',
    "sinfo": 'cat "$DATA/sinfo-22.05.8.json"',
    "scontrol": 'case "$2" in partition) cat "$DATA/partitions-22.05.8";; config) cat "$DATA/config-22.05.8";; reservation) cat "$DATA/reservations-22.05.8";; *) exit 1;; esac',
    "tetri_ctl": """case "$1 $2" in "plan --help") echo usage;; queue*) echo '{"nodes":[],"budget":9}'; cp "$3" "$ROOM/jobs"; echo taken 1 >&2;;
plan*) printf 'cycle 0\\nplan 30 45 wide 0\\ngrant 2 1 0 n2,n3\\n';; check*) echo accepted 1;;
orders*) echo 'scontrol update JobId=2 ReqNodeList=n2,n3 && scontrol release 2';; esac""",
}


class Command(unittest.TestCase):
    def setUp(self):
        self.room = tempfile.TemporaryDirectory()
        for name, text in SCRIPTS.items():
            path = os.path.join(self.room.name, name)
            with open(path, "w", encoding="ascii") as file:
                file.write(f"#!/bin/sh\n{text}\n")
            os.chmod(path, 0o755)

    def tearDown(self):
        self.room.cleanup()

    def called(self, *words):
        environment = dict(os.environ, PATH=f"{self.room.name}:{os.environ['PATH']}", DATA=DATA, ROOM=self.room.name)
        environment.pop("NOTIFY_SOCKET", None)
        log = ["--log", os.path.join(self.room.name, "log")]
        return subprocess.run([sys.executable, COMMAND, *log, *words], capture_output=True, text=True, env=environment, check=False, timeout=60)

    def test_a_dry_run_and_what_is_told_of_it(self):
        done = self.called("--dry-run", "--once")
        self.assertEqual((done.returncode, done.stdout, done.stderr), (0, "would order job 2 on n2,n3\n", ""))
        told = self.called("--status")
        self.assertEqual(told.returncode, 0)
        self.assertIn("13 planned, 17 handed over, 1 backing off, 1 held\n1 would be ordered, 0 handed over, 0 taken back, 0 refused\nplan 30, bound 45, wide\n", told.stdout)
        self.assertEqual(self.called("why", "18").stdout, "job 18: backing off: partition late is DOWN\n")
        self.assertEqual(self.called("why", "1").stdout, "job 1: RUNNING on n1\n")
        self.assertEqual(self.called("why", "999").returncode, 1)

    def test_without_a_cycle(self):
        self.assertEqual(self.called("--status").returncode, 1)
        self.assertIn("job 2: planned", self.called("why", "2").stdout)

    def test_words(self):
        for words in (["--all"], ["--once", "--every", "5"], ["what", "2"], ["why"], ["--every", "0"]):
            self.assertEqual(self.called(*words).returncode, 2, words)

    def test_a_program_that_fails(self):
        done = self.called("--once", "--program", "/none/tetri_ctl", "--leave-held")
        self.assertEqual((done.returncode, done.stderr), (1, "tetri-slurm: cycle failed: /none/tetri_ctl: No such file or directory\n"))


class Systemd(unittest.TestCase):
    def test_it_is_told(self):
        with tempfile.TemporaryDirectory() as room, socket.socket(socket.AF_UNIX, socket.SOCK_DGRAM) as line:
            line.bind(os.path.join(room, "notify"))
            os.environ["NOTIFY_SOCKET"] = os.path.join(room, "notify")
            try:
                watch.notify("READY=1")
            finally:
                del os.environ["NOTIFY_SOCKET"]
            self.assertEqual(line.recv(100), b"READY=1")

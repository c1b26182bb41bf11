"""The folder of logs, its lock, and metrics."""
import gzip
import os
import stat
import tempfile
import unittest

from tests.fakes import Clock
from tetri_slurm import log, metrics


class Folders(unittest.TestCase):
    def setUp(self):
        self.room = tempfile.TemporaryDirectory()
        self.path, self.clock = os.path.join(self.room.name, "log"), Clock()

    def tearDown(self):
        self.room.cleanup()

    def folder(self, **more):
        return log.Folder(self.path, clock=self.clock, **more)

    def test_only_its_owner_reads_it(self):
        os.mkdir(self.path, 0o755)
        self.folder().write("last.json", b"{}")
        self.assertEqual(stat.S_IMODE(os.stat(self.path).st_mode), 0o700)
        self.assertEqual(stat.S_IMODE(os.stat(os.path.join(self.path, "last.json")).st_mode), 0o600)

    def test_a_link_is_not_followed(self):
        os.mkdir(os.path.join(self.room.name, "elsewhere"))
        os.symlink("elsewhere", self.path)
        with self.assertRaises(OSError):
            self.folder().write("last.json", b"{}")
        self.assertEqual(os.listdir(os.path.join(self.room.name, "elsewhere")), [])

    def test_a_file_that_is_a_link_is_replaced(self):
        os.mkdir(self.path)
        with open(os.path.join(self.room.name, "other"), "w", encoding="ascii") as file:
            file.write("mine")
        os.symlink("../other", os.path.join(self.path, "last.json"))
        self.folder().write("last.json", b"{}")
        with open(os.path.join(self.room.name, "other"), encoding="ascii") as file:
            self.assertEqual(file.read(), "mine")

    def test_cycles_are_kept_by_size(self):
        folder = self.folder(most_bytes=1000)
        for number in range(20):
            folder.keep(f"c{number:02}", {"cycle.json": b"x" * 300, "trace": b""})
        self.assertEqual(sorted(os.listdir(os.path.join(self.path, "cycles"))), ["c17", "c18", "c19"])
        self.assertEqual(folder.bytes(), 900)

    def test_cycles_are_kept_by_age_and_across_a_restart(self):
        folder = self.folder(most_days=1)
        folder.keep("c1", {"cycle.json": b"x"})
        os.utime(os.path.join(self.path, "cycles", "c1"), (self.clock.at, self.clock.at))
        self.clock.at += 3600
        again = self.folder(most_days=1)
        again.keep("c2", {"cycle.json": b"x"})
        self.assertEqual(sorted(again.sizes), ["c1", "c2"])
        self.clock.at += 86000
        again.keep("c3", {"cycle.json": b"x"})
        self.assertEqual(sorted(os.listdir(os.path.join(self.path, "cycles"))), ["c2", "c3"])

    def test_texts_are_compressed(self):
        self.folder().keep("c", {"cycle.json": b"{}", "trace.jsonl": b"a" * 1000})
        with gzip.open(os.path.join(self.path, "cycles", "c", "trace.jsonl.gz")) as file:
            self.assertEqual(file.read(), b"a" * 1000)

    def test_one_loop_has_the_lock(self):
        first = self.folder().lock()
        self.assertIsNone(self.folder().lock())
        os.close(first)
        again = self.folder().lock()
        self.assertIsNotNone(again)
        os.close(again)


class Metrics(unittest.TestCase):
    def test_text(self):
        text = metrics.text({"jobs": ("state", {"planned": 3, "held": 1}), "cycle_duration_seconds": 0.25, "orders_total": 7})
        self.assertEqual(text.splitlines()[-6:], ["# TYPE tetri_slurm_jobs gauge", 'tetri_slurm_jobs{state="held"} 1', 'tetri_slurm_jobs{state="planned"} 3',
                                                  "# HELP tetri_slurm_orders_total Orders that were given since the loop started.", "# TYPE tetri_slurm_orders_total counter",
                                                  "tetri_slurm_orders_total 7"])
        self.assertIn("tetri_slurm_cycle_duration_seconds 0.250\n", text)

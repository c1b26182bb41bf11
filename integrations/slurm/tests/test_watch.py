"""The loop: what of a cycle fails and what goes on, the lock of another machine, the way out."""
import json
import os
import tempfile
import unittest

from tests.fakes import NOW, Clock, Given, Heard, data
from tetri_slurm import log, mark, watch
from tetri_slurm.mark import Mark
from tetri_slurm.programs import Answer, Programs, TimedOut

CONFIG = b"SchedulerType           = sched/backfill\nSelectType              = select/linear\n"
TRACE = b'{"nodes":[],"window":4,"budget":200,"until":1}\n'


class Loop(unittest.TestCase):
    """One cycle after another on the recorded sample, to which each call may change something."""

    def setUp(self):
        self.room = tempfile.TemporaryDirectory()
        self.clock, self.heard, self.fails, self.orders, self.report = Clock(), Heard(), {}, b"", b"cycle 0\nplan 10 12 spent 7\n"
        self.records = json.loads(data("squeue-22.05.8.json"))["jobs"]
        self.programs = Given(self.answer)
        self.loop = self.started()

    def tearDown(self):
        self.room.cleanup()

    def started(self, **more):
        folder = log.Folder(os.path.join(self.room.name, "log"), clock=self.clock)
        return watch.Loop(watch.Settings(name="head", metrics=os.path.join(self.room.name, "m.prom"), **more), self.programs, self.clock, folder, self.heard)

    def record(self, number):
        return next(it for it in self.records if it["job_id"] == number)

    def answer(self, words, _):
        key = words[0] if words[0] in ("squeue", "sinfo") else " ".join(words[:2])
        if key in self.fails:
            raise self.fails[key]
        if words[0] == "squeue":
            return json.dumps({"jobs": self.records}).encode()
        if words[0] == "sinfo":
            return data("sinfo-22.05.8.json")
        if words[1:3] == ["show", "partition"]:
            return data("partitions-22.05.8")
        if words[1:3] == ["show", "config"]:
            return CONFIG
        if words[1:3] == ["show", "job"]:
            it = next((it for it in self.records if str(it["job_id"]) == words[3]), self.record(2))
            return (f"JobId=1 Priority={it['priority']} Nice=0 JobState={it['job_state']} Reason={it['state_reason']} Dependency=(null) Requeue=1 Restarts={it['restart_cnt']} "
                    f"ReqNodeList={it['required_nodes'] or '(null)'} ExcNodeList=(null) \n").encode()
        return {"queue": Answer(0, TRACE, b"", {"rejects": b""}), "plan": self.report, "check": b"accepted 1\n", "orders": self.orders}.get(words[1], b"")

    def done(self, *front):
        return [it for it in self.programs.calls if it[:len(front)] == list(front)]

    def last(self):
        return log.last_cycle(self.loop.folder)

    def test_a_cycle(self):
        self.orders = b"scontrol update JobId=2 ReqNodeList=n2,n3 && scontrol release 2\n"
        self.assertTrue(self.loop.cycle())
        last = self.last()
        self.assertEqual((last["ordered"], last["plan"]["bound"], last["counts"]), ({"2": "n2,n3"}, 12, {"planned": 13, "handed over": 17, "backing off": 1, "held": 1}))
        self.assertEqual(len(self.done("scontrol", "release")), 17)
        self.assertEqual(last["jobs"]["18"], ["backing off", "partition late is DOWN"])
        self.assertTrue(all(reason for _, reason in last["jobs"].values()))
        with open(os.path.join(self.room.name, "m.prom"), encoding="ascii") as file:
            self.assertIn('tetri_slurm_jobs{state="handed_over"} 17\n', file.read())

    def test_orders_come_before_what_is_handed_over(self):
        self.orders = b"scontrol update JobId=2 ReqNodeList=n2,n3 && scontrol release 2\n"
        self.loop.cycle()
        self.assertEqual(self.done("scontrol", "release")[0], ["scontrol", "release", "2"])

    def test_a_dry_run_changes_nothing(self):
        self.orders = b"scontrol update JobId=2 ReqNodeList=n2,n3 && scontrol release 2\n"
        self.loop = self.started(dry_run=True)
        self.assertTrue(self.loop.cycle())
        self.assertEqual([it for it in self.programs.calls if it[0] == "scontrol" and it[1] != "show"], [])
        self.assertEqual(self.last()["ordered"], {"2": "n2,n3"})

    def test_a_node_that_is_not_idle_is_not_ordered(self):
        self.orders = b"scontrol update JobId=2 ReqNodeList=n1,n3 && scontrol release 2\n"
        self.assertTrue(self.loop.cycle())
        self.assertEqual(self.last()["refused"], {"2": "n1 is allocated"})

    def test_two_orders_of_one_node(self):
        self.orders = b"".join(b"scontrol update JobId=%d ReqNodeList=n2,n3 && scontrol release %d\n" % (it, it) for it in (2, 15))
        self.loop.cycle()
        self.assertEqual((self.last()["ordered"], self.last()["refused"]), ({"2": "n2,n3"}, {"15": "n2 is ordered for another job"}))

    def test_who_is_handed_over_needs_no_plan(self):
        self.fails["tetri_ctl plan"] = TimedOut("tetri_ctl plan: no answer in 20 s")
        self.assertFalse(self.loop.cycle())
        self.assertEqual(len(self.done("scontrol", "release")), 16)
        self.assertEqual(self.heard.acts, ["cycle failed: tetri_ctl plan: no answer in 20 s"])

    def test_a_slurm_that_hangs_ends_the_cycle(self):
        self.fails["squeue"] = TimedOut("squeue --all --json: no answer in 20 s")
        self.assertFalse(self.loop.cycle())
        self.assertEqual(self.last()["failed"], "squeue --all --json: no answer in 20 s")

    def test_scontrol_that_hangs_is_called_once(self):
        self.fails["scontrol release"] = TimedOut("scontrol release: no answer in 20 s")
        self.assertFalse(self.loop.cycle())
        self.assertEqual(len(self.done("scontrol", "release")), 1)

    def test_a_full_folder_does_not_end_it(self):
        self.loop.folder.path = "/proc/none/log"
        self.assertTrue(self.loop.cycle())
        self.assertEqual(len(self.heard.acts), 1)
        self.loop.settings.need_log = True
        self.assertFalse(self.loop.cycle())

    def test_a_loop_of_another_machine(self):
        self.record(1)["admin_comment"] = mark.written("", Mark(mark.ORDERED, NOW - 20, host="other"))
        self.assertFalse(self.loop.cycle())
        self.assertIn("another loop, on other, ordered job 1", self.last()["failed"])
        self.clock.at += 100
        self.assertTrue(self.loop.cycle())

    def test_an_order_that_came_to_nothing_is_taken_back(self):
        self.record(2).update(admin_comment=mark.written("", Mark(mark.ORDERED, NOW - 30, wanted="n[7-8]", host="head")), required_nodes="n2,n3", state_reason="Resources", priority=900)
        self.assertTrue(self.loop.cycle())
        self.assertEqual(self.done("scontrol", "uhold"), [["scontrol", "uhold", "2"]])
        self.assertIn("ReqNodeList=n[7-8]", self.done("scontrol", "update", "JobId=2")[0])
        self.assertEqual(self.last()["jobs"]["2"][0], "backing off")

    def test_one_that_is_fresh_is_left(self):
        self.record(2).update(admin_comment=mark.written("", Mark(mark.ORDERED, NOW - 3, host="head")), required_nodes="n2,n3", state_reason="None", priority=900)
        self.assertTrue(self.loop.cycle())
        self.assertEqual((self.done("scontrol", "uhold"), self.last()["jobs"]["2"][0]), ([], "planned"))

    def test_nodes_kept_free_in_vain_are_free_again(self):
        self.record(24).update(eligible_time=NOW - 10)
        self.orders = b"scontrol update JobId=24 ReqNodeList=n2,n3 && scontrol release 24\n"
        kept = []
        for _ in range(6):
            self.loop.cycle()
            kept.append("24" in self.loop.kept_free and self.loop.kept_free["24"][0])
            self.clock.at += 30
        # Kept free in the first two cycles, then not before 2 cycles more, then 4.
        self.assertEqual(kept, [1, 2, 2, 3, 3, 3])
        self.assertEqual(self.done("scontrol", "update", "JobId=24"), [])

    def test_all_is_given_back_when_no_cycle_ends_well(self):
        self.fails["tetri_ctl queue"] = TimedOut("tetri_ctl queue: no answer in 20 s")
        self.loop.settings.rules = watch.queue.Rules(leave_held=True)
        for _ in range(21):
            self.loop.cycle()
            self.assertEqual(self.done("scontrol", "release", "2"), [])
            self.clock.at += 29
        self.clock.at += 30
        self.loop.cycle()
        self.assertEqual(len(self.done("scontrol", "release", "2")), 1)
        self.assertEqual(self.done("scontrol", "release", "22"), [])
        self.assertTrue(any("given back" in it for it in self.heard.acts))

    def test_a_fault_of_the_loop_itself_ends_its_cycle_alone(self):
        self.report = b"cycle 0\nplan x y z\n"
        self.assertFalse(self.loop.cycle())
        self.assertIn("ValueError", self.last()["failed"])

    def test_told_to_end_between_two_orders(self):
        self.orders = b"".join(b"scontrol update JobId=%d ReqNodeList=n%d && scontrol release %d\n" % (it, node, it) for it, node in ((15, 2), (29, 3)))
        self.loop.stopping = lambda: bool(self.done("scontrol", "release"))
        self.loop.cycle()
        self.assertEqual([it[2] for it in self.done("scontrol", "release")], ["15"])


class Said(unittest.TestCase):
    def test_the_same_thing_once_an_hour(self):
        clock, heard = Clock(), []
        say = watch.Say(clock)
        say._write = lambda stream, text: heard.append(text)
        for seconds in (0, 10, 3500, 3700):
            clock.at = NOW + seconds
            say.act("no space", "log")
        self.assertEqual(len(heard), 2)


class Real(unittest.TestCase):
    """Programs that are really run."""

    def test_files_in_memory_and_a_limit_of_time(self):
        answer = Programs().run(["sh", "-c", "cat \"$0\"; printf out > \"$1\"", "@one", "@two"], 10, {"one": b"in", "two": b""})
        self.assertEqual((answer.status, answer.out, answer.files["two"]), (0, b"in", b"out"))
        with self.assertRaises(TimedOut):
            Programs().run(["sh", "-c", "sleep 30 & sleep 30"], 0.3)

    def test_a_program_that_is_not_there(self):
        with self.assertRaisesRegex(watch.Failed, "No such file"):
            Programs().run(["/none/tetri_ctl"], 1)

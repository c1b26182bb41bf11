"""The cycle of tetri_ctl: its words, a plan that takes too long, its orders."""
import unittest

from tests.fakes import NOW, Given, job
from tetri_slurm import plan, queue
from tetri_slurm.programs import Answer, Failed, TimedOut

TRACE = b'{"nodes":[{"name":"n1"}],"window":4,"budget":200,"until":1}\n{"at":0,"arrive":"7","ask":{}}\n'
REPORT = b"cycle 0\nplan 30 45 wide 0\ngrant 7 1 0 n1,n2\ngrant 8 7 3 n1\ntops 0 0\nlaunch 7\nsummary cycles=1\n"
ORDERS = b"scontrol update JobId=7 ReqNodeList=n1,n2 && scontrol release 7\n"


class Cycle(unittest.TestCase):
    def setUp(self):
        self.help, self.slow, self.checked = b"usage: plan TRACE", False, b"accepted 1\n"

    def answer(self, words, files):
        word = words[1]
        if word == "queue":
            return Answer(0, TRACE, b"taken 1\nthrottled 2\n", {"rejects": b"throttled\t9_1\tPENDING\n"})
        if word == "plan" and "--help" in words:
            return self.help
        if word == "plan":
            self.planned = (words, files)
            if self.slow and "exact" not in words:
                raise TimedOut("plan")
            return REPORT
        return self.checked if word == "check" else ORDERS

    def cycle(self, **more):
        self.programs = Given(self.answer)
        files = {"jobs": b"", "arrays": b"", "nodes": b"", "reservations": b""}
        return plan.Planner(self.programs, ["tetri_ctl"], more.get("queue", []), more.get("plan", []), 30, 20).cycle(files, NOW)

    def test_what_is_read_of_it(self):
        found = self.cycle()
        self.assertEqual((found.value, found.bound, found.mark, found.greedy), (30, 45, "wide", False))
        self.assertEqual((found.orders, found.rejects, found.counts), ([("7", ("n1", "n2"))], {"9_1": "throttled"}, {"taken": 1, "throttled": 2}))
        self.assertEqual((found.grants["8"].start, found.grants["8"].nodes), (3, ("n1",)))

    def test_usual_options_where_the_program_knows_them(self):
        self.cycle()
        self.assertEqual(self.planned[0], ["tetri_ctl", "plan", "@trace"])
        self.help = b"  --delay-cost COST\n"
        self.cycle()
        self.assertEqual(self.planned[0][2:-1], ["--delay-cost", "auto"])
        self.cycle(plan=["--search", "prices"])
        self.assertEqual(self.planned[0][2:-1], ["--search", "prices"])

    def test_jobs_age_as_is_usual_or_as_is_said(self):
        self.cycle()
        self.assertEqual(self.programs.calls[0][-2:], ["--ageing", "24"])
        self.cycle(queue=["--ageing", "12", "--window", "8"])
        self.assertEqual(self.programs.calls[0][-4:], ["--ageing", "12", "--window", "8"])

    def test_a_slow_plan_is_made_greedily(self):
        self.slow = True
        found = self.cycle()
        self.assertTrue(found.greedy)
        self.assertEqual(self.planned[0][2:], ["--search", "exact", "@trace"])
        self.assertTrue(self.planned[1]["trace"].startswith(b'{"nodes":[{"name":"n1"}],"window":4,"budget":1,"until":1}\n{"at":0'))

    def test_a_report_that_is_not_accepted_gives_no_orders(self):
        self.checked = b"no\n"
        with self.assertRaises(Failed):
            self.cycle()

    def test_an_order_of_another_form_is_refused(self):
        for line in ("scontrol update JobId=7 ReqNodeList=n1 && scontrol release 8", "scontrol update JobId=7 ReqNodeList=n1;reboot && scontrol release 7", "reboot",
                     "scontrol update JobId=7 ReqNodeList=n1 && scontrol release 7 "):
            with self.assertRaises(Failed, msg=line):
                plan.read_orders(line + "\n")


class Reasons(unittest.TestCase):
    def test_each_planned_job_has_one(self):
        found = plan.Plan(grants={"7": plan.Grant("7", 0, ("n1",)), "8": plan.Grant("8", 3, ("n2",))}, rejects={"9_1": "throttled"})
        verdicts = [queue.Verdict(job(name), queue.PLANNED, "", in_table=True, width=1) for name in ("7", "8", "9_1", "10")]
        plan.reasons(verdicts, found, NOW, 30)
        self.assertEqual(verdicts[0].reason, "now on n1")
        self.assertEqual(verdicts[1].reason, f"{queue.clock_time(NOW + 90)} on n2")
        self.assertEqual(verdicts[2].reason, "as many tasks of its array run as may at once")
        self.assertTrue(verdicts[3].reason.startswith("no start in this window"))

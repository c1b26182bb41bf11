"""Orders against a Slurm of one job, which keeps what an update, a release and a hold change, and may refuse, hang or be killed at any call."""
import unittest

from tests.fakes import NOW, Clock, Given, job
from tetri_slurm import mark, order, query
from tetri_slurm.mark import Mark
from tetri_slurm.programs import Answer, TimedOut


class OneJob:
    """A Slurm of one job."""

    def __init__(self, **more):
        self.values = {"JobState": "PENDING", "Reason": "JobHeldUser", "Priority": "0", "ReqNodeList": "", "Restarts": "0", "AdminComment": "", **more}
        self.refused, self.told, self.stops = {}, [], None

    def __call__(self, words, _):
        if words[1] == "show":
            values = {key: value or "(null)" for key, value in self.values.items()}
            line = ("JobId=7 Priority={Priority} Nice=0 JobState={JobState} Reason={Reason} Dependency=(null) Requeue=1 Restarts={Restarts} BatchFlag=1 "
                    "ReqNodeList={ReqNodeList} ExcNodeList=(null) \n")
            return line.format(**values).encode()
        if self.stops is not None:
            self.stops -= 1
            if self.stops < 0:
                raise KeyboardInterrupt
        self.told.append(words[1])
        why = self.refused.pop(words[1], None)
        if why == "hang":
            raise TimedOut("scontrol: no answer")
        if why:
            return Answer(1, b"", why.encode())
        if words[1] == "release":
            self.values.update(Reason="None", Priority="900")
        elif words[1] == "uhold":
            self.values.update(Reason="JobHeldUser", Priority="0")
        else:
            self.values.update(dict(it.split("=", 1) for it in words[2:]))
        return b""

    def job(self):
        its = self.values
        return job("7", state=its["JobState"], reason=its["Reason"], priority=int(its["Priority"]), required=its["ReqNodeList"], comment=its["AdminComment"], restarts=int(its["Restarts"]))


class Orders(unittest.TestCase):
    def setUp(self):
        self.slurm, self.clock = OneJob(AdminComment="site words"), Clock()
        self.start()

    def start(self):
        calls = Given(lambda words, files: self.slurm(words, files))
        self.orders = order.Orders(calls, query.Query(calls, 5, self.clock), 5, self.clock, "head", every=30)

    def give(self, others_wait=False):
        return self.orders.give(self.slurm.job(), ("n1", "n2"), others_wait)

    def test_an_order(self):
        self.assertIsNone(self.give())
        self.assertEqual(self.slurm.told, ["update", "release"])
        self.assertEqual((self.slurm.values["ReqNodeList"], self.slurm.values["Reason"]), ("n1,n2", "None"))
        self.assertEqual((self.slurm.job().mark.state, mark.without(self.slurm.values["AdminComment"])), (mark.ORDERED, "site words"))

    def test_it_goes_before_those_that_wait(self):
        self.assertIsNone(self.give(others_wait=True))
        self.assertEqual(self.slurm.values["Priority"], str(order.HIGHEST))

    def test_an_operator_who_held_it_since_the_plan(self):
        before = self.slurm.job()
        self.slurm.values["Reason"] = "JobHeldAdmin"
        self.assertEqual(self.orders.give(before, ("n1",), False), "it is PENDING JobHeldAdmin by now")
        self.assertEqual(self.slurm.told, [])

    def test_a_job_that_changed_or_went(self):
        before = self.slurm.job()
        self.slurm.values["ReqNodeList"] = "n5"
        self.assertEqual(self.orders.give(before, ("n1",), False), "it was changed since it was planned")

    def test_an_update_that_slurm_refuses_is_undone(self):
        self.slurm.values["ReqNodeList"] = "n7"
        self.slurm.refused["update"] = "Requested partition configuration not available now"
        self.assertIn("Requested partition", self.give())
        its = self.slurm.job()
        self.assertEqual((its.required, its.reason, its.mark.state, its.mark.tries, its.mark.until), ("n7", "JobHeldUser", mark.BACKED, 1, NOW + 60))

    def test_a_release_that_fails_leaves_a_mark_that_frees_it(self):
        self.slurm.values["ReqNodeList"] = "n7"
        self.slurm.refused["release"] = "Transport endpoint is not connected"
        self.assertTrue(self.give().startswith("release: "))
        freed, why = self.orders.take_back(self.slurm.job())
        self.assertIsNone(why)
        self.assertEqual((self.slurm.values["ReqNodeList"], freed.required, freed.mark.state, freed.mark.tries), ("n7", "n7", mark.BACKED, 0))

    def test_a_loop_killed_at_any_call_loses_nothing(self):
        for calls in range(4):
            self.slurm = OneJob(ReqNodeList="n7", AdminComment="site words")
            self.start()
            self.slurm.stops = calls
            try:
                self.give(others_wait=True)
            except KeyboardInterrupt:
                pass
            self.slurm.stops = None
            its = self.slurm.job()
            with self.subTest(calls=calls):
                self.assertEqual(its.required == "n1,n2", bool(its.mark) and its.mark.state == mark.ORDERED)
                if its.mark:
                    self.start()
                    self.clock.at += 60
                    freed, why = self.orders.take_back(its)
                    self.assertIsNone(why)
                    self.assertEqual((self.slurm.values["ReqNodeList"], self.slurm.values["Reason"], freed.required), ("n7", "JobHeldUser", "n7"))

    def test_backing_off_doubles_up_to_an_hour(self):
        waits = []
        for _ in range(9):
            self.give()
            self.slurm.values["Reason"] = "Resources"
            freed, _ = self.orders.take_back(self.slurm.job())
            waits.append(freed.mark.until - NOW)
        self.assertEqual(waits, [60, 120, 240, 480, 960, 1920, 3600, 3600, 3600])
        self.assertEqual(freed.mark.why, "Resources")

    def test_a_failed_node_is_no_try(self):
        self.give()
        self.slurm.values.update(Reason="BeginTime", Restarts="1")
        freed, why = self.orders.take_back(self.slurm.job())
        self.assertEqual((why, freed.required, freed.mark.tries, freed.mark.until, freed.mark.restarts), (None, "", 0, 0, 1))

    def test_an_operators_hold_on_an_ordered_job_stands(self):
        self.give()
        self.slurm.values.update(Reason="JobHeldAdmin", Priority="0")
        freed, _ = self.orders.take_back(self.slurm.job())
        self.assertEqual((freed.reason, self.slurm.values["Reason"], self.slurm.values["ReqNodeList"]), ("JobHeldAdmin", "JobHeldAdmin", ""))
        self.assertNotIn("uhold", self.slurm.told)

    def test_a_job_that_began_meanwhile_is_left(self):
        self.give()
        before = self.slurm.job()
        self.slurm.values.update(JobState="RUNNING")
        told = list(self.slurm.told)
        self.assertEqual(self.orders.take_back(before), (None, None))
        self.assertEqual(self.slurm.told, told)

    def test_a_hold_that_fails_is_told(self):
        self.give()
        self.slurm.refused["uhold"] = "no"
        self.assertEqual(self.orders.take_back(self.slurm.job())[1], "uhold: no")

    def test_a_call_that_hangs_is_told(self):
        self.slurm.refused["update"] = "hang"
        self.assertIn("no answer", self.give())
        self.assertTrue(self.orders.hangs)

    def test_handing_over(self):
        self.assertIsNone(self.orders.hand_over(self.slurm.job(), "asks for gres"))
        self.assertEqual(self.slurm.told, ["release", "update"])
        its = self.slurm.job()
        self.assertEqual((its.reason, its.mark.state, its.mark.why, its.required), ("None", mark.OVER, "asks for gres", ""))

    def test_arrays_are_handed_over_by_their_tasks(self):
        calls = Given(lambda words, _: b"")
        orders = order.Orders(calls, query.Query(calls, 5, self.clock), 5, self.clock, "head")
        orders.hand_over(job("3", array=3, tasks="0,3-5%2"), "asks for gres")
        self.assertEqual(calls.calls[0], ["scontrol", "release", "3_[0,3-5]"])

    def test_all_is_given_back(self):
        self.slurm.values["ReqNodeList"] = "n7"
        self.give()
        self.slurm.values["Reason"] = "Resources"
        self.assertIsNone(self.orders.give_back(self.slurm.job()))
        self.assertEqual((self.slurm.values["ReqNodeList"], self.slurm.values["Reason"]), ("n7", "None"))

    def test_which_are_given_back(self):
        marked = [mark.written("", Mark(state)) for state in (mark.ORDERED, mark.BACKED, mark.OVER)]
        jobs = [job("1"), job("2", reason="JobHeldAdmin"), job("3", comment=marked[1]), job("4", comment=marked[2]), job("5", reason="Resources", priority=9, comment=marked[0]),
                job("6", reason="Resources", priority=9), job("7", state="RUNNING", reason="None", comment=marked[0])]
        self.assertEqual([it.name for it in order.to_give_back(jobs)], ["1", "3", "5"])

"""Reading what Slurm says: the recorded samples of 22.05.8, and forms of later plugins."""
import json
import unittest

from tests.fakes import Clock, Given, data, snapshot
from tetri_slurm import hosts, query
from tetri_slurm.programs import Answer, Failed


class Recorded(unittest.TestCase):
    def setUp(self):
        self.all = snapshot()
        self.by_name = {it.name: it for it in self.all.jobs}

    def test_jobs_as_they_were_submitted(self):
        plain, begin, ranged = self.by_name["2"], self.by_name["4"], self.by_name["5"]
        self.assertEqual((plain.width, plain.most, plain.limit, plain.partition, plain.reason, plain.held_by_user), (2, 2, 600, "batch", "JobHeldUser", True))
        self.assertEqual(begin.eligible - begin.submitted, 86400)
        self.assertEqual((ranged.width, ranged.most), (1, 3))
        self.assertEqual((self.by_name["6"].required, self.by_name["8"].excluded), ("n[7-8]", "n[1-6]"))
        self.assertEqual((self.by_name["9"].partition, self.by_name["10"].features), ("batch,gpu", "[gpu|rack1]"))
        self.assertEqual((self.by_name["13"].memory, self.by_name["28"].disk), (100, 10))
        self.assertEqual(self.by_name["14"].dependency, "afterany:1(unfulfilled)")
        self.assertEqual((self.by_name["15"].sharing, self.by_name["16"].sharing, self.by_name["2"].sharing), ("none", "shared", ""))
        self.assertEqual((self.by_name["12"].more, self.by_name["26"].more, self.by_name["27"].more), (("licences",), ("contiguous nodes",), ("a deadline",)))
        self.assertEqual((self.by_name["22"].reason, self.by_name["22"].held_by_user), ("JobHeldAdmin", False))
        self.assertEqual((self.by_name["23"].comment, self.by_name["25"].limit, self.by_name["30"].reservation), ("site words", None, "r1"))

    def test_an_array_is_one_record_until_a_task_is_touched(self):
        array = self.by_name["3"]
        self.assertEqual((array.array, array.tasks, array.throttle), (3, "0,3,6,9%2", 2))

    def test_a_running_job_has_nodes_and_an_end(self):
        running = self.by_name["1"]
        self.assertEqual((running.state, running.nodes, running.ends - running.started), ("RUNNING", "n1", 600))
        self.assertTrue(running.has_nodes and not running.pending)

    def test_nodes(self):
        states = {name: node.word for name, node in self.all.nodes.items()}
        self.assertEqual(states, {"n1": "allocated", "n2": "idle", "n3": "idle", "n4": "drained", "n5": "idle", "n6": "idle", "n7": "idle", "n8": "idle"})
        self.assertEqual((self.all.nodes["n1"].features, self.all.nodes["n8"].features), (("gpu", "rack0"), ("rack1",)))

    def test_partitions(self):
        small, late = self.all.partitions["small"], self.all.partitions["late"]
        self.assertEqual((small.most_nodes, small.limit, small.up), (2, 3600, True))
        self.assertEqual((late.up, late.state, self.all.partitions["shared"].oversubscribes, self.all.partitions["batch"].oversubscribes), (False, "DOWN", True, False))


class Forms(unittest.TestCase):
    def test_numbers_of_later_plugins(self):
        self.assertEqual([query.number(it) for it in (5, None, {"set": True, "infinite": False, "number": 7}, {"set": False, "infinite": False, "number": 0},
                                                      {"set": False, "infinite": True, "number": 0}, 0xFFFFFFFE, 0xFFFFFFFF)], [5, None, 7, None, None, None, None])

    def test_a_job_and_a_node_of_later_plugins(self):
        job = query.job_of({"job_id": 9, "job_state": ["RUNNING", "COMPLETING"], "node_count": {"set": True, "infinite": False, "number": 3}, "shared": ["none"],
                            "array_job_id": {"set": True, "infinite": False, "number": 8}, "array_task_id": {"set": True, "infinite": False, "number": 0}})
        self.assertEqual((job.name, job.state, job.width, job.sharing), ("8_0", "COMPLETING", 3, "none"))
        node = query.node_of({"name": "n1", "state": ["IDLE", "DRAIN"], "partitions": ["batch"], "active_features": ["a", "b"]})
        self.assertEqual((node.word, node.features), ("drained", ("a", "b")))

    def test_states_of_nodes(self):
        for state, flags, word in (("idle", ["PLANNED"], "idle"), ("idle", ["CLOUD", "POWERED_DOWN"], "idle~"), ("idle", ["POWERING_UP"], "idle#"), ("idle", ["NOT_RESPONDING"], "drained"),
                                   ("idle", ["RESERVED"], "reserved"), ("idle", ["RESERVED", "DRAIN"], "drained"), ("allocated", ["COMPLETING"], "completing"), ("mixed", [], "mixed"),
                                   ("down", [], "down"), ("idle", ["SOMETHING_NEW"], "drained")):
            self.assertEqual(query.node_of({"name": "n", "state": state, "state_flags": flags}).word, word, (state, flags))

    def test_a_record_that_cannot_be_read_closes_its_nodes(self):
        told = json.loads(data("squeue-22.05.8.json"))
        told["jobs"] = [{"job_id": "x", "job_state": "RUNNING", "nodes": "n[5-6]"}]
        found = query.read_all(0, json.dumps(told), data("sinfo-22.05.8.json"), data("partitions-22.05.8").decode())
        self.assertEqual([it for it, node in found.nodes.items() if not node.idle], ["n1", "n4", "n5", "n6"])
        self.assertEqual(len(found.unread), 1)

    def test_a_slurm_without_json_is_told(self):
        asked = query.Query(Given(lambda words, _: Answer(1, b"", b"squeue: unrecognized option '--json'\n")), 5, Clock())
        with self.assertRaisesRegex(Failed, "21.08 or later whose serializer"):
            asked.snapshot()

    def test_one_job_is_asked_for_by_itself(self):
        line = (b"JobId=7 JobName=wrap Priority=0 Nice=0 JobState=PENDING Reason=JobHeldUser Dependency=(null) Requeue=1 Restarts=2 BatchFlag=1 "
                b"ReqNodeList=n[1-2] ExcNodeList=(null) \n")
        found = query.Query(Given(lambda words, _: line), 5, Clock()).job("7")
        self.assertEqual((found.state, found.reason, found.required, found.restarts, found.held_by_user), ("PENDING", "JobHeldUser", "n[1-2]", 2, True))

    def test_a_job_whose_name_looks_like_fields_is_looked_up_among_all(self):
        line = (b"JobId=22 JobName=x Priority=0 JobState=PENDING Reason=JobHeldUser Dependency=(null) Restarts=0 ReqNodeList=(null) Priority=0 Nice=0 JobState=PENDING "
                b"Reason=JobHeldAdmin Dependency=(null) Requeue=1 Restarts=0 ReqNodeList=(null) ExcNodeList=(null) \n")
        asked = Given(lambda words, _: data("squeue-22.05.8.json") if words[0] == "squeue" else line)
        self.assertEqual(query.Query(asked, 5, Clock()).job("22").reason, "JobHeldAdmin")


class Lists(unittest.TestCase):
    def test_hosts(self):
        for text, wanted in (("n1", ["n1"]), ("n[1-3,7]", ["n1", "n2", "n3", "n7"]), ("a[08-10],b", ["a08", "a09", "a10", "b"]), ("r[1-2]n[1-2]", ["r1n1", "r1n2", "r2n1", "r2n2"]), ("", [])):
            self.assertEqual(hosts.expand(text), wanted)
        for text in ("n[3-1]", "n[a]", "n[1-", "n 1", "n[1-999999999]"):
            with self.assertRaises(hosts.NoHosts, msg=text):
                hosts.expand(text)

    def test_tasks(self):
        self.assertEqual(hosts.tasks("0,3,6,9%2", 10), ([0, 3, 6, 9], 4))
        self.assertEqual(hosts.tasks("0-99999", 3), ([0, 1, 2], 100000))
        self.assertEqual(hosts.tasks("0-10:5,20%1", 9), ([0, 5, 10, 20], 4))

"""What becomes of each job, and the table for tetri_ctl queue. What is wanted was written down by hand from what was submitted."""
import unittest

from tests.fakes import NOW, job, snapshot
from tetri_slurm import mark, queue
from tetri_slurm.mark import Mark
from tetri_slurm.queue import BACKING_OFF, HELD, OVER, PLANNED, Rules, Sorter


def of(job_, rules=Rules(), **more):
    found = snapshot(**more)
    return Sorter(found, rules).verdict(job_)


class Recorded(unittest.TestCase):
    def test_each_job_of_the_sample(self):
        wanted = {"2": PLANNED, "3_0": PLANNED, "3_3": PLANNED, "3_6": PLANNED, "3_9": PLANNED, "4": OVER, "5": OVER, "6": PLANNED, "7": OVER, "8": PLANNED, "9": OVER, "10": OVER,
                  "11": PLANNED, "12": OVER, "13": OVER, "14": OVER, "15": PLANNED, "16": OVER, "17": OVER, "18": BACKING_OFF, "19": OVER, "20": PLANNED, "21": OVER,
                  "22": HELD, "23": PLANNED, "24": OVER, "25": PLANNED, "26": OVER, "27": OVER, "28": OVER, "29": PLANNED, "30": OVER}
        found = Sorter(snapshot(), Rules()).sorted()
        self.assertEqual({it.job.name: it.state for it in found}, wanted)
        self.assertTrue(all(it.reason for it in found if it.state != PLANNED))
        self.assertEqual([it.job.name for it in found if it.action], ["4", "5", "7", "9", "10", "12", "13", "14", "16", "17", "19", "21", "26", "27", "28", "30"])

    def test_what_cannot_be_said_may_stay_held(self):
        found = {it.job.name: it for it in Sorter(snapshot(), Rules(leave_held=True)).sorted()}
        self.assertEqual((found["5"].state, found["5"].reason, found["5"].action), (HELD, "left held: takes 1 to 3 nodes", ""))

    def test_a_site_of_shared_nodes_plans_exclusive_jobs_alone(self):
        found = {it.job.name: it.state for it in Sorter(snapshot("select/cons_tres"), Rules()).sorted()}
        self.assertEqual((found["2"], found["15"]), (OVER, PLANNED))

    def test_the_oldest_is_first(self):
        names = [it.job.name for it in Sorter(snapshot(), Rules()).sorted()]
        self.assertLess(names.index("2"), names.index("6"))
        self.assertLess(names.index("15"), names.index("29"))


    def test_a_parted_task_keeps_its_turn(self):
        found = snapshot()
        found.jobs = [job("7", array=7, tasks="1-2", number=7), job("8", number=8), job("7_0", array=7, number=99)]
        self.assertEqual([it.job.name for it in Sorter(found, Rules()).sorted()], ["7_0", "7_1", "7_2", "8"])


class States(unittest.TestCase):
    def test_backing_off_ends(self):
        waits = Mark(mark.BACKED, NOW - 30, 2, NOW + 90, why="Resources")
        self.assertEqual(of(job(comment=mark.written("", waits))).state, BACKING_OFF)
        self.assertEqual(of(job(comment=mark.written("", waits.changed(until=NOW)))).state, PLANNED)

    def test_after_some_tries_a_job_is_handed_over(self):
        found = of(job(comment=mark.written("", Mark(mark.BACKED, NOW - 30, 5, NOW - 1, why="AssocGrpCpuLimit"))))
        self.assertEqual((found.state, found.action, found.reason), (OVER, "hand over", "ordered 5 times and never started, last because of AssocGrpCpuLimit"))

    def test_an_operators_hold_stands(self):
        self.assertEqual(of(job(reason="JobHeldAdmin")).state, HELD)
        self.assertEqual(of(job(comment=mark.written("", Mark(mark.OVER, NOW - 30)))).state, HELD)

    def test_a_job_that_slurm_put_back_waits_for_its_time(self):
        self.assertEqual(of(job(eligible=NOW + 100, restarts=1)).state, BACKING_OFF)
        self.assertEqual(of(job(eligible=NOW + 100)).state, OVER)
        self.assertEqual(of(job(eligible=NOW - 1, restarts=1)).state, PLANNED)

    def test_a_released_job_is_slurms_and_has_nodes_kept(self):
        waits = of(job(reason="Resources", priority=9, width=2, most=2))
        self.assertEqual((waits.state, waits.is_shadow, waits.in_table), (OVER, True, True))
        later = of(job(reason="BeginTime", priority=9, eligible=NOW + 9999, required="n[1-8]"))
        self.assertEqual((later.state, later.is_shadow, later.in_table, later.busy), (OVER, False, False, ""))

    def test_an_order_just_given_keeps_its_nodes(self):
        found = of(job(reason="None", priority=9, required="n5", comment=mark.written("", Mark(mark.ORDERED, NOW - 2))))
        self.assertEqual((found.state, found.busy, found.in_table), (PLANNED, "n5", False))

    def test_memory_bars_nodes(self):
        found = of(job(memory=1))
        self.assertEqual((found.state, found.barred, len(found.usable)), (PLANNED, (), 8))
        self.assertEqual(of(job(memory=2)).reason, "asks for 1 nodes, and 0 are as it asks")

    def test_no_node_has_both_features(self):
        self.assertEqual(of(job(features="gpu&rack1")).reason, "asks for 1 nodes, and 0 are as it asks")


class Limits(unittest.TestCase):
    def test_a_long_array_gives_its_first_tasks(self):
        found = snapshot()
        found.jobs = [job("7", array=7, tasks="0-99999", number=7)]
        verdicts = Sorter(found, Rules(most_of_array=3)).sorted()
        self.assertEqual([it.job.name for it in verdicts], ["7_0", "7_1", "7_2", "7"])
        self.assertEqual((verdicts[3].state, verdicts[3].reason, verdicts[3].in_table), (PLANNED, "99997 tasks behind 3 others of this array", False))

    def test_many_lists_of_one_user_stop_nobody(self):
        found = snapshot()
        found.jobs = [job(str(number), number=number, excluded=f"n{number % 7 + 1}", submitted=NOW - 2000 + number) for number in range(1, 1701)] + [job("2000", user="ben", number=2000)]
        verdicts = Sorter(found, Rules(most_of_user=50)).sorted()
        self.assertEqual(sum(it.in_table for it in verdicts), 51)
        self.assertEqual({it.job.name: it.reason for it in verdicts}["51"], "behind 50 others of its user")
        self.assertTrue(verdicts[-1].in_table)


class Table(unittest.TestCase):
    def rows(self, jobs):
        found = snapshot()
        found.jobs = jobs
        files = queue.table(found, Sorter(found, Rules()).sorted())
        return [line.split("\t") for line in files["jobs"].decode().splitlines()], files

    def test_a_planned_job(self):
        rows, _ = self.rows([job(width=2, most=2, features="gpu&rack0", required="n[1-2]", excluded="")])
        self.assertEqual(len(rows[0]), 16)
        self.assertEqual((rows[0][:5], rows[0][9:15]), (["7", "PENDING", "batch", "2", "0-00:10:00"], ["gpu&rack0", "JobHeldUser", "(null)", "NO", "n[1-2]", ""]))

    def test_a_running_job_closes_its_nodes_until_its_end(self):
        rows, _ = self.rows([job(state="RUNNING", reason="None", nodes="n[1-2]", ends=NOW + 3700, started=NOW - 100)])
        self.assertEqual((rows[0][1], rows[0][5], rows[0][7]), ("RUNNING", "0-01:01:40", "n[1-2]"))
        rows, _ = self.rows([job(state="COMPLETING", reason="None", nodes="n3", ends=NOW + 3700)])
        self.assertEqual((rows[0][1], rows[0][5]), ("COMPLETING", "0-00:00:00"))

    def test_nobody_can_break_a_line(self):
        rows, files = self.rows([job("3_1", array=3, throttle=2, user="a\tb\nc", features="gpu")])
        self.assertEqual((len(rows), len(rows[0]), files["arrays"]), (1, 16, b"3_[0%2]\n"))

    def test_rare_nodes_come_last(self):
        _, files = self.rows([job("1", number=1, features="gpu"), job("2", number=2), job("3", number=3, required="n6")])
        names = [line.split("\t")[0] for line in files["nodes"].decode().splitlines()]
        self.assertEqual(list(dict.fromkeys(names)), ["n5", "n7", "n8", "n1", "n2", "n3", "n4", "n6"])

    def test_nodes_are_told_for_each_partition(self):
        _, files = self.rows([])
        lines = files["nodes"].decode().splitlines()
        self.assertIn("n4\tdrained\tgpu\tgpu,rack0", lines)
        self.assertEqual(len([it for it in lines if it.startswith("n8\t")]), 4)

"""The mark on a job."""
import unittest

from tetri_slurm import mark
from tetri_slurm.mark import Mark


class Marks(unittest.TestCase):
    def test_what_is_written_is_read(self):
        its = Mark(mark.ORDERED, 1796202940, 3, 1796203000, 1, "n[1-2,7]", "head-1", "Resources")
        self.assertEqual(mark.read(mark.written("", its)), its)

    def test_the_word(self):
        self.assertEqual(mark.written("", Mark(mark.BACKED, 10, 2, 70, 0, "", "h", "Nodes busy; or = down")), "tetri-slurm:1;state=backing-off;time=10;tries=2;until=70;host=h;why=Nodes_busy_or_down")

    def test_what_the_site_wrote_stays(self):
        site = 'project "x"  a=b;c'
        once = mark.written(site, Mark(mark.ORDERED, 1))
        twice = mark.written(once, Mark(mark.OVER, 2))
        self.assertEqual(mark.read(twice).state, mark.OVER)
        self.assertEqual((twice.count("tetri-slurm:1"), mark.without(twice), mark.written(twice, None)), (1, site, site))

    def test_what_is_no_mark(self):
        for text in ("", "site words", "tetri-slurm:1;state=other", "xtetri-slurm:1;state=ordered"):
            self.assertIsNone(mark.read(text), text)

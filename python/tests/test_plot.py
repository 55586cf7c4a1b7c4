"""Logs and tables are read, and pictures are drawn of them. Skipped, with one line, where matplotlib is not installed."""
import contextlib
import io
import os
import tempfile
import unittest
import xml.etree.ElementTree

from common import ROOT, say

try:
    import matplotlib  # noqa: F401
except ImportError:
    say("skipped: matplotlib is not installed (Debian: python3-matplotlib), so no picture is drawn")
    raise unittest.SkipTest("matplotlib is not installed") from None

from tyngyrlak import plot

LOG = """1000 atoms, 71300 pairs, 400 steps of 5 fs
step      200     94.400 K      -55.123456 eV       12.3400 MPa      7 builds     512.3 steps/s
step      400     93.100 K      -55.023456 eV      -11.3400 MPa     14 builds     512.3 steps/s
temperature  93.1 K
shells       30 pairs in 2 frames, distances in A
shell         from           to                pairs       per volume
    0       0.0000       2.0000                    0     0.000000e0
    1       2.0000       4.0000                   30     1.250000e-1
density      1.4 g/cm3
"""


class Plots(unittest.TestCase):
    def test_a_log(self):
        progress, dt, shells, unit = plot.read_log(LOG)
        self.assertEqual((progress["step"], progress["K"], progress["MPa"], dt), ([200, 400], [94.4, 93.1], [12.34, -11.34], 5.0))
        self.assertEqual((shells, unit), ([(0.0, 2.0, 0, 0.0), (2.0, 4.0, 30, 0.125)], "Å"))
        self.assertEqual(plot.read_log(LOG.replace("12.3400 MPa", "").replace("-11.3400 MPa", ""))[0]["eV"], [-55.123456, -55.023456])

    def drawn(self, *words):
        with contextlib.redirect_stdout(io.StringIO()):
            plot.main(list(words))

    def test_pictures(self):
        with tempfile.TemporaryDirectory() as folder:
            log, picture = os.path.join(folder, "night.log"), os.path.join(folder, "night.svg")
            with open(log, "w") as f:
                f.write(LOG)
            self.drawn(log)
            text = "".join(xml.etree.ElementTree.parse(picture).getroot().itertext())
            for words in ("temperature (K)", "total energy (eV)", "pressure (MPa)", "time (ps)", "distance (Å)", "30 pairs in 2 shells"):
                self.assertIn(words, text)
            with open(picture, "rb") as f:
                first = f.read()
            self.drawn(log, picture)
            with open(picture, "rb") as f:
                self.assertEqual(f.read(), first)
            self.drawn("--ratios", os.path.join(ROOT, "docs", "PERFORMANCE.md"), os.path.join(folder, "ratios.png"))

    def test_the_ratios(self):
        with open(os.path.join(ROOT, "docs", "PERFORMANCE.md"), encoding="utf-8") as f:
            tables = plot.read_ratios(f.read())
        self.assertGreaterEqual(len(tables), 2)
        self.assertEqual(tables[0][1][0][0], "build")
        self.assertTrue(all(0 < r < 100 for _, rows in tables for _, r, _ in rows))

    def test_what_cannot_be_drawn(self):
        with tempfile.TemporaryDirectory() as folder:
            log = os.path.join(folder, "x.log")
            with open(log, "w") as f:
                f.write("nothing\n")
            cases = (([log], "found neither"), (["--ratios", log], "found none"), ([log + "x"], "No such file"), ([log, "x.gif"], "ends in .svg"), ([], "usage"))
            for words, says in cases:
                with self.assertRaises(SystemExit) as caught:
                    self.drawn(*words)
                self.assertIn(says, str(caught.exception))
                self.assertEqual(os.listdir(folder), ["x.log"])


if __name__ == "__main__":
    unittest.main()

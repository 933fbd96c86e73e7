"""Tests of plot.py: `python3 -m unittest` in this folder."""
import doctest
import subprocess
import sys
import unittest
import xml.etree.ElementTree as xml
from pathlib import Path

import plot
from sliq import Amplitude, Outcomes, Probability, State

COIN = Outcomes(1, {"0": Probability(2, 1, 2), "1": Probability(2, -1, 2)})
TURNED = State(2, {"00": Amplitude(0, 0, 0, 1, 1), "10": Amplitude(0, 0, -1, 0, 2), "11": Amplitude(0, -1, 0, 0, 2)})
SVG = "{http://www.w3.org/2000/svg}"


def load_tests(loader, tests, pattern):
    tests.addTests(doctest.DocTestSuite(plot))
    return tests


class Texts(unittest.TestCase):
    def test_bars(self):
        # 8 * 0.1464 / 0.8536 is 1.37
        self.assertEqual(plot.bars(COIN, width=8), "0  0.8536  ########\n1  0.1464  #\n")

    def test_a_certain_outcome(self):
        self.assertEqual(plot.bars(Outcomes(2, {"10": Probability(1)}), width=4), "10  1  ####\n")

    def test_a_small_one(self):
        # 1 - 2^-60 is 1 for a chart
        small = Outcomes(1, {"0": Probability(2**60 - 1, 0, 60), "1": Probability(1, 0, 60)})
        self.assertEqual(plot.bars(small, width=4), "0  1          ####\n1  8.674e-19\n")

    def test_counts(self):
        self.assertEqual(plot.bars({"01": 20, "10": 5}, width=8), "01  20  ########\n10  5   ##\n")

    def test_phases(self):
        # sizes 1/sqrt(2), 1/2, 1/2, and phases 0, of -w and of -i
        wanted = "|00>  0.7071    0.0  ##########\n|10>  0.5     225.0  #######\n|11>  0.5     270.0  #######\n"
        self.assertEqual(plot.phases(TURNED, width=10), wanted)


class Drawings(unittest.TestCase):
    def test_bars(self):
        drawn = xml.fromstring(plot.bars_svg(COIN, length=100))
        long, short = (float(bar.get("width")) for bar in drawn.iter(SVG + "rect"))
        self.assertEqual(long, 100)
        # tan(pi/8)^2 = 3 - 2*sqrt(2)
        self.assertAlmostEqual(short, 100 * (3 - 2 * 2**0.5), places=2)
        self.assertEqual([word.text for word in drawn.iter(SVG + "text")], ["0", "0.8536", "1", "0.1464"])

    def test_discs(self):
        drawn = xml.fromstring(plot.discs_svg(TURNED, radius=10))
        sizes = [float(disc.get("r")) for disc in drawn.iter(SVG + "circle")]
        self.assertEqual(sizes, [10, 7.07, 10, 5, 10, 5])
        hands = [[float(hand.get(end)) for end in ("x1", "y1", "x2", "y2")] for hand in drawn.iter(SVG + "line")]
        turns = [(round(x2 - x1, 2), round(y1 - y2, 2)) for x1, y1, x2, y2 in hands]
        self.assertEqual(turns, [(10, 0), (-7.07, -7.07), (0, -10)])
        self.assertEqual([word.text for word in drawn.iter(SVG + "text")], ["|00>", "|10>", "|11>"])

    def test_rows_of_discs(self):
        drawn = xml.fromstring(plot.discs_svg(State(2, {bits: Amplitude(0, 0, 0, 1, 2) for bits in ("00", "01", "10", "11")}), columns=3))
        places = [(float(hand.get("x1")), float(hand.get("y1"))) for hand in drawn.iter(SVG + "line")]
        self.assertEqual(len({x for x, _ in places}), 3)
        self.assertEqual(len({y for _, y in places}), 2)


class Reading(unittest.TestCase):
    def test_what_is_written(self):
        self.assertEqual(plot.read("measured 1\n0 (2,1)/2^2\n1 (2,-1)/2^2\noutcomes 2\n"), COIN)
        read = plot.read("qubits 2\n|00> (0,0,0,1)/sqrt2^1\n|10> (0,0,-1,0)/sqrt2^2\n|11> (0,-1,0,0)/sqrt2^2\nstates 3\n")
        self.assertEqual((read, read.qubits), (TURNED, 2))
        self.assertEqual(plot.read("01\n10\n01\nshots 3\n"), {"01": 2, "10": 1})
        self.assertEqual(plot.read("shots 0\n"), {})
        for text in ("", "01\nshots 2\n", "equivalent\nscalar (0,0,0,1)/sqrt2^0\n"):
            with self.assertRaises(ValueError):
                plot.read(text)

    def test_the_command(self):
        def call(words, text):
            file = Path(plot.__file__).resolve()
            done = subprocess.run([sys.executable, str(file), *words], input=text.encode(), stdout=subprocess.PIPE, stderr=subprocess.PIPE)
            return done.returncode, done.stdout.decode()

        self.assertEqual(call([], "measured 1\n1 (1,0)/2^0\noutcomes 1\n"), (0, "1  1  " + "#" * 40 + "\n"))
        self.assertEqual(call([], "qubits 0\n|> (0,1,0,0)/sqrt2^0\nstates 1\n"), (0, "|>  1  90.0  " + "#" * 40 + "\n"))
        status, drawn = call(["--svg"], "measured 1\n1 (1,0)/2^0\noutcomes 1\n")
        self.assertEqual((status, xml.fromstring(drawn).tag), (0, SVG + "svg"))
        self.assertEqual(call([], "sliq: read fault\n"), (1, ""))
        self.assertEqual(call([], "shots 0\n"), (0, ""))
        self.assertEqual(call(["--png"], "")[0], 2)


if __name__ == "__main__":
    unittest.main()

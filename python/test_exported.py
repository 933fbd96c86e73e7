"""Tests of exported.py: `python3 -m unittest` in this folder. The gates are compared, by the program, with their matrices as floats of Python's."""
import cmath
import doctest
import math
import unittest
from fractions import Fraction

import exported
import sliq


def load_tests(loader, tests, pattern):
    tests.addTests(doctest.DocTestSuite(exported))
    return tests


def u3(theta, phi, lam):
    """The matrix as OpenQASM's library writes it, with a real corner."""
    cos, sin = math.cos(theta / 2), math.sin(theta / 2)
    return [[cos, -cmath.exp(1j * lam) * sin], [cmath.exp(1j * phi) * sin, cmath.exp(1j * (phi + lam)) * cos]]


def controlled(matrix):
    return [[1, 0, 0, 0], [0, 1, 0, 0], [0, 0, *matrix[0]], [0, 0, *matrix[1]]]


def times(factor, matrix):
    return [[factor * entry for entry in row] for row in matrix]


RZ = lambda a: [[cmath.exp(-0.5j * a), 0], [0, cmath.exp(0.5j * a)]]
RX = lambda a: [[math.cos(a / 2), -1j * math.sin(a / 2)], [-1j * math.sin(a / 2), math.cos(a / 2)]]
RY = lambda a: [[math.cos(a / 2), -math.sin(a / 2)], [math.sin(a / 2), math.cos(a / 2)]]
P = lambda a: [[1, 0], [0, cmath.exp(1j * a)]]
SX = [[(1 + 1j) / 2, (1 - 1j) / 2], [(1 - 1j) / 2, (1 + 1j) / 2]]
SXDG = [[(1 - 1j) / 2, (1 + 1j) / 2], [(1 + 1j) / 2, (1 - 1j) / 2]]
SWAPPED = [[1, 0, 0, 0], [0, 0, 1j, 0], [0, 1j, 0, 0], [0, 0, 0, 1]]
DCX = [[1, 0, 0, 0], [0, 0, 1, 0], [0, 0, 0, 1], [0, 1, 0, 0]]  # 01 to 11, 10 to 01, 11 to 10


def matrix_of(text, qubits):
    """The matrix of a text, column by column, by the program."""
    names = [format(x, "0%db" % qubits) for x in range(2**qubits)]
    columns = [sliq.simulate(text, input=name) for name in names]
    return [[complex(column[name]) for column in columns] for name in names]


class Gates(unittest.TestCase):
    def compare(self, call, matrix, qubits=1, up_to_phase=False):
        arguments = ",".join("q[%d]" % place for place in range(qubits))
        text, told, left = exported.rewritten("OPENQASM 2.0; qreg q[%d]; %s %s;" % (qubits, call, arguments))
        self.assertEqual(left, [])
        self.assertEqual([note for _, note in told if "phase" in note] != [], up_to_phase, call)
        made = matrix_of(text, qubits)
        row, column = max(((r, c) for r in range(len(matrix)) for c in range(len(matrix))), key=lambda at: abs(matrix[at[0]][at[1]]))
        factor = made[row][column] / matrix[row][column] if up_to_phase else 1
        self.assertAlmostEqual(abs(factor), 1, places=12)
        for r, one in enumerate(made):
            for c, entry in enumerate(one):
                self.assertAlmostEqual(entry, factor * matrix[r][c], places=12, msg=call)

    def test_one_qubit(self):
        for eighths in range(-3, 9):
            angle, text = eighths * math.pi / 4, "%d*pi/4" % eighths
            self.compare("p(%s)" % text, P(angle))
            self.compare("rz(%s)" % text, RZ(angle), up_to_phase=True)
            self.compare("rx(%s)" % text, RX(angle), up_to_phase=bool(eighths % 2))
            self.compare("ry(%s)" % text, RY(angle), up_to_phase=bool(eighths % 2))
            self.compare("u2(%s,pi/4)" % text, u3(math.pi / 2, angle, math.pi / 4))
            self.compare("u3(pi/2,-pi/4,%s)" % text, u3(math.pi / 2, -math.pi / 4, angle))
            self.compare("u(%s,pi/2,pi/4)" % text, u3(angle, math.pi / 2, math.pi / 4), up_to_phase=bool(eighths % 2))
            self.compare("U(%s,0,pi)" % text, u3(angle, 0, math.pi), up_to_phase=True)
        self.compare("sx", SX)
        self.compare("sxdg", SXDG)

    def test_two_qubits(self):
        for quarters in range(-2, 5):
            angle, text = quarters * math.pi / 2, "%d*pi/2" % quarters
            self.compare("cp(%s)" % text, controlled(P(angle)), 2)
            self.compare("crz(%s)" % text, controlled(RZ(angle)), 2)
            self.compare("rzz(%s)" % text, [[cmath.exp(-0.5j * angle * (1 if r in (0, 3) else -1)) if r == c else 0 for c in range(4)] for r in range(4)], 2, up_to_phase=True)
            self.compare("cu3(pi,%s,pi/2)" % text, controlled(u3(math.pi, angle, math.pi / 2)), 2)
        self.compare("CX", controlled([[0, 1], [1, 0]]), 2)
        self.compare("csx", controlled(SX), 2)
        self.compare("iswap", SWAPPED, 2)
        self.compare("dcx", DCX, 2)

    def test_more_controls(self):
        for name in ("c3x", "mcx"):
            matrix = [[1 if c == (r ^ 1 if r >= 14 else r) else 0 for c in range(16)] for r in range(16)]
            self.compare(name, matrix, 4)


class Texts(unittest.TestCase):
    def test_angles(self):
        for text, turns in (("pi/2", "1/2"), ("-3*pi/4", "-3/4"), ("0.25*pi", "1/4"), ("2e-1*pi", "1/5"), ("(1+1)*pi/2-pi", "0"), ("0", "0")):
            self.assertEqual(exported.turns_of(text), (Fraction(turns), False))
        for text, turns in (("1.5707963267948966", "1/2"), ("-0.785398163397448", "-1/4"), ("3.14159265358979", "1"), ("14.137166941154069", "9/2")):
            self.assertEqual(exported.turns_of(text), (Fraction(turns), True))
        for text in ("1.5707963", "3.14159265", "0.3", "1", "pi*pi", "pi+1", "sin(0)", "pi/0", "1/pi", "", "0.1+pi/4"):
            self.assertIsNone(exported.turns_of(text))
        for turns, text in (("1/2", "pi/2"), ("-1/4", "-pi/4"), ("3/4", "3*pi/4"), ("-2", "-2*pi"), ("1", "pi"), ("0", "0")):
            self.assertEqual(exported.angle_text(Fraction(turns)), text)

    def test_what_stays(self):
        text = 'OPENQASM 2.0;\ninclude "qelib1.inc";\nqreg q[2];\ncreg c[2];\nh q;\nrx(pi/2 - pi) q;\ncccx q[0],q[1],q[0];\nbarrier q;\nmeasure q -> c;\n'
        self.assertEqual(exported.rewritten(text), (text, [], []))

    def test_what_has_no_form(self):
        text = "OPENQASM 2.0; gate a b { h b; x b; } qreg q[1]; creg c[1]; rx(0.3) q; reset q; if (c==1) x q; foo q[0]; u1(pi/8) q[0]; sx r;"
        made, told, left = exported.rewritten(text)
        self.assertEqual((told, [number for number, _ in left]), ([], [2, 5, 6, 7, 8, 9, 10]))
        self.assertEqual(made.splitlines(), exported.statements(text))

    def test_whole_registers(self):
        made, _, _ = exported.rewritten("OPENQASM 2.0; qreg a[2]; qreg b[2]; dcx a,b; crz(pi) a[1],b; // twice")
        lines = "cx a[0],b[0]; cx b[0],a[0]; cx a[1],b[1]; cx b[1],a[1];"
        for target in ("b[0]", "b[1]"):
            lines += " u1(pi/2) {0}; cx a[1],{0}; u1(-pi/2) {0}; cx a[1],{0};".format(target)
        self.assertEqual(" ".join(made.splitlines()[3:]), lines)


if __name__ == "__main__":
    unittest.main()

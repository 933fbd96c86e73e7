"""Writes a circuit that another tool exported with the gates that sliq reads, as far as that is exact.

    python3 python/exported.py < FILE > FILE

On err it says what it took for what, and which statements have no exact form; those stay as they are, and the status is 1. Statements are counted from 1, each up to its `;`.

- A decimal angle that agrees with a multiple of pi/4 to 14 digits is taken as that multiple; beside `pi`, as in 0.25*pi, a decimal is the fraction that it says.
- p, u, u1, u2, u3, U, rz, sx, sxdg, rx and ry at odd multiples of pi/4, CX, cp, crz, cu3, csx, rzz, iswap, dcx, mcx, c3x, c4x become gates that sliq reads. Where that leaves out a
  phase of the whole state, which nothing can measure, it says so.
- A gate definition stays as it is, and so does everything that has no counterpart: opaque, reset, if.

    >>> print(rewritten("OPENQASM 2.0; qreg q[2]; rx(1.5707963267948966) q[0]; cp(0.25*pi) q[0],q[1];")[0], end="")
    OPENQASM 2.0;
    qreg q[2];
    rx(pi/2) q[0];
    cu1(pi/4) q[0],q[1];

This file needs Python's standard library alone.
"""
import ast
import math
import re
import sys
from fractions import Fraction

# ---- angles: a number is a pair (a, b) for a + b*pi


def _value(node, text):
    """The value of an expression, or None where it isn't one of whole numbers, decimals, pi, + - * / and parentheses."""
    if isinstance(node, ast.Constant) and type(node.value) in (int, float):
        return Fraction(ast.get_source_segment(text, node)), Fraction(0)
    if isinstance(node, ast.Name) and node.id == "pi":
        return Fraction(0), Fraction(1)
    if isinstance(node, ast.UnaryOp) and isinstance(node.op, ast.USub):
        inner = _value(node.operand, text)
        return inner and (-inner[0], -inner[1])
    if not isinstance(node, ast.BinOp):
        return None
    one, two = _value(node.left, text), _value(node.right, text)
    if one is None or two is None:
        return None
    if isinstance(node.op, ast.Add):
        return one[0] + two[0], one[1] + two[1]
    if isinstance(node.op, ast.Sub):
        return one[0] - two[0], one[1] - two[1]
    if isinstance(node.op, ast.Mult) and not (one[1] and two[1]):
        return one[0] * two[0], one[0] * two[1] + one[1] * two[0]
    if isinstance(node.op, ast.Div) and two[0] and not two[1]:
        return one[0] / two[0], one[1] / two[0]
    return None


def turns_of(text):
    """An angle as a Fraction of pi and whether it was near a multiple only; or None where it is no exact multiple and near none."""
    try:
        value = _value(ast.parse(text.strip(), mode="eval").body, text.strip())
    except (SyntaxError, ValueError, ZeroDivisionError):
        return None
    if value is None:
        return None
    number, turns = value
    if not number:
        return turns, False
    whole = round(float(number) / (math.pi / 4))
    if turns or not whole or abs(float(number) - whole * math.pi / 4) > 1e-14 * abs(float(number)):
        return None
    return Fraction(whole, 4), True


def angle_text(turns):
    """As sliq reads it: pi/2, -pi/4, 3*pi/4, pi, 0."""
    if not turns:
        return "0"
    size = abs(turns.numerator)
    return ("-" if turns < 0 else "") + ("" if size == 1 else "%d*" % size) + "pi" + ("" if turns.denominator == 1 else "/%d" % turns.denominator)


# ---- gates


class NoExactForm(Exception):
    pass


def forms(name, turns, qubits, told):
    """The gates that sliq reads in place of one gate: tuples of a name, its angle as a Fraction of pi or None, and the qubits. What is left out is added to `told`."""

    def each(*gates):
        return [made for gate, angles, on in gates for made in forms(gate, angles, on, told)]

    def phase():
        told.append("%s is written up to a phase of the whole state" % name)

    quarter = Fraction(1, 4)
    if re.fullmatch(r"c*(u1|rx|ry)", name):
        (angle,) = turns
        if angle % (quarter if name.endswith("u1") else 2 * quarter) == 0:
            return [(name, angle, qubits)]
        if name == "rx" and angle % quarter == 0:
            phase()
            return each(("h", [], qubits), ("u1", turns, qubits), ("h", [], qubits))
        if name == "ry" and angle % quarter == 0:
            phase()
            return each(("sdg", [], qubits), ("h", [], qubits), ("u1", turns, qubits), ("h", [], qubits), ("s", [], qubits))
        raise NoExactForm
    if name in ("p", "rz"):
        if name == "rz":
            phase()
        return each(("u1", turns, qubits))
    if name in ("cp", "mcp"):
        return each(("c" * (len(qubits) - 1) + "u1", turns, qubits))
    if name in ("u2", "u3", "u", "U"):
        theta, phi, lam = [Fraction(1, 2), *turns] if name == "u2" else turns
        if name == "U":
            phase()
        return each(("u1", [lam], qubits), ("ry", [theta], qubits), ("u1", [phi], qubits))
    if name in ("sx", "sxdg"):
        return each(("h", [], qubits), ("s" if name == "sx" else "sdg", [], qubits), ("h", [], qubits))
    if name in ("CX", "mcx", "c3x", "c4x"):
        return each(("c" * (len(qubits) - 1) + "x", [], qubits))
    if name in ("crz", "cu3", "csx", "rzz", "iswap", "dcx"):
        a, b = qubits
        cx = ("cx", [], (a, b))
        if name == "crz":
            return each(("u1", [turns[0] / 2], (b,)), cx, ("u1", [-turns[0] / 2], (b,)), cx)
        if name == "cu3":
            theta, phi, lam = turns
            first = [("u1", [(phi + lam) / 2], (a,)), ("u1", [(lam - phi) / 2], (b,)), cx, ("u1", [-(phi + lam) / 2], (b,))]
            return each(*first, ("ry", [-theta / 2], (b,)), cx, ("ry", [theta / 2], (b,)), ("u1", [phi], (b,)))
        if name == "csx":
            return each(("h", [], (b,)), ("cs", [], (a, b)), ("h", [], (b,)))
        if name == "rzz":
            phase()
            return each(cx, ("u1", turns, (b,)), cx)
        if name == "iswap":
            return each(("swap", [], (a, b)), ("cz", [], (a, b)), ("s", [], (a,)), ("s", [], (b,)))
        return each(cx, ("cx", [], (b, a)))
    if turns or not re.fullmatch(r"id|c*(x|y|z|h|s|sdg|t|tdg|swap)", name):
        raise NoExactForm
    return [(name, None, qubits)]


# ---- texts


def statements(text):
    """The statements without comments, a gate definition with its braces as one of them."""
    found, open_braces, begun = [], 0, ""
    for character in re.sub(r"//[^\n]*", "", text):
        begun += character
        open_braces += (character == "{") - (character == "}")
        if not open_braces and character in ";}":
            found.append(" ".join(begun.split()))
            begun = ""
    return found + ([" ".join(begun.split())] if begun.strip() else [])


def _call(statement, sizes, told):
    """The statements in place of a call."""
    called = re.fullmatch(r"(\w+) ?(?:\((.*)\))? ?([^()]+);", statement)
    if not called:
        raise NoExactForm
    name, angles, names = called.groups()
    turns = []
    for text in angles.split(",") if angles else []:
        found = turns_of(text)
        if found is None:
            raise NoExactForm
        if found[1]:
            told.append("%s is taken as %s" % (text.strip(), angle_text(found[0])))
        turns.append(found[0])
    arguments = [argument.strip() for argument in names.split(",")]
    # several gates for one on whole registers are written out, place by place
    wide = {sizes.get(argument) for argument in arguments if "[" not in argument}
    if len(wide) > 1 or None in wide:
        raise NoExactForm
    made = []
    for place in range(wide.pop() if wide else 1):
        made += forms(name, turns, tuple(one if "[" in one else "%s[%d]" % (one, place) for one in arguments), told)
    if not told and {gate for gate, _, _ in made} == {name}:
        return [statement]
    return ["%s%s %s;" % (gate, "" if angle is None else "(%s)" % angle_text(angle), ",".join(qubits)) for gate, angle, qubits in made]


def rewritten(text):
    """The new text, a list of (number of a statement, what was taken for what), and a list of (number, statement) of those without an exact form."""
    lines, told, left, sizes = [], [], [], {}
    for number, statement in enumerate(statements(text), 1):
        word = re.match(r"\w*", statement)[0]
        if word in ("qreg", "creg"):
            declared = re.fullmatch(r"\w+ (\w+) ?\[ ?(\d+) ?\] ?;", statement)
            if declared and word == "qreg":
                sizes[declared[1]] = int(declared[2])
        made = [statement]
        if word in ("gate", "opaque", "reset", "if") or word == "include" and '"qelib1.inc"' not in statement:
            left.append((number, statement))
        elif word not in ("OPENQASM", "include", "qreg", "creg", "barrier", "measure"):
            notes = []
            try:
                made = _call(statement, sizes, notes)
                told += [(number, note) for note in dict.fromkeys(notes)]
            except (NoExactForm, ValueError):
                left.append((number, statement))
        lines += made
    return "".join(line + "\n" for line in lines), told, left


def main():
    text, told, left = rewritten(sys.stdin.read())
    sys.stdout.write(text)
    counts = {}
    for number, note in told:
        counts.setdefault(note, []).append(number)
    for note, numbers in counts.items():
        print("exported: statement %d: %s%s" % (numbers[0], note, ", and in %d more" % (len(numbers) - 1) if numbers[1:] else ""), file=sys.stderr)
    for number, statement in left:
        print("exported: statement %d has no exact form here: %s" % (number, statement if len(statement) < 60 else statement[:57] + "..."), file=sys.stderr)
    return 1 if left else 0


if __name__ == "__main__":
    sys.exit(main())

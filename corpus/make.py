#!/usr/bin/env python3
"""Writes the larger circuits of this folder, and those expected outputs that are laws of arithmetic.

    python3 make.py

All other files are written by hand. What is written here is the same each time; nothing is taken from sliq.
"""
from math import comb
from pathlib import Path

HERE = Path(__file__).resolve().parent


class Text:
    """A circuit's text, with up to `wide` gates in a line. `wrong` is the number of a tdg that becomes a t."""

    def __init__(self, comment, *declarations, wide=6, wrong=0):
        self.lines = ["// " + line for line in comment]
        self.lines += ["OPENQASM 2.0;", 'include "qelib1.inc";', *declarations]
        self.row, self.wide, self.wrong, self.gates = [], wide, wrong, 0

    def put(self, name, *qubits):
        self.gates += 1
        if self.gates == self.wrong:
            assert name == "tdg"
            name = "t"
        self.row.append("%s %s;" % (name, ",".join(q if isinstance(q, str) else "q[%d]" % q for q in qubits)))
        if len(self.row) == self.wide:
            self.close()

    def close(self, *lines):
        if self.row:
            self.lines.append(" ".join(self.row))
        self.row = []
        self.lines += lines

    def write(self, name):
        self.close()
        (HERE / (name + ".qasm")).write_text("\n".join(self.lines) + "\n")


# ---- expected outputs


def listing(name, states, power):
    """The output of sim for basis states with amplitudes 1 or -1 over a power of the root of two."""
    width = len(next(iter(states)))
    lines = ["qubits %d" % width]
    lines += ["|%s> (0,0,0,%d)/sqrt2^%d" % (bits, states[bits], power) for bits in sorted(states)]
    (HERE / (name + ".sim")).write_text("\n".join(lines + ["states %d" % len(states)]) + "\n")


def outcomes(name, weights):
    """The output of prob: a text `(A,B)/2^k` for each outcome."""
    lines = ["measured %d" % len(next(iter(weights)))]
    lines += ["%s %s" % (bits, weights[bits]) for bits in sorted(weights)]
    (HERE / (name + ".prob")).write_text("\n".join(lines + ["outcomes %d" % len(weights)]) + "\n")


def bits_of(number, width):
    """Lowest bit first."""
    return "".join(str(number >> place & 1) for place in range(width))


# ---- parts


def toffoli_by_t(text, a, b, c):
    """ccx by seven t and tdg."""
    text.put("h", c)
    for control, phase in ((b, "tdg"), (a, "t"), (b, "tdg"), (a, "t")):
        text.put("cx", control, c)
        text.put(phase, c)
    text.put("t", b)
    text.put("h", c)
    text.put("cx", a, b)
    text.put("t", a)
    text.put("tdg", b)
    text.put("cx", a, b)


def under(controls, name):
    return "c" * controls + name


# ---- algorithms


def bernstein_vazirani():
    hidden = "".join("1" if place % 3 == 0 or place % 7 == 2 else "0" for place in range(63))
    text = Text(
        [
            "Bernstein and Vazirani with 63 hidden bits, those whose place is 0 mod 3 or 2 mod 7, in 64 qubits:",
            "one call of f(x) = s*x mod 2 shows them for certain.",
        ],
        "qreg q[63];",
        "qreg y[1];",
        "creg c[63];",
        wide=12,
    )
    text.close("x y; h q; h y;")
    for place, bit in enumerate(hidden):
        if bit == "1":
            text.put("cx", place, "y")
    text.close("h q;", "measure q -> c;")
    text.write("algorithms/bernstein_vazirani_63")
    outcomes("algorithms/bernstein_vazirani_63", {hidden: "(1,0)/2^0"})


def grover(name, found, steps):
    n = len(found)
    zeros = [place for place in range(n) if found[place] == "0"]
    text = Text(
        [
            "Grover's search for %s among %d, %d steps. With N = %d a step takes the amplitudes (found, other), up to a sign, to" % (found, 2**n, steps, 2**n),
            "((1-2/N)f + (2-2/N)o, (1-2/N)o - (2/N)f), from (1, 1)/sqrt(N); so all others have the same one.",
        ],
        "qreg q[%d];" % n,
        wide=12,
    )
    text.close("h q;")
    for _ in range(steps):
        for place in zeros:
            text.put("x", place)
        text.put(under(n - 1, "z"), *range(n))
        for place in zeros:
            text.put("x", place)
        text.close("h q; x q; %s %s; x q; h q;" % (under(n - 1, "z"), ",".join("q[%d]" % place for place in range(n))))
    text.write(name)


def hidden_shift(name, shift, by_t=False):
    """Pairs x, y of neighbouring qubits; f = sum of x_i*y_i and of products of three x; its dual has the products of y."""
    pairs = len(shift) // 2
    text = Text(
        [
            "A hidden shift of %d bits, %s." % (len(shift), shift),
            "f is the sum of x_i*y_i and of x_i*x_j*x_k for each three pairs in turn, mod 2, with x on even and y on odd places: a bent function, whose dual has the",
            "products of y in their place. The first oracle is that of f shifted, the second that of the dual; the shift comes for certain.",
        ]
        + (["Each ccz is made of seven t and tdg."] if by_t else []),
        "qreg q[%d];" % (2 * pairs),
        wide=8,
    )

    def ccz(a, b, c):
        if by_t:
            text.put("h", c)
            toffoli_by_t(text, a, b, c)
            text.put("h", c)
        else:
            text.put("ccz", a, b, c)

    def oracle(part):
        for pair in range(pairs):
            text.put("cz", 2 * pair, 2 * pair + 1)
        for first in range(0, pairs - 2, 3):
            ccz(*(2 * (first + step) + part for step in range(3)))
        text.close()

    def moved():
        for place, bit in enumerate(shift):
            if bit == "1":
                text.put("x", place)
        text.close()

    text.close("h q;")
    moved()
    oracle(0)
    moved()
    text.close("h q;")
    oracle(1)
    text.close("h q;")
    text.write(name)
    listing(name, {shift: 1}, 0)


def wire():
    text = Text(
        [
            "A wire of measurements: h t h|0> goes through a line of 41 qubits. A step joins a qubit to a fresh even one by cz, takes its own bit to h, and corrects the",
            "next by it; each step applies h, so after forty the last qubit holds h t h|0>, and shows 0 with probability (2+sqrt(2))/4.",
        ],
        "qreg q[41];",
        "creg c[1];",
        wide=12,
    )
    text.close("h q[0]; t q[0]; h q[0];")
    for place in range(40):
        text.put("h", place + 1)
        text.put("cz", place, place + 1)
        text.put("h", place)
        text.put("cx", place, place + 1)
    text.close("measure q[40] -> c[0];")
    text.write("protocols/wire_41")
    outcomes("protocols/wire_41", {"0": "(2,1)/2^2", "1": "(2,-1)/2^2"})


# ---- arithmetic


def ripple(text, bits, toffoli):
    """Cuccaro's adder: carry in, then b and a in turn, lowest bit first, then the carry out."""
    steps = [(2 * place, 2 * place + 1, 2 * place + 2) for place in range(bits)]
    for below, b, a in steps:
        text.put("cx", a, b)
        text.put("cx", a, below)
        toffoli(below, b, a)
    text.put("cx", 2 * bits, 2 * bits + 1)
    for below, b, a in reversed(steps):
        toffoli(below, b, a)
        text.put("cx", a, below)
        text.put("cx", below, b)


def adders():
    text = Text(
        [
            "Cuccaro's adder of 31 bits by majority gates, on 64 qubits: b becomes a + b + q[0], and q[63] is turned where that has a carry.",
            "q[0] is the carry in; b and a stand in turn behind it, b[i] on q[2i+1] and a[i] on q[2i+2], lowest bit first.",
        ],
        "qreg q[64];",
    )
    ripple(text, 31, lambda *qubits: text.put("ccx", *qubits))
    text.write("arithmetic/adder_ripple_31")
    for a, b, carry in ((1234567890, 987654321, 1), (2**31 - 1, 0, 1)):
        total = a + b + carry
        places = "".join(bits_of(total, 31)[at] + bits_of(a, 31)[at] for at in range(31))
        listing("arithmetic/adder_ripple_31.%d+%d+%d" % (a, b, carry), {str(carry) + places + str(total >> 31): 1}, 0)

    for a, b, carry in ((9, 5, 1), (15, 15, 0)):
        total = a + b + carry
        places = "".join(bits_of(total, 4)[at] + bits_of(a, 4)[at] for at in range(4))
        listing("arithmetic/adder_ripple_4.%d+%d+%d" % (a, b, carry), {str(carry) + places + str(total >> 4): 1}, 0)
    pairs = [(a, b) for a in range(16) for b in range(16)]
    listing("arithmetic/adder_lookahead_4", {bits_of(a, 4) + bits_of(b, 4) + bits_of(a + b, 5) + "0": 1 for a, b in pairs}, 8)
    interleaved = {(a, b): "".join(bits_of(b, 4)[at] + bits_of(a, 4)[at] for at in range(4)) for a, b in pairs}
    listing("arithmetic/comparator_4", {"0" + interleaved[a, b] + str(int(a < b)): 1 for a, b in pairs}, 8)

    for bits, number, wrong in ((4, "four", 0), (4, "four", 39), (31, "31", 0), (31, "31", 531)):
        text = Text(
            ["Cuccaro's adder of %s bits with each Toffoli gate made of seven t and tdg%s." % (number, ", and one wrong: gate %d, a tdg, is a t" % wrong if wrong else "")],
            "qreg q[%d];" % (2 * bits + 2),
            wide=10,
            wrong=wrong,
        )
        ripple(text, bits, lambda *qubits: toffoli_by_t(text, *qubits))
        text.write("arithmetic/adder_ripple_%d_t%s" % (bits, "_wrong" if wrong else ""))


def carry():
    text = Text(
        [
            "Cuccaro's adder of 31 bits on even mixtures of all a and b, 2^62 states, with its carry measured: a + b has 32 bits for 2^30*(2^31 - 1) of the 2^62 pairs,",
            "so it shows 1 with probability (2^31 - 1)/2^32.",
        ],
        "qreg q[64];",
        "creg c[1];",
        wide=12,
    )
    for place in range(1, 63):
        text.put("h", place)
    text.close()
    ripple(text, 31, lambda *qubits: text.put("ccx", *qubits))
    text.close("measure q[63] -> c[0];")
    text.write("arithmetic/adder_ripple_31_carry")
    outcomes("arithmetic/adder_ripple_31_carry", {"0": "(%d,0)/2^32" % (2**31 + 1), "1": "(%d,0)/2^32" % (2**31 - 1)})


def counted(text, places, number):
    """Each bit of q that is 1 increments the number, highest bit first."""
    for place in range(places):
        for at in range(len(number)):
            lower = number[at + 1 :]
            text.put(under(1 + len(lower), "x"), place, *reversed(lower), number[at])
        text.close()
    text.close("measure w -> c;")


def lowest_weight(whole, root, power):
    while power and whole % 2 == 0 and root % 2 == 0:
        whole, root, power = whole // 2, root // 2, power - 1
    return "(%d,%d)/2^%d" % (whole, root, power)


def weights():
    text = Text(["How many of 58 bits are 1, on even mixtures of all of them, 2^58 states: k ones come with the binomial coefficient of 58 over k, of 2^58."], "qreg q[58];", "qreg w[6];", "creg c[6];")
    text.close("h q;")
    counted(text, 58, ["w[%d]" % at for at in range(6)])
    text.write("arithmetic/weight_58")
    outcomes("arithmetic/weight_58", {format(k, "06b"): lowest_weight(comb(58, k), 0, 58) for k in range(59)})

    text = Text(
        [
            "How many of 15 biased coins h t h show 1. A coin does so with (2-sqrt(2))/4, so k ones come with the binomial coefficient of 15 over k times",
            "(2-sqrt(2))^k * (2+sqrt(2))^(15-k) of 4^15.",
        ],
        "qreg q[15];",
        "qreg w[4];",
        "creg c[4];",
    )
    text.close("h q; t q; h q;")
    counted(text, 15, ["w[%d]" % at for at in range(4)])
    text.write("arithmetic/biased_coins_15")
    powers = {}
    for k in range(16):
        whole, root = comb(15, k), 0
        for sign in [-1] * k + [1] * (15 - k):
            whole, root = 2 * whole + 2 * sign * root, sign * whole + 2 * root
        powers[format(k, "04b")] = lowest_weight(whole, root, 30)
    outcomes("arithmetic/biased_coins_15", powers)


def multiply(text, a, b, p, product, skip=None):
    """p becomes p + a*b: the product of each pair of bits is put on a fresh qubit, and increments p from its place on. Lowest bit first."""
    for i, one in enumerate(a):
        for j, two in enumerate(b):
            text.put("ccx", one, two, product)
            for top in range(len(p) - 1, i + j - 1, -1):
                lower = p[i + j : top]
                if (i, j, top) != skip:
                    text.put(under(1 + len(lower), "x"), product, *reversed(lower), p[top])
            text.put("ccx", one, two, product)
            text.close()


def multipliers():
    a, b, p, product = range(0, 4), range(4, 8), range(8, 16), 16
    what = "p becomes p + a*b mod 256 for a and b of four bits: the product of each pair of bits increments p from its place on."
    where = "a is q[0] to q[3], b is q[4] to q[7], p is q[8] to q[15], lowest bit first; q[16] is fresh, and holds one product after the other."
    text = Text([what, where], "qreg q[17];")
    multiply(text, a, b, p, product)
    text.write("arithmetic/multiplier_4x4")
    for one, two, before in ((13, 11, 0), (15, 15, 0), (9, 14, 200)):
        after = (before + one * two) % 256
        listing("arithmetic/multiplier_4x4.%dx%d+%d" % (one, two, before), {bits_of(one, 4) + bits_of(two, 4) + bits_of(after, 8) + "0": 1}, 0)

    text = Text(["p becomes p + b*a mod 256: the multiplier of four bits with a and b in each other's part.", where], "qreg q[17];")
    multiply(text, b, a, p, product)
    text.write("arithmetic/multiplier_4x4_exchanged")

    text = Text([what, "On even mixtures of all a and b: the listing is the multiplication table.", where], "qreg q[17];")
    for place in [*a, *b]:
        text.put("h", place)
    text.close()
    multiply(text, a, b, p, product)
    text.write("arithmetic/multiplier_4x4_table")
    table = {bits_of(one, 4) + bits_of(two, 4) + bits_of(one * two, 8) + "0": 1 for one in range(16) for two in range(16)}
    listing("arithmetic/multiplier_4x4_table", table, 8)

    a, b, p, product = range(0, 3), range(3, 6), range(6, 12), 12
    what = "p becomes p + a*b mod 64 for a and b of three bits: the product of each pair of bits increments p from its place on."
    where = "a is q[0] to q[2], b is q[3] to q[5], p is q[6] to q[11], lowest bit first; q[12] is fresh, and holds one product after the other."
    text = Text([what, where], "qreg q[13];")
    multiply(text, a, b, p, product)
    text.write("arithmetic/multiplier_3x3")
    text = Text(["p becomes p + b*a mod 64: the multiplier of three bits with a and b in each other's part. The product is the same, and the gates come in another order.", where], "qreg q[13];")
    multiply(text, b, a, p, product)
    text.write("arithmetic/multiplier_3x3_exchanged")
    text = Text(["p becomes p + a*b mod 64, with one gate missing: the carry of a[1]*b[1] from the third place of p into its fourth.", where], "qreg q[13];")
    multiply(text, a, b, p, product, skip=(1, 1, 3))
    text.write("arithmetic/multiplier_3x3_wrong")


# ---- states and codes


def fanouts():
    text = Text(["A bit is added to 63 others."], "qreg q[1];", "qreg r[63];")
    text.close("cx q[0],r;")
    text.write("rewrites/fanout_64")
    text = Text(["A bit is added to 63 others by cx of neighbours alone: as fanout_8_ladder."], "qreg q[64];", wide=12)
    for place in [*range(62, 0, -1), *range(63)]:
        text.put("cx", place, place + 1)
    text.write("rewrites/fanout_64_ladder")


def w_state():
    text = Text(["The W state of 64 qubits, which is exact: one 1 at each place, with amplitude 1/8. A 1 is halved between two places by ch and cx, six times."], "qreg q[64];", "x q[0];")
    step = 32
    while step:
        for place in range(0, 64, 2 * step):
            text.put("ch", place, place + step)
            text.put("cx", place + step, place)
        text.close()
        step //= 2
    text.write("states/w_64")
    listing("states/w_64", {"0" * place + "1" + "0" * (63 - place): 1 for place in range(64)}, 6)


def bell_pairs():
    text = Text(["32 Bell pairs of neighbouring qubits. The first and the last pair are measured: each shows 00 or 11, apart from the other."], "qreg q[64];", "creg c[4];", wide=8)
    for place in range(0, 64, 2):
        text.put("h", place)
        text.put("cx", place, place + 1)
    text.close("measure q[0] -> c[0]; measure q[1] -> c[1]; measure q[62] -> c[2]; measure q[63] -> c[3];")
    text.write("states/bell_pairs_32")
    outcomes("states/bell_pairs_32", {bits: "(1,0)/2^2" for bits in ("0000", "0011", "1100", "1111")})


CHECKS = ("XZZXI", "IXZZX", "XIXZZ", "ZXIXZ")


def five_qubit_code():
    errors = [(kind, place) for kind in "xyz" for place in range(5)]
    text = Text(
        [
            "The code of five qubits under all errors at once: e, all even, chooses none for 0, x on q[0] to q[4] for 1 to 5, y for 6 to 10, z for 11 to 15, e[0] the highest bit.",
            "Each error shows another syndrome of XZZXI, IXZZX, XIXZZ, ZXIXZ: 1 where a check has another letter than the error at its place, and not I.",
            "The outcomes are e and its syndrome; no two are the same, as the code is perfect.",
        ],
        "qreg e[4];",
        "qreg q[5];",
        "qreg s[4];",
        "creg c[8];",
    )
    text.close("h e;", "h q[0]; t q[0]; h q[0];")
    for place in range(1, 5):
        text.put("cx", 0, place)
    text.close("h q;")
    for place in range(5):
        text.put("cz", place, (place + 1) % 5)
    text.close()
    for number, (kind, place) in enumerate(errors, 1):
        flips = [at for at in range(4) if not number >> (3 - at) & 1]
        for at in flips:
            text.put("x", "e[%d]" % at)
        text.put(under(4, kind), "e[0]", "e[1]", "e[2]", "e[3]", place)
        for at in flips:
            text.put("x", "e[%d]" % at)
        text.close()
    text.close("h s;")
    for row, check in enumerate(CHECKS):
        for place, letter in enumerate(check):
            if letter != "I":
                text.put("c" + letter.lower(), "s[%d]" % row, place)
        text.close()
    text.close("h s;", "measure e[0] -> c[0]; measure e[1] -> c[1]; measure e[2] -> c[2]; measure e[3] -> c[3];")
    text.close("measure s[0] -> c[4]; measure s[1] -> c[5]; measure s[2] -> c[6]; measure s[3] -> c[7];")
    text.write("codes/five_qubit_all")
    weights = {"00000000": "(1,0)/2^4"}
    for number, (kind, place) in enumerate(errors, 1):
        syndrome = "".join("0" if check[place] in ("I", kind.upper()) else "1" for check in CHECKS)
        weights[format(number, "04b") + syndrome] = "(1,0)/2^4"
    assert len({bits[4:] for bits in weights}) == 16
    outcomes("codes/five_qubit_all", weights)


# ---- random circuits


def drawn(seed, qubits, count):
    """Gates drawn by a linear congruence (Knuth's MMIX constants): a list of a name and its qubits."""
    state = seed

    def draw(below):
        nonlocal state
        state = (state * 6364136223846793005 + 1442695040888963407) % 2**64
        return (state >> 33) % below

    gates = []
    while len(gates) < count:
        name = ("h", "h", "h", "t", "t", "tdg", "s", "x", "z", "cx", "cx", "cx", "cz", "ccx", "swap")[draw(15)]
        arity = {"cx": 2, "cz": 2, "ccx": 3, "swap": 2}.get(name, 1)
        chosen = []
        while len(chosen) < arity:
            qubit = draw(qubits)
            if qubit not in chosen:
                chosen.append(qubit)
        gates.append((name, chosen))
    return gates


def rewritten(text, name, q):
    """The same gate by others."""
    if name == "h":
        text.put("z", *q)
        text.put("ry(pi/2)", *q)
    elif name == "x":
        text.put("h", *q)
        text.put("z", *q)
        text.put("h", *q)
    elif name == "z":
        text.put("s", *q)
        text.put("s", *q)
    elif name == "s":
        text.put("u1(pi/4)", *q)
        text.put("t", *q)
    elif name == "t":
        text.put("s", *q)
        text.put("tdg", *q)
    elif name == "tdg":
        text.put("t", *q)
        text.put("sdg", *q)
    elif name == "cx":
        text.put("h", q[0])
        text.put("h", q[1])
        text.put("cx", q[1], q[0])
        text.put("h", q[1])
        text.put("h", q[0])
    elif name == "cz":
        text.put("h", q[0])
        text.put("cx", q[1], q[0])
        text.put("h", q[0])
    elif name == "swap":
        text.put("cx", q[0], q[1])
        text.put("cx", q[1], q[0])
        text.put("cx", q[0], q[1])
    else:
        toffoli_by_t(text, *q)


INVERSES = {"t": "tdg", "tdg": "t", "s": "sdg"}


def random_circuits():
    for qubits, count, seed in ((6, 120, 6), (8, 160, 8), (10, 200, 10)):
        text = Text(["%d gates drawn from h t tdg s x z cx cz ccx swap, on %d qubits (seed %d of the generator)." % (count, qubits, seed)], "qreg q[%d];" % qubits, wide=10)
        for name, chosen in drawn(seed, qubits, count):
            text.put(name, *chosen)
        text.write("random/random_%d" % qubits)

    gates = drawn(6, 6, 120)
    at = next(place for place in range(60, 120) if gates[place][0] == "t")
    for wrong in (False, True):
        ending = ", and one wrong: of gate %d, a t, only s is left" % (at + 1) if wrong else ""
        text = Text(["The circuit random_6 with each gate rewritten by others%s." % ending], "qreg q[6];", wide=10)
        for place, (name, chosen) in enumerate(gates):
            if wrong and place == at:
                text.put("s", *chosen)
            else:
                rewritten(text, name, chosen)
        text.write("random/random_6_rewritten" + ("_wrong" if wrong else ""))

    gates = drawn(12, 12, 60)
    text = Text(["60 drawn gates on 12 qubits, and then their inverses in the opposite order: |000000000000> comes back."], "qreg q[12];", wide=10)
    for name, chosen in gates:
        text.put(name, *chosen)
    text.close()
    for name, chosen in reversed(gates):
        text.put(INVERSES.get(name, name), *chosen)
    text.write("random/mirror_12")
    listing("random/mirror_12", {"0" * 12: 1}, 0)


def main():
    bernstein_vazirani()
    grover("algorithms/grover_8", "10110001", 12)
    grover("algorithms/grover_9", "011010111", 6)
    hidden_shift("algorithms/hidden_shift_12", "101101110001")
    hidden_shift("algorithms/hidden_shift_12_t", "101101110001", by_t=True)
    hidden_shift("algorithms/hidden_shift_20", "11010001101011110010")
    hidden_shift("algorithms/hidden_shift_40", "1100101011110001011010011100100001011101")
    hidden_shift("algorithms/hidden_shift_64", "1001110101100010110111101000110101011001110000101101001011100110")
    wire()
    adders()
    carry()
    weights()
    multipliers()
    fanouts()
    w_state()
    bell_pairs()
    five_qubit_code()
    random_circuits()


if __name__ == "__main__":
    main()

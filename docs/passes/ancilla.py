"""Writes a circuit that compares two others where some qubits start and end at 0: python3 ancilla.py FILE FILE QUBIT .. > FILE

The QUBITs, as q[4], are fresh in both circuits. Each other qubit gets a partner, and the two become a Bell pair. Then come the first circuit, the second one backwards, and the
Bell pairs backwards. `prob` shows only zeros, for certain, exactly where both circuits take each input of the other qubits, with the fresh ones at 0, to the same, up to one
phase for all inputs.
"""
import re
import sys
from pathlib import Path

import passes

INVERSE = {"s": "sdg", "sdg": "s", "t": "tdg", "tdg": "t"}


def inverse(gate):
    name = re.sub(r"(sdg|tdg|s|t)$", lambda found: INVERSE[found[0]], gate.name) if re.fullmatch(r"c*(s|sdg|t|tdg)", gate.name) else gate.name
    return gate._replace(name=name, angle=gate.angle and "-(%s)" % gate.angle)


def backwards(gates):
    return [inverse(gate) for gate in reversed(gates)]


def compared(one, two, fresh):
    one, two = passes.read(one), passes.read(two)
    qubits = []
    for declaration in one.declarations:
        kind, name, size = re.fullmatch(r"(\w+) (\w+) ?\[(\d+)\]", declaration).groups()
        qubits += ["%s[%d]" % (name, place) for place in range(int(size))] if kind == "qreg" else []
    inputs = [qubit for qubit in qubits if qubit not in fresh]
    pairs = [
        gate
        for place, qubit in enumerate(inputs)
        for gate in (passes.Gate("h", None, (qubit,)), passes.Gate("cx", None, (qubit, "partner[%d]" % place)))
    ]
    return passes.write(passes.Circuit(one.declarations + ["qreg partner[%d]" % len(inputs)], pairs + one.gates + backwards(two.gates) + backwards(pairs), []))


if __name__ == "__main__":
    sys.stdout.write(compared(Path(sys.argv[1]).read_text(), Path(sys.argv[2]).read_text(), sys.argv[3:]))

"""Some rewriting passes over circuits in OpenQASM 2.0, to show how passes are checked; and one that is wrong.

    python3 passes.py PASS < FILE > FILE

    expand       ccx becomes seven t and tdg between h and cx, and swap three cx
    cancel       two equal gates h, x, y, z, cx, cz in a row on the same qubits go away
    merge        z, s, sdg, t, tdg on one qubit become one u1, or none. A phase waits while its qubit is a control, or stands in a cz
    merge_wrong  the same, but a phase also waits where its qubit is the target of a cx

A circuit is a Circuit: the declarations, the gates, each with name, angle (or None) and qubits, and the measurements.
"""
import re
import sys
from collections import namedtuple

Gate = namedtuple("Gate", "name angle qubits")
Circuit = namedtuple("Circuit", "declarations gates measurements")


def read(text):
    """A text of statements of the profile; gates on whole registers are written out."""
    declarations, gates, measurements, sizes = [], [], [], {}
    for statement in re.sub(r"//.*", "", text).split(";"):
        statement = " ".join(statement.split())
        word = re.split(r"[ (]", statement)[0]
        if word in ("", "OPENQASM", "include", "barrier"):
            continue
        if word in ("qreg", "creg"):
            declarations.append(statement)
            name, size = re.fullmatch(r"\w+ (\w+) ?\[(\d+)\]", statement).groups()
            sizes[name] = int(size)
        elif word == "measure":
            measurements.append(statement)
        else:
            angle, names = re.fullmatch(r"\w+ ?(?:\((.*)\))? ?([^()]*)", statement).groups()
            arguments = [name.strip() for name in names.split(",")]
            counts = {sizes[name] for name in arguments if "[" not in name} or {1}
            for place in range(max(counts)):
                gates.append(Gate(word, angle, tuple(name if "[" in name else "%s[%d]" % (name, place) for name in arguments)))
    return Circuit(declarations, gates, measurements)


def write(circuit):
    """The text, a statement a line."""
    lines = ["OPENQASM 2.0", 'include "qelib1.inc"', *circuit.declarations]
    lines += [name + ("(%s) " % angle if angle is not None else " ") + ",".join(qubits) for name, angle, qubits in circuit.gates]
    return "".join(line + ";\n" for line in lines + circuit.measurements)


# ---- the passes, from lists of gates to lists of gates


def toffoli(a, b, c):
    parts = "h c, cx b c, tdg c, cx a c, t c, cx b c, tdg c, cx a c, t b, t c, h c, cx a b, t a, tdg b, cx a b"
    for part in parts.split(", "):
        name, *letters = part.split()
        yield Gate(name, None, tuple({"a": a, "b": b, "c": c}[letter] for letter in letters))


def expand(gates):
    made = []
    for gate in gates:
        if gate.name == "ccx":
            made += toffoli(*gate.qubits)
        elif gate.name == "swap":
            one, two = gate.qubits
            made += [Gate("cx", None, pair) for pair in ((one, two), (two, one), (one, two))]
        else:
            made.append(gate)
    return made


def cancel(gates):
    made = []
    for gate in gates:
        # the last gate that shares a qubit with this one
        last = next((at for at in range(len(made) - 1, -1, -1) if set(made[at].qubits) & set(gate.qubits)), None)
        if last is not None and made[last] == gate and gate.name in ("h", "x", "y", "z", "cx", "cz"):
            del made[last]
        else:
            made.append(gate)
    return made


EIGHTHS = {"t": 1, "s": 2, "z": 4, "sdg": 6, "tdg": 7}


def merged(gates, passes_by):
    """Phases wait on their qubit until a gate comes that `passes_by(gate, qubit)` doesn't allow."""
    made, waiting = [], {}

    def release(qubit):
        eighths = waiting.pop(qubit, 0) % 8
        if eighths:
            made.append(Gate("u1", "%d*pi/4" % eighths, (qubit,)))

    for gate in gates:
        if gate.name in EIGHTHS:
            waiting[gate.qubits[0]] = waiting.get(gate.qubits[0], 0) + EIGHTHS[gate.name]
            continue
        for qubit in gate.qubits:
            if not passes_by(gate, qubit):
                release(qubit)
        made.append(gate)
    for qubit in list(waiting):
        release(qubit)
    return made


def merge(gates):
    return merged(gates, lambda gate, qubit: gate.name == "cz" or gate.name == "cx" and qubit == gate.qubits[0])


def merge_wrong(gates):
    return merged(gates, lambda gate, qubit: gate.name in ("cz", "cx"))


PASSES = {"expand": expand, "cancel": cancel, "merge": merge, "merge_wrong": merge_wrong}


def rewritten(text, name):
    """The text of a circuit behind the pass of that name."""
    circuit = read(text)
    return write(circuit._replace(gates=PASSES[name](circuit.gates)))


if __name__ == "__main__":
    if len(sys.argv) != 2 or sys.argv[1] not in PASSES:
        print(__doc__, file=sys.stderr)
        sys.exit(2)
    sys.stdout.write(rewritten(sys.stdin.read(), sys.argv[1]))

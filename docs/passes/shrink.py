"""Finds a small circuit that a pass makes another circuit of: python3 shrink.py PASS FILE

First by halving: some number k of first gates is still rewritten rightly, and k + 1 are not. Then gates are left out, one after the other, as long as the rest is still rewritten
wrongly. What is left is printed, with the number of comparisons. It needs passes.py and, on Python's path, sliq.py.
"""
import sys
from pathlib import Path

import passes
import sliq


class Search:
    def __init__(self, name, circuit):
        self.name, self.circuit, self.comparisons = name, circuit, 0

    def is_wrong(self, gates):
        """Whether the pass makes another circuit of these gates."""
        self.comparisons += 1
        before = passes.write(self.circuit._replace(gates=gates))
        return not sliq.equivalent(passes.rewritten(before, self.name), before)

    def first_wrong(self, gates):
        """The first gates up to one, so that the pass is wrong with it and right without it."""
        right, wrong = 0, len(gates)
        while wrong - right > 1:
            middle = (right + wrong) // 2
            if self.is_wrong(gates[:middle]):
                wrong = middle
            else:
                right = middle
        return gates[:wrong]

    def needed(self, gates):
        """The same without any gate that isn't needed for the pass to be wrong."""
        at = len(gates) - 1
        while at >= 0:
            rest = gates[:at] + gates[at + 1 :]
            if self.is_wrong(rest):
                gates = rest
            at -= 1
        return gates


def main(words):
    name, file = words
    circuit = passes.read(Path(file).read_text())._replace(measurements=[])
    search = Search(name, circuit)
    if not search.is_wrong(circuit.gates):
        print("%s is right on %d gates" % (name, len(circuit.gates)))
        return 0
    first = search.first_wrong(circuit.gates)
    print("wrong from gate %d of %d on" % (len(first), len(circuit.gates)))
    for gate in search.needed(first):
        print(passes.write(circuit._replace(declarations=[], gates=[gate])).splitlines()[-1])
    print("%d comparisons" % search.comparisons)
    return 1


if __name__ == "__main__":
    sys.exit(main(sys.argv[1:]))

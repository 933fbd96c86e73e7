"""Charts of what sliq writes, as text or as SVG: a bar for each probability of `prob` or frequency of `sample`, a disc for each amplitude of `sim`.

    ./sliq prob FILE | python3 python/plot.py                 bars of text
    ./sliq prob FILE | python3 python/plot.py --svg > bars.svg
    ./sliq sample FILE 1000 1 | python3 python/plot.py        bars of how many shots show each outcome
    ./sliq sim FILE | python3 python/plot.py                  sizes and phases, in text
    ./sliq sim FILE | python3 python/plot.py --svg > discs.svg

    >>> import plot, sliq
    >>> print(plot.bars(sliq.probabilities("OPENQASM 2.0; qreg q[1]; h q; t q; h q;"), width=20), end="")
    0  0.8536  ####################
    1  0.1464  ###

A chart is drawn from the nearest Python numbers, so it is no exact answer: equal bars may stand for unequal probabilities. The longest bar is `width` marks long, and a
bar that would be shorter than half a mark is empty. This file needs sliq.py and Python's standard library alone.
"""
import cmath
import math
import sys
from collections import Counter

import sliq

WIDTH = 40  # marks of the longest bar


def _rows(rows, ends="l"):
    """Lines of columns that are as wide as their widest entry, two blanks apart; a letter for each column says at which side its entries stand."""
    widths = [max(map(len, column)) for column in zip(*rows)]
    lines = []
    for row in rows:
        cells = [cell.rjust(width) if side == "r" else cell.ljust(width) for cell, width, side in zip(row, widths, ends)]
        lines.append("  ".join(cells).rstrip() + "\n")
    return "".join(lines)


def _mark_count(size, largest, width):
    return int(width * size / largest + 0.5)


def _number_text(number):
    """A count as it is, any other number with four digits."""
    return str(number) if isinstance(number, int) else "%.4g" % float(number)


def bars(outcomes, width=WIDTH):
    """Text with a line for each outcome: its bits, its probability with four digits or its count, and a bar."""
    largest = max(map(float, outcomes.values()))
    return _rows([(bits, _number_text(number), "#" * _mark_count(float(number), largest, width)) for bits, number in outcomes.items()], "lll")


def phases(state, width=WIDTH):
    """Text with a line for each amplitude: its basis state, its size with four digits, its phase in degrees, and a bar for the size."""
    numbers = {bits: complex(number) for bits, number in state.items()}
    largest = max(map(abs, numbers.values()))
    return _rows(
        [("|%s>" % bits, "%.4g" % abs(number), "%.1f" % _degrees(number), "#" * _mark_count(abs(number), largest, width)) for bits, number in numbers.items()], "llrl"
    )


def _degrees(number):
    """The phase from 0 to 360, with one place."""
    return round(math.degrees(cmath.phase(number)), 1) % 360


# ---- SVG

FONT = 'font-family="monospace" font-size="12"'


def _svg(wide, high, parts):
    opening = '<svg xmlns="http://www.w3.org/2000/svg" width="%d" height="%d" viewBox="0 0 %d %d" %s>' % (wide, high, wide, high, FONT)
    return "\n".join([opening, *parts, "</svg>"]) + "\n"


def _text(x, y, words, anchor="start"):
    return '<text x="%g" y="%g" text-anchor="%s">%s</text>' % (x, y, anchor, words.replace("<", "&lt;").replace(">", "&gt;"))


def bars_svg(outcomes, length=300):
    """A bar chart as SVG: bars from left to right, the longest of them `length` long, each with its bits and its probability or count."""
    largest = max(map(float, outcomes.values()))
    left = 16 + 8 * max(map(len, outcomes))
    parts = []
    for at, (bits, number) in enumerate(outcomes.items()):
        y, long = 8 + 20 * at, length * float(number) / largest
        parts.append(_text(left - 8, y + 12, bits, "end"))
        parts.append('<rect x="%g" y="%g" width="%.2f" height="14" fill="steelblue"/>' % (left, y, long))
        parts.append(_text(left + long + 6, y + 12, _number_text(number)))
    return _svg(left + length + 90, 16 + 20 * len(outcomes), parts)


def discs_svg(state, radius=24, columns=8):
    """A disc for each amplitude as SVG: its radius is the amplitude's size, of a circle of size 1 around it, and a hand shows its phase, with 1 to the right and i upwards."""
    step = 2 * radius + 24
    # names of basis states are as wide as their bits
    step = max(step, 8 * (state.qubits + 3))
    parts = []
    for at, (bits, number) in enumerate(state.items()):
        number = complex(number)
        x, y = step * (at % columns) + step / 2, (step + 12) * (at // columns) + radius + 10
        parts.append('<circle cx="%g" cy="%g" r="%g" fill="none" stroke="gray"/>' % (x, y, radius))
        parts.append('<circle cx="%g" cy="%g" r="%.2f" fill="lightsteelblue"/>' % (x, y, radius * abs(number)))
        hand = radius * number / abs(number)
        parts.append('<line x1="%g" y1="%g" x2="%.2f" y2="%.2f" stroke="black"/>' % (x, y, x + hand.real, y - hand.imag))
        parts.append(_text(x, y + radius + 16, "|%s>" % bits, "middle"))
    lines = -(-len(state) // columns)
    return _svg(step * min(columns, len(state)), (step + 12) * lines, parts)


# ---- what sliq writes


def read(text):
    """What `sim` or `prob` wrote, as a State or as Outcomes of sliq.py; what `sample` wrote, as a dictionary from outcomes in lexicographic order to their counts."""
    lines = text.splitlines()
    word, _, number = lines[0].partition(" ") if lines else ("", "", "")
    pairs = [line.rsplit(" ", 1) for line in lines[1:-1]]
    if word == "qubits":
        return sliq.State(int(number), ((bits[1:-1], sliq.Amplitude.read(amplitude)) for bits, amplitude in pairs))
    if word == "measured":
        return sliq.Outcomes(int(number), ((bits, sliq.Probability.read(probability)) for bits, probability in pairs))
    if lines and lines[-1] == "shots %d" % (len(lines) - 1):
        counts = Counter(lines[:-1])
        return {bits: counts[bits] for bits in sorted(counts)}
    raise ValueError("neither what sim nor what prob nor what sample writes")


def main(words):
    if words not in ([], ["--svg"]):
        print(__doc__, file=sys.stderr)
        return 2
    try:
        found = read(sys.stdin.read())
    except ValueError as error:
        print("plot: %s" % error, file=sys.stderr)
        return 1
    if not found:
        return 0
    if isinstance(found, sliq.State):
        sys.stdout.write(discs_svg(found) if words else phases(found))
    else:
        sys.stdout.write(bars_svg(found) if words else bars(found))
    return 0


if __name__ == "__main__":
    sys.exit(main(sys.argv[1:]))

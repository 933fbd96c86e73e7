#!/usr/bin/env python3
"""Hostile texts with definitions, each up to 16 MiB, into a folder (default hostile), with the answer that `sliq sim FILE --input 0` owes.

    make.py [FOLDER]

Each text declares two qubits or more, so that a text that reads ends by `qubits differ` before the first gate: what is measured is the reading alone.
Collisions of hashed names can't be chosen by a text: names are hashed under a key that is a digest of all bytes of the text (KeyedNames), so a text that
was made to collide under one key has another key. What is tried are many names, long names, and names that share all but their last byte.
"""
import sys, itertools
from pathlib import Path

MOST = 16 * 1024 * 1024
V = 'OPENQASM 2.0;qreg q[2];'
READS = 'sliq: qubits differ: 2 and 1\n'
FIRST = 'abdefghijklmnopqrstuvwyz'  # no c, no x: never built in, no keyword of two letters
NEXT = 'abcdefghijklmnopqrstuvwxyzABCDEFGHIJKLMNOPQRSTUVWXYZ0123456789_'
KEY = set('qreg creg include measure barrier gate opaque reset if pi id sin cos tan exp ln sqrt sdg tdg swap rx ry rz h s t y z u1 u2 u3'.split())


def names():
    for n in itertools.count(1):
        for first in FIRST:
            for rest in itertools.product(NEXT, repeat=n - 1):
                name = first + ''.join(rest)
                if name not in KEY:
                    yield name


def upto(head, pieces, tail, between=''):
    """head, as many pieces as fit, and tail"""
    out, size = [], len(head) + len(tail)
    for piece in pieces:
        size += len(piece) + len(between)
        if size > MOST:
            break
        out.append(piece)
    return head + between.join(out) + tail, len(out)


def refused(s, why):
    return 'sliq: file 1 statement %d: %s\n' % (s, why)


def texts():
    # many definitions
    t, n = upto(V, ('gate %s a{}' % name for name in names()), '')
    yield 'definitions-empty', t, READS, '%d definitions with empty bodies' % n
    t, n = upto(V, ('gate %s a{x a;}' % name for name in names()), '')
    yield 'definitions-one-call', t, READS, '%d definitions of one call' % n
    t, n = upto(V, ('gate %s a{}%s q;' % (name, name) for name in names()), '')
    yield 'definitions-each-called', t, READS, '%d definitions, each called on a register' % n
    t, n = upto(V, itertools.chain(('gate %s a{}' % name for name in itertools.islice(names(), 1000000)), ['gate ab a{}']), '')
    yield 'definitions-last-twice', t, refused(n + 2, 'Redeclared'), '%d definitions, the last of a name that stands before' % n
    same = 'g' + 'o' * 100
    t, n = upto(V, ('gate %s%07d a{}' % (same, i) for i in itertools.count()), '')
    yield 'definitions-long-prefix', t, READS, '%d names of 108 bytes that differ in the last seven' % n
    big = 'g' * 8000000
    yield 'name-of-8-megabytes', V + 'gate %s a{}%s q;' % (big, big), READS, 'a name of 8,000,000 bytes, defined and called'
    # one definition with many of something
    t, n = upto(V + 'gate f(', names(), ')xx{}', ',')
    yield 'parameters', t, READS, '%d parameters' % n
    t, n = upto(V + 'gate f ', names(), '{}', ',')
    yield 'formals', t, READS, '%d formal arguments' % n
    t, n = upto(V + 'gate f(', itertools.islice(names(), 3000000), ',ab)xx{}', ',')
    yield 'parameters-last-twice', t, refused(3, 'Redeclared'), '%d parameters, the last of them twice' % n
    t, n = upto(V + 'gate f a{', itertools.repeat('x a;'), '}')
    yield 'lines', t, READS, '%d lines' % n
    t, n = upto(V + 'gate f a{', itertools.repeat('x a;', 4000000), '}f q[0];')
    yield 'lines-called', t, refused(4, 'TooManyGates'), '%d lines, called once' % n
    t, n = upto(V + 'gate f a{', itertools.repeat('x a;', 4000001), '}f q[0];')
    yield 'lines-one-too-many', t, refused(4, 'TooManyItems'), '%d lines, called once' % n
    t, n = upto(V + 'gate e a{}gate f a{', itertools.repeat('e a;', 3999999), '}f q[0];')
    yield 'empty-lines-called', t, READS, '%d calls of an empty gate, called once' % n
    t, n = upto(V + 'gate f a{barrier ', itertools.repeat('a'), ';}', ',')
    yield 'barrier', t, READS, 'a barrier of %d arguments in a body' % n
    t, n = upto(V + 'gate f a{', itertools.repeat('x a;'), 'y b;}')
    yield 'lines-last-unknown', t, refused(3, 'UnknownRegister'), '%d lines, and one on no argument' % n
    many = list(itertools.islice(names(), 1600000))
    t = V + 'gate f ' + ','.join(many) + '{}gate g ' + ','.join(many) + '{f ' + ','.join(many) + ';}'
    if len(t) > MOST:
        many = many[:1100000]
        t = V + 'gate f ' + ','.join(many) + '{}gate g ' + ','.join(many) + '{f ' + ','.join(many) + ';}'
    yield 'call-of-many-arguments', t[:], READS, 'a call of %d arguments in a body' % len(many)
    t = V + 'gate f(' + ','.join(many) + ')xx{}f(' + ','.join(['0'] * len(many)) + ')q[0];'
    yield 'call-of-many-angles', t, READS, 'a call of %d angles' % len(many)
    # angles
    t, n = upto(V + 'gate f(w)a{', itertools.repeat('u1(w)a;'), '}f(0)q[0];')
    yield 'angles-short', t, refused(4, 'TooManyGates'), '%d angles of one symbol, called once' % n
    long = '-' * 63 + 'w'
    t, n = upto(V + 'gate f(w)a{', itertools.repeat('u1(%s)a;' % long), '}f(0)q[0];')
    yield 'angles-long', t, READS, '%d angles of 64 symbols, called once' % n
    t, n = upto(V + 'gate f(w)a{', itertools.repeat('u1(%s)a;' % ('(' * 31 + 'w' + ')' * 31)), '}f(0)q[0];')
    yield 'angles-nested', t, READS, '%d angles 31 deep, called once' % n
    t, n = upto(V + 'gate f(w)a{', itertools.repeat('u1(%sw)a;' % ('-' * 20 + '9223372036854775807*')), '}f(0)q[0];')
    yield 'angles-wide', t, READS, '%d angles with the greatest number, called once' % n
    # doublings
    def doubled(first, k, call='g%d a;', params=''):
        out = 'gate g1%s a{%s}' % (params, first)
        for i in range(2, k + 1):
            out += 'gate g%d%s a{%s%s}' % (i, params, call % (i - 1), call % (i - 1))
        return out
    yield 'doubled-items-over', V + doubled('x a;x a;', 21) + 'g21 q[0];', refused(24, 'TooManyItems'), '4,194,302 items by 21 doublings'
    yield 'doubled-gates-over', V + doubled('x a;x a;', 20) + 'g20 q[0];', refused(23, 'TooManyGates'), '1,048,576 gates by 20 doublings'
    yield 'doubled-gates-most', V + doubled('x a;x a;', 19) + 'g19 q[0];', READS, '524,288 gates by 19 doublings'
    yield 'doubled-empty', V + doubled('', 21) + 'g21 q[0];', READS, '2,097,150 items of empty gates by 20 doublings'
    chain = 'gate g1 a{}' + ''.join('gate g%d a{g%d a;}' % (i, i - 1) for i in range(2, 33))
    t, n = upto(V + chain, itertools.repeat('g32 q[0];', 129032), '')
    yield 'deep-chain', t, READS, '%d calls of a chain of 32' % n
    short = 'gate %s(w)a{}' % 'e'
    fib = '7540113804746346429/4660046610375530309'  # neighbours of Fibonacci: the longest division of 63 bits
    for name, start, step in (('small', 'w', '+0'), ('fibonacci', 'w', '+0'), ('fibonacci-times', 'w', '*1')):
        value = '1/3' if name == 'small' else fib
        tail = step * ((64 - 1) // 2)
        e = start + tail
        head = V + 'gate e(w)a{}gate g1(w)a{e(%s)a;e(%s)a;}' % (e, e) + ''.join('gate g%d(w)a{g%d(w)a;g%d(w)a;}' % (i, i - 1, i - 1) for i in range(2, 21))
        yield 'doubled-angles-' + name, head + 'g20(%s)q[0];' % value, READS, '1,048,576 angles of 63 symbols over %s, by 20 doublings' % value
    # statements alone, without definitions
    t, n = upto(V, itertools.repeat('u1((%s%s)*0)q[0];' % (fib, '+0' * 28)), '')
    yield 'statements-fibonacci', t, READS, '%d statements with 28 sums of a fraction of 63 bits' % n
    t, n = upto(V, itertools.repeat('u1((1/3%s)*0)q[0];' % ('+0' * 28)), '')
    yield 'statements-small', t, READS, '%d statements with 28 sums of a third' % n
    t, n = upto(V, itertools.repeat('u1(%s0)q[0];' % ('-' * 63)), '')
    yield 'statements-signs', t, READS, '%d statements with 63 signs' % n


def main():
    folder = Path(sys.argv[1] if len(sys.argv) > 1 else 'hostile')
    folder.mkdir(parents=True, exist_ok=True)
    with open(folder / 'table', 'w') as table:
        for name, text, err, what in texts():
            assert len(text) <= MOST, (name, len(text))
            (folder / (name + '.qasm')).write_text(text)
            table.write('%s\t%s\t%s\n' % (name, err.strip(), what))
            print(name, len(text), what)


main()

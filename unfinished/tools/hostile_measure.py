#!/usr/bin/env python3
"""Runs a program over the texts of make.py: time, memory, and whether it says what it owes.

    measure.py PROGRAM [FOLDER] [NAME ..]
"""
import os, resource, subprocess, sys, time
from pathlib import Path

SECONDS, KILOBYTES = 5, 1000000


def one(program, path):
    begun = time.monotonic()
    r, w = os.pipe()
    pid = os.fork()
    if pid == 0:
        resource.setrlimit(resource.RLIMIT_CPU, (300, 300))
        resource.setrlimit(resource.RLIMIT_AS, (8 << 30, 8 << 30))
        os.dup2(w, 2)
        os.close(1)
        os.open('/dev/null', os.O_WRONLY)
        os.execv(program, [program, 'sim', str(path), '--input', '0'])
    os.close(w)
    err = b''
    while chunk := os.read(r, 65536):
        err += chunk
    os.close(r)
    _, status, used = os.wait4(pid, 0)
    return time.monotonic() - begun, used.ru_utime + used.ru_stime, used.ru_maxrss, os.waitstatus_to_exitcode(status), err.decode()


def main():
    program = sys.argv[1]
    folder = Path(sys.argv[2] if len(sys.argv) > 2 else 'hostile')
    only = set(sys.argv[3:])
    over = 0
    print('%-30s %8s %8s %8s  %s' % ('text', 'MiB', 'seconds', 'MB', 'answer'))
    for line in (folder / 'table').read_text().splitlines():
        name, owed, what = line.split('\t')
        if only and name not in only:
            continue
        path = folder / (name + '.qasm')
        wall, used, memory, status, err = one(program, path)
        told = err.strip()
        bad = told != owed or used > SECONDS or memory > KILOBYTES
        over += bad
        print('%-30s %8.1f %8.2f %8d  %s%s  (%s)' % (name, path.stat().st_size / 2 ** 20, used, memory // 1000, told or 'status %d' % status, '' if told == owed else '  OWED: ' + owed, what), flush=True)
    print('%d of them over %d s or %d MB, or with another answer' % (over, SECONDS, KILOBYTES // 1000))


main()

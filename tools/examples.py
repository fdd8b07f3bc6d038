#!/usr/bin/env python3
"""Runs a program on each script of examples/ and compares what it prints with the run beside it, and so for the model (tools/model.py),
which the runs were made with. An example agrees if both print its run, byte for byte.
usage: python3 tools/examples.py [PROGRAM]     PROGRAM is crates/live/out/live if none is named
Prints the first line that differs, if one does; the last line is 'N agree, M differ'."""
import os, subprocess, sys

TOP = os.path.join(os.path.dirname(os.path.abspath(__file__)), '..')
FOLDER = os.path.join(TOP, 'examples')


def contents(path):
    with open(path, 'rb') as file:
        return file.read()


def first_difference(want, got):
    "the first line that is not the same in both, in words"
    want, got = (text.decode('latin-1').split('\n') + ['nothing more'] for text in (want, got))
    at = next((i for i, (a, b) in enumerate(zip(want, got)) if a != b), None)
    if at is None:
        return 'it prints the run'
    return 'line %d of the run is "%s", printed is "%s"' % (at + 1, want[at], got[at])


def agrees(name, printers):
    "whether each printer prints the run of the example; prints where one does not"
    script, run = (contents(os.path.join(FOLDER, name + end)) for end in ('.script', '.run'))
    same = True
    for printer, command in printers:
        done = subprocess.run(command, input=script, stdout=subprocess.PIPE, timeout=60)
        if done.stdout != run or done.returncode != 0:
            print('%s: %s ended with status %d; %s' % (name, printer, done.returncode, first_difference(run, done.stdout)))
            same = False
    return same


def main():
    if len(sys.argv) > 2:
        sys.exit(__doc__)
    program = os.path.abspath(sys.argv[1]) if len(sys.argv) == 2 else os.path.join(TOP, 'crates/live/out/live')
    if not os.access(program, os.X_OK):
        sys.exit('%s is not there: (cd crates/live && rt run < stdin) builds it' % program)
    printers = [('the program', [program]), ('the model', [sys.executable, os.path.join(TOP, 'tools/model.py')])]
    names = sorted(f[:-len('.script')] for f in os.listdir(FOLDER) if f.endswith('.script'))
    differing = [name for name in names if not agrees(name, printers)]
    print('%d agree, %d differ' % (len(names) - len(differing), len(differing)))
    sys.exit(1 if differing or not names else 0)


if __name__ == '__main__':
    main()

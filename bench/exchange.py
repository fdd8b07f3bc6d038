#!/usr/bin/env python3
"""Times steps of scripts on `live`: an exchange between two routines, unbuffered and buffered, and a select with 8 ready cases, with
2 routines and with 64, of which the others wait elsewhere. Prints nanoseconds a step and an exchange, reading, running and
printing 100,000 steps, the best of seven runs; and beside them an exchange on Go's own channels (exchange.go), if Go is there.
usage: python3 bench/exchange.py [PROGRAM]     the program is crates/live/out/live, if none is given (rt run in crates/live makes it)"""
import os, shutil, subprocess, sys, tempfile, time

HERE = os.path.dirname(os.path.abspath(__file__))
PROGRAM = sys.argv[1] if len(sys.argv) > 1 else os.path.join(HERE, '..', 'crates', 'live', 'out', 'live')
STEPS = 100_000
IDLE = 'RT idle\nSE 2\nCR z v0 v1 3\nCR z v0 v1 3\n'


def exchange(capacity, idle):
    "main starts the idle routines and a partner, and sends to it for ever"
    starts = 'GO idle\n' * idle + 'GO partner\n'
    return 'VC a %d\nVC z 0\nRT main\n%sSD a v0\nJP %d\nRT partner\nRC a v1 v2\nJP 0\n%s' % (capacity, starts, idle + 1, IDLE)


def select(idle):
    "main starts the idle routines and one more, closes eight channels, and selects among them for ever"
    channels = ''.join('VC c%s 0\n' % c for c in 'abcdefgh')
    closes = ''.join('CL c%s\n' % c for c in 'abcdefgh')
    cases = ''.join('CR c%s v1 v2 %d\n' % (c, idle + 9) for c in 'abcdefgh')
    return '%sVC z 0\nRT main\n%s%sSE 8\n%s%s' % (channels, 'GO idle\n' * (idle + 1), closes, cases, IDLE)


def on_live(text):
    "nanoseconds a step, and an exchange: an element that comes, or a case that is passed"
    said = subprocess.run([PROGRAM], input=text.encode(), capture_output=True, check=True).stdout.decode()
    exchanges = said.count('\nrv ') + said.count(' z ')
    times = []
    for _ in range(7):
        begin = time.perf_counter()
        subprocess.run([PROGRAM], input=text.encode(), stdout=subprocess.DEVNULL, check=True)
        times.append(time.perf_counter() - begin)
    return min(times) / STEPS * 1e9, min(times) / exchanges * 1e9


def on_go(program, kind, idle):
    return min(float(subprocess.run([program, kind, str(idle)], capture_output=True, text=True, check=True).stdout) for _ in range(7))


def main():
    with tempfile.TemporaryDirectory() as d:
        go = os.path.join(d, 'exchange')
        with_go = shutil.which('go') and subprocess.run(['go', 'build', '-o', go, os.path.join(HERE, 'exchange.go')],
                                                        env=dict(os.environ, GOCACHE=d, GO111MODULE='off')).returncode == 0
        for kind, script in (('unbuffered', lambda n: exchange(0, n)), ('buffered', lambda n: exchange(4, n)), ('select', select)):
            for routines in (2, 64):
                step, each = on_live(script(routines - 2))
                beside = '%.0f' % on_go(go, kind, routines - 2) if with_go else 'not there'
                print('%s, %d routines: %.0f ns a step, %.0f ns an exchange; Go: %s' % (kind, routines, step, each, beside))


main()

#!/usr/bin/env python3
"""A small model of the rules in docs/LANGUAGE.md and docs/RUN.md. It reads a script on standard input, runs it on a turning picker
until the run is over or 100,000 steps are made, and prints each report, as the program `live` does. It was written from those
two pages and shares nothing with the crates, so that a fault would have to be made twice to go unseen. The runs in examples/ are made
with it. A script that is refused gets an error message with the line, but without the refusal's number.
usage: python3 tools/model.py < SCRIPT"""
import re, sys
from collections import deque, namedtuple

NAME, NUMBER = '[a-z]{1,8}', '0|[1-9][0-9]{0,9}'
# what a field can be: a number, a target, a number with a sign; registers; a value channel or a handle register, the name of a
# value channel, of a handle channel, any channel or a handle register; the name of a body; and a new name
FORMS = {'n': NUMBER, 't': NUMBER, 'z': '0|-?[1-9][0-9]{0,9}', 'v': 'v[0-7]', 'h': 'h[0-3]', 'ch': NAME + '|h[0-3]', 'vc': NAME, 'hc': NAME,
         'any': NAME + '|h[0-3]', 'body': NAME, 'new': NAME}
MARKS = {'VC': 'new n', 'HC': 'new n', 'RT': 'new', 'SV': 'v z', 'AD': 'v v', 'SB': 'v v', 'JP': 't', 'JN': 'v t', 'HL': 'h vc', 'HN': 'h',
         'SD': 'ch v', 'RC': 'ch v v', 'SH': 'hc h', 'RH': 'hc h v', 'CL': 'any', 'SE': 'n', 'CS': 'ch v t', 'CR': 'ch v v t',
         'GS': 'hc h t', 'GR': 'hc h v t', 'CD': 't', 'GO': 'body', 'PR': 'v'}
CASES, SENDS, RECEIVES = ('CS', 'CR', 'GS', 'GR', 'CD'), ('SD', 'SH', 'CS', 'GS'), ('RC', 'RH', 'CR', 'GR')
SEND_ON_CLOSED, CLOSE_OF_CLOSED, CLOSE_OF_NIL, TOO_MANY = 1, 2, 3, 4
CLOSED = None  # what stands for the element where a case passes a closed channel
Line = namedtuple('Line', 'mark fields place')  # a line of a body, and its place in the text, counted from 1


class Channel:
    def __init__(self, number, of_handles, capacity):
        self.number, self.of_handles, self.capacity = number, of_handles, capacity
        self.closed, self.buffer = False, deque()
        self.receivers, self.senders = [], []  # who waits: entries of a routine and a case, the first one first


class Routine:
    "registers hold numbers: a value, or the code of a handle, which is 0 for nil and else the channel's number + 1"
    def __init__(self, number, body, registers):
        self.number, self.body, self.registers, self.line = number, body, dict(registers), 0
        self.living, self.released_with = True, None  # once released: the case, its channel, and the element or CLOSED

    def place(self):
        return self.body[self.line].place

    def cases(self):
        "the cases of its line: those below a select; a plain send or receive is its own one case"
        line = self.body[self.line]
        return self.body[self.line + 1:][:int(line.fields[0])] if line.mark == 'SE' else [line]


def insist(rule, place):
    if not rule:
        sys.exit('model.py: the script is refused at line %d' % place)


def read(text):
    "the channels and the bodies of a script, by name"
    channels, bodies, body, due, with_default = {}, {}, None, 0, False
    insist(len(text) <= 32768, 0)
    *rows, rest = text.split('\n')
    for place, (mark, *fields) in enumerate((row.split(' ') for row in rows), 1):
        forms = MARKS.get(mark, '').split()
        insist(forms and len(forms) == len(fields) and all(re.fullmatch(FORMS[f], x) for f, x in zip(forms, fields)), place)
        insist(all(-2**31 <= int(x) < 2**31 for f, x in zip(forms, fields) if f in 'ntz'), place)
        insist((due > 0) == (mark in CASES), place)
        if mark in ('VC', 'HC'):
            insist(body is None and fields[0] not in channels and len(channels) < 32 and int(fields[1]) <= 64, place)
            channels[fields[0]] = Channel(len(channels), mark == 'HC', int(fields[1]))
            insist(sum(c.capacity for c in channels.values() if c.of_handles == (mark == 'HC')) <= (128 if mark == 'HC' else 512), place)
        elif mark == 'RT':
            insist(fields[0] not in bodies and len(bodies) < 32, place)
            body = bodies[fields[0]] = []
        else:
            insist(body is not None and sum(map(len, bodies.values())) < 512, place)
            insist(mark != 'CD' or not with_default, place)
            due, with_default = (int(fields[0]), False) if mark == 'SE' else (max(due - 1, 0), with_default or mark == 'CD')
            insist(due <= 8, place)
            body.append(Line(mark, fields, place))
    insist(rest == '', len(rows) + 1)
    insist(due == 0, len(rows))
    return channels, bodies


def link(channels, bodies):
    "insists that every name stands for something of the right kind, and every target for a line that one can go to"
    vc, hc = ([x for x in channels if channels[x].of_handles == of_handles] for of_handles in (False, True))
    held = ['h0', 'h1', 'h2', 'h3']
    of_kind = {'vc': vc, 'hc': hc, 'ch': vc + held, 'any': vc + hc + held, 'body': bodies}
    for body in bodies.values():
        of_kind['t'] = [str(i) for i in range(len(body) + 1) if i == len(body) or body[i].mark not in CASES]
        for line in body:
            for form, word in zip(MARKS[line.mark].split(), line.fields):
                insist(form not in of_kind or word in of_kind[form], line.place)
    insist('main' in bodies, 0)


def wrapped(n):
    return (n + 2**31) % 2**32 - 2**31


class Run:
    def __init__(self, text):
        self.named, self.bodies = read(text)
        link(self.named, self.bodies)
        self.channels = list(self.named.values())
        registers = ['v%d' % i for i in range(8)] + ['h%d' % i for i in range(4)]
        self.routines = [Routine(0, self.bodies['main'], dict.fromkeys(registers, 0))]
        self.queue, self.over, self.last_pick = deque(self.routines), False, 7

    def step(self):
        "one step: the lines of its report"
        if not self.queue:
            self.over = True
            return ['st %d' % sum(r.living for r in self.routines)]
        r = self.queue.popleft()
        if r.released_with:
            return self.pass_by(r, *r.released_with)
        if r.line == len(r.body):
            r.living, self.over = False, r.number == 0
            return ['%s %d 0' % ('fi' if r.number == 0 else 'en', r.number)]
        mark = r.body[r.line].mark
        if mark == 'SE' or mark in SENDS + RECEIVES:
            return self.select(r)
        return {'CL': self.close, 'GO': self.start}.get(mark, self.plain)(r, *r.body[r.line].fields)

    def go_on(self, r, line, report):
        "r goes to that line, and joins the queue behind those that it started or released"
        r.line = line
        self.queue.append(r)
        return [report]

    def panic(self, r, cause):
        self.over = True
        return ['pn %d %d %d' % (r.number, r.place(), cause)]

    def plain(self, r, *fields):
        mark, registers = r.body[r.line].mark, r.registers
        report, then = 'pl %d %d' % (r.number, r.place()), r.line + 1
        if mark == 'SV':
            registers[fields[0]] = int(fields[1])
        elif mark == 'AD':
            registers[fields[0]] = wrapped(registers[fields[0]] + registers[fields[1]])
        elif mark == 'SB':
            registers[fields[0]] = wrapped(registers[fields[0]] - registers[fields[1]])
        elif mark == 'HL':
            registers[fields[0]] = self.named[fields[1]].number + 1
        elif mark == 'HN':
            registers[fields[0]] = 0
        elif mark == 'PR':
            report = 'sy %d %d %d' % (r.number, r.place(), registers[fields[0]])
        elif mark == 'JP' or registers[fields[0]] < 0:  # else a JN that goes to the next line
            then = int(fields[-1])
        return self.go_on(r, then, report)

    def meant(self, r, word):
        "the channel that a name or a handle register means, or None for nil"
        if word in self.named:
            return self.named[word]
        return self.channels[r.registers[word] - 1] if r.registers[word] else None

    def can_go(self, r, case):
        c = self.meant(r, case.fields[0]) if case.mark != 'CD' else None
        if c is None:
            return False
        if case.mark in SENDS:
            return bool(c.closed or len(c.buffer) < c.capacity or c.receivers)
        return bool(c.closed or c.buffer or c.senders)

    def select(self, r):
        cases = r.cases()
        ready = [k for k, case in enumerate(cases) if self.can_go(r, case)]
        if len(ready) >= 2:
            self.last_pick = min([k for k in ready if k > self.last_pick] or ready)
            return self.take(r, self.last_pick, ['PK %d %d' % (r.number, self.last_pick)])
        if ready:
            return self.take(r, ready[0], [])
        for k, case in enumerate(cases):
            if case.mark == 'CD':
                return self.go_on(r, int(case.fields[0]), 'ps %d %d %d d' % (r.number, r.place(), k))
        for k, case in enumerate(cases):
            c = self.meant(r, case.fields[0])
            if c:
                (c.senders if case.mark in SENDS else c.receivers).append((r, k))
        return ['wt %d %d' % (r.number, r.place())]

    def take(self, r, k, picked):
        "r passes by its case k, which can go; reported are what was picked, and the elements accepted and received"
        case = r.cases()[k]
        c, moves = self.meant(r, case.fields[0]), []
        if case.mark in SENDS and c.closed:
            element = CLOSED
        elif case.mark in SENDS:
            element = r.registers[case.fields[1]]
            moves.append(('ac', element, r))
            if c.receivers:
                moves.append(('rv', element, self.release(c.receivers[0], c, element)))
            else:
                c.buffer.append(element)
        else:
            if c.senders:  # the element of the first goes behind those that are buffered, if any are
                sender, at = c.senders[0]
                c.buffer.append(sender.registers[sender.cases()[at].fields[1]])
                moves.append(('ac', c.buffer[-1], self.release(c.senders[0], c, c.buffer[-1])))
            element = c.buffer.popleft() if c.buffer else CLOSED
            if element is not CLOSED:
                moves.append(('rv', element, r))
        return self.pass_by(r, k, c, element) + picked + ['%s %d %d %d' % (m, c.number, x % 2**32, who.number) for m, x, who in moves]

    def release(self, entry, c, element):
        "the routine of an entry at c is released by its case, leaves every queue, and joins the queue of turns"
        r, k = entry
        for each in self.channels:
            each.receivers = [x for x in each.receivers if x[0] is not r]
            each.senders = [x for x in each.senders if x[0] is not r]
        r.released_with = k, c, element
        self.queue.append(r)
        return r

    def pass_by(self, r, k, c, element):
        "r passes by its case k at c, with an element or, where the channel is closed, without: then a send is a panic"
        case, came, r.released_with = r.cases()[k], element is not CLOSED, None
        if case.mark in SENDS and not came:
            return self.panic(r, SEND_ON_CLOSED)
        report = 'ps %d %d %d ' % (r.number, r.place(), k)
        report += '%s %d %d' % ('s' if case.mark in SENDS else 'r', c.number, element % 2**32) if came else 'z %d' % c.number
        if case.mark in RECEIVES:
            r.registers[case.fields[1]] = element if came else 0
            r.registers[case.fields[2]] = int(came)  # last, so it stands if both are one register
        return self.go_on(r, int(case.fields[-1]) if case.mark in CASES else r.line + 1, report)

    def close(self, r, word):
        c, released = self.meant(r, word), 0
        if c is None or c.closed:
            return self.panic(r, CLOSE_OF_NIL if c is None else CLOSE_OF_CLOSED)
        while c.receivers or c.senders:
            self.release((c.receivers or c.senders)[0], c, CLOSED)
            released += 1
        c.closed = True
        return self.go_on(r, r.line + 1, 'cl %d %d %d %d' % (r.number, r.place(), c.number, released))

    def start(self, r, word):
        if len(self.routines) == 64:
            return self.panic(r, TOO_MANY)
        born = Routine(len(self.routines), self.bodies[word], r.registers)
        self.routines.append(born)
        self.queue.append(born)
        return self.go_on(r, r.line + 1, 'go %d %d %d' % (r.number, r.place(), born.number))


if __name__ == '__main__':
    run = Run(sys.stdin.buffer.read().decode('latin-1'))
    for _ in range(100000):
        if not run.over:
            print('\n'.join(run.step()))

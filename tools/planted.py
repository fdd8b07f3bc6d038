#!/usr/bin/env python3
"""Plants bugs in the code of each crate, one at a time, in a copy of the repository, and runs the check, which must refuse each of
them. Bugs are made by rules from the lines of function bodies in src/, a few of every kind, always the same ones for the
same code. One that does not compile is passed over and another is planted for it.
usage: python3 tools/planted.py [--each N] [--jobs N] [--out FILE] [CRATE..]
Prints a row for each bug: the crate, the kind, the place, the line as it was and with the bug, and what refused it; the last line
is 'N refused, M proved'. A bug that is proved means the same as the code, or its contract is too weak. With --out the
rows of each crate are written to FILE as a table, in place of those that it had."""
import argparse, os, re, shutil, subprocess, sys, tempfile, threading

TOP = os.path.join(os.path.dirname(os.path.abspath(__file__)), '..')


def swap_pairs(*pairs):
    "rules that turn each word of a pair into the other"
    return [(r'\b%s\b' % re.escape(a), b) for x, y in pairs for a, b in ((x, y), (y, x))]


def next_number(found):
    return str(int(found.group(0)) + 1)


# kind, and the rules that make bugs of it: a pattern in a line of code, and what stands there instead
RULES = [
    ('another comparison', [(' < ', ' <= '), (' <= ', ' < '), (' > ', ' >= '), (' >= ', ' > ')]),
    ('the opposite', [(' == ', ' != '), (' != ', ' == '), (' && ', ' || '), (r' \|\| ', ' && '), (r'\bif (?!let\b)', 'if !')]
     + swap_pairs(('true', 'false'))),
    ('another constant', [(r"(?<![\w.\[x'])\d+(?![\w.'\]])", next_number), (r'b"(\w)(\w)"', r'b"\2\1"')]),
    ('another operation', [(r' \+ ', ' - '), (r' - ', ' + '), (r' \+= ', ' -= '), (r' -= ', ' += '), (r' % ', ' + ')]),
    ('a dropped write', [(r'^( +)(?!let |return|use |//|prove!)[^=|]*(?: [-+|&]?= .*|\(.*\));$', r'\1')]),
    ('work done twice', [(r'^( +)((?!let |return|use |//|prove!)[^=|]*(?: [-+|&]= .*|\.[a-z_]+\(.*\));)$', r'\1\2 \2')]),
    ('swapped arguments', [(r'\((\w[\w.]*), (\w[\w.]*)\)(?! ->| =>)', r'(\2, \1)'), (r'\((self\.\w+|\w+), (\w[\w.]*), (\w[\w.]*)\)(?! ->| =>)', r'(\1, \3, \2)'),
                           (r'\[(\w+\(\w\)), (\w+\(\w\))', r'[\2, \1')]),
    ('another field', swap_pairs(('Receivers', 'Senders'), ('base', 'first'), ('count', 'capacity'), ('values', 'handles'), ('routine', 'case'),
                                 ('receivers', 'senders'), ('accepted', 'received'), ('turns', 'routines'), ('line', 'body'))
     + [(r'\.0\b', '.1'), (r'\.1\b', '.0')]),
    ('another case', swap_pairs(('Ready', 'Waiting'), ('Small', 'Over'), ('Broken', 'Misplaced'), ('Unknown', 'Wild'), ('Twice', 'Full'), ('Full', 'Empty'), ('Closed', 'ShortBank'),
                                ('Ends', 'Finishes'), ('NilClose', 'ClosedTwice'), ('Plain', 'Waits'), ('Ok', 'Err'), ('is_some', 'is_none'), ('Absent', 'Small'), ('Value', 'Handle'), ('Named', 'Held'), ('Natural', 'Integer'),
                                ('Case', 'Default'), ('Acts', 'Default'), ('Sent', 'Received'), ('Send', 'Receive'))),
    # these two are made of the lines around, below
    ('a missed case', []),
    ('an early return', []),
]
# bugs made by hand, for crates of few lines: crate, kind, file, a part of a line, and what stands there instead
MORE = [
    ('elements', 'another constant', 'src/handle.rt', 'u32::from(number) + 1', 'u32::from(number) + 2'),
    ('elements', 'another case', 'src/handle.rt', 'Handle { channel: None }', 'Handle { channel: Some(0) }'),
    ('elements', 'a dropped write', 'src/handle.rt', 'channel: Some(number),', 'channel: Some(0),'),
    ('elements', 'a missed case', 'src/handle.rt', 'map_or(0, |number| u32::from(number) + 1)', 'map_or(0, |_| 1)'),
    ('elements', 'another operation', 'src/value.rt', 'self.number.cast_unsigned()', 'self.number.unsigned_abs()'),
    ('elements', 'another constant', 'src/value.rt', 'Value { number: 0 }', 'Value { number: -1 }'),
    ('loading', 'another argument', 'src/lib.rt', 'read_exactly(empty, text)', 'read_exactly(empty, &text[..text.len() / 2])'),
    ('loading', 'another argument', 'src/lib.rt', 'read_exactly(empty, text)', 'read_exactly(empty, &[])'),
    ('loading', 'another field', 'src/lib.rt', '|unread| unread.fault', '|unread| words::Fault { line: 0, ..unread.fault }'),
    ('loading', 'another case', 'src/lib.rt', '|unread| unread.fault', '|unread| words::Fault { refusal: words::Refusal::Broken, ..unread.fault }'),
    ('loading', 'another case', 'src/lib.rt', '|unlinked| unlinked.stop', '|_| Stop::Faulty(words::Refusal::Unknown.at(0))'),
    ('loading', 'another case', 'src/lib.rt', '|unlinked| unlinked.stop', '|_| Stop::Memory'),
]
# what a function can return at once, by its type
AT_ONCE = [(r'^bool$', 'false'), (r'^Option<', 'None'), (r'^Result<.*Refusal>$', 'Err(Refusal::Small)'), (r'^usize$', '0'), (r'^u8$', '0'), (r'^$', '')]


def bodies(path):
    "the lines that stand in function bodies: their numbers, the text, and the function's type"
    inside, head, lines = False, '', open(path).read().split('\n')
    for n, line in enumerate(lines):
        bare = line.strip()
        if not inside:
            head = bare if re.match(r'(pub(\(crate\))? )?fn ', bare) else head + ' ' + bare
        if not inside:
            # a body opens where a function's signature or its last clause ends
            if bare == '{' or (re.match(r'(pub(\(crate\))? )?fn .*\{$', bare) and not bare.startswith('//')):
                inside, indent = True, len(line) - len(line.lstrip())
                found = re.search(r'\) -> ([^{]*?)(?: (?:requires|ensures|where)\b.*)? *\{?$', head.split(' ensures')[0].split(' requires')[0])
                result = found.group(1).strip() if found else ''
            continue
        if bare.startswith('}') and len(line) - len(line.lstrip()) == indent:
            inside = False
            continue
        if bare and not bare.startswith(('//', 'ghost', 'prove!')):
            yield n, line, result


def bugs(folder):
    "for each kind all bugs of it in the crate: kind, file, line number, the line now"
    made = {kind: [] for kind, _ in RULES}
    for root, _, files in sorted(os.walk(os.path.join(folder, 'src'))):
        for name in sorted(files):
            if not name.endswith('.rt') or name in ('tests.rt', 'lib.rt'):
                continue
            path = os.path.join(root, name)
            arm = None
            for n, line, result in bodies(path):
                place = os.path.relpath(path, folder)
                this = re.match(r'( +.* => )(.*)(,)$', line)
                if this and arm and arm != this.group(2):
                    made['a missed case'].append(('a missed case', place, n, this.group(1) + arm + ','))
                arm = this.group(2) if this else None
                if re.match(r' +(let |if |for |while )', line):
                    for wanted, value in AT_ONCE:
                        if re.match(wanted, result):
                            lead = re.match(' *', line).group(0)
                            made['an early return'].append(('an early return', place, n, '%sif true { return %s; } %s' % (lead, value, line.strip())))
                            break
                for kind, rules in RULES:
                    for pattern, instead in rules:
                        for found in re.finditer(pattern, line):
                            new = line[:found.start()] + (instead(found) if callable(instead) else found.expand(instead)) + line[found.end():]
                            if new != line:
                                made[kind].append((kind, place, n, new))
    return made


def spread(items):
    "the same items, far ones first, so that the first few come from all over"
    order, step = [], max(1, len(items) // 3)
    for start in range(step):
        order += items[start::step]
    return order


def by_hand(folder):
    for crate, kind, file, old, new in MORE:
        if crate == os.path.basename(folder):
            lines = open(os.path.join(folder, file)).read().split('\n')
            n = next(n for n, line in enumerate(lines) if old in line and not line.strip().startswith('//'))
            yield kind, file, n, lines[n].replace(old, new)


def in_turn(made):
    "one of each kind in turn"
    queues = [spread(made[kind]) for kind, _ in RULES]
    while any(queues):
        for queue in queues:
            if queue:
                yield queue.pop(0)


def check(folder):
    run = subprocess.run(['rt', 'check'], cwd=folder, capture_output=True, text=True)
    said = (run.stdout + run.stderr).splitlines()
    if run.returncode == 0:
        return 'proved', ''
    if any(line.startswith('logic=not-proved') for line in said) and not any('mend these first' in line for line in said):
        for line in said:
            if 'is not proved' in line or ' error:' in line or 'not proved' in line:
                return 'refused', re.sub(r'\s+', ' ', re.sub(r'; `search`.*|; the facts known.*|: help:.*', '', line)).strip()
        return 'refused', said[-1]
    return 'not compiled', ''


def plant(copy, crate, each, rows, lock):
    folder = os.path.join(copy, 'crates', crate)
    planted = 0
    for kind, file, n, new in [*by_hand(folder), *in_turn(bugs(folder))]:
        if planted == each:
            break
        path = os.path.join(folder, file)
        text = open(path).read()
        lines = text.split('\n')
        old, lines[n] = lines[n], new
        open(path, 'w').write('\n'.join(lines))
        verdict, why = check(folder)
        open(path, 'w').write(text)
        if verdict == 'not compiled':
            continue
        planted += 1
        with lock:
            rows.append((crate, kind, '%s:%d' % (file, n + 1), old.strip(), new.strip(), verdict, why))
            print(' | '.join(rows[-1]), flush=True)


def cell(text):
    "text as code in a table, where bars and backticks have a meaning of their own"
    marks = '``' if '`' in text else '`'
    return marks + text.replace('|', '\\|') + marks if text else ''


def write(path, listed, rows):
    "puts the tables of these crates in place of theirs in the page: a part for each crate, headed by its name"
    head, *parts = open(path).read().split('\n## ') if os.path.exists(path) else ['']
    kept = {part.split('\n', 1)[0].strip('`'): part for part in parts}
    for crate in listed:
        own = [row for row in rows if row[0] == crate]
        if own:
            lines = ['`%s`\n' % crate, '| Kind | Place | The line | With the bug | Refused by |', '|---|---|---|---|---|']
            lines += ['| %s | %s | %s | %s | %s |' % (row[1], row[2], cell(row[3]), cell(row[4]) or 'nothing stands there', cell(row[6]) or '**proved**') for row in own]
            kept[crate] = '\n'.join(lines) + '\n'
    last = [part for name, part in kept.items() if name not in listed]
    open(path, 'w').write('\n## '.join([head] + [kept[c] for c in listed if c in kept] + last))


def main():
    args = argparse.ArgumentParser()
    args.add_argument('--each', type=int, default=14)
    args.add_argument('--jobs', type=int, default=2)
    args.add_argument('--out')
    args.add_argument('crates', nargs='*')
    args = args.parse_args()
    listed = [line.split(':')[0] for line in open(os.path.join(TOP, 'crates.txt')) if ':' in line and not line.startswith('#')]
    todo = [c for c in listed if c in args.crates or not args.crates and os.path.isdir(os.path.join(TOP, 'crates', c, 'must-fail'))]
    rows, lock = [], threading.Lock()

    def work():
        with tempfile.TemporaryDirectory() as d:
            copy = os.path.join(d, 'copy')
            # without the edits: a bug may stand in the line that one of them turns
            shutil.copytree(TOP, copy, ignore=shutil.ignore_patterns('.git', 'out', 'must-fail'))
            while True:
                with lock:
                    if not todo:
                        return
                    crate = todo.pop(0)
                plant(copy, crate, args.each, rows, lock)

    workers = [threading.Thread(target=work) for _ in range(args.jobs)]
    for w in workers:
        w.start()
    for w in workers:
        w.join()
    if args.out:
        write(args.out, listed, rows)
    proved = [row for row in rows if row[5] == 'proved']
    print('%d refused, %d proved' % (len(rows) - len(proved), len(proved)))


main()

#!/usr/bin/env python3
"""Writes crates/boundaries/stdin and stdout: texts at the boundaries of each rule of reading and of linking, and
the answer that the rules of docs/LANGUAGE.md give to each, worked out by hand beside it."""
import os

def names(n, prefix=''):
    "n different names, two letters after the prefix"
    return [prefix + chr(97 + i // 26) + chr(97 + i % 26) for i in range(n)]

def channels(n, capacity=0, mark='VC'):
    return ''.join('%s %s %d\n' % (mark, x, capacity) for x in names(n))

def bodies(n):
    return ''.join('RT %s\n' % x for x in names(n))

MAIN = 'RT main\n'
EVERY = '''VC a 64
VC b 0
HC c 1
RT main
SV v0 -2147483648
SV v7 2147483647
SV v1 0
AD v0 v1
SB v2 v3
JP 0
JN v4 12
HL h0 a
HN h3
SD a v5
SD h1 v5
RC b v0 v1
RC h2 v6 v7
SH c h0
RH c h1 v2
CL a
CL c
CL h0
SE 5
CS a v0 1
CR h1 v0 v1 2
GS c h2 3
GR c h3 v4 4
CD 5
SE 0
GO w
PR v0
RT w
'''
SAME = 'same'

# A name at each place that has one, in `main`, whose lines are text lines 5 on: the answers where it is a's, the
# value channel; c's, the handle channel; w's, the other body; and x, which is not declared.
NAMED = 'VC a 0\nHC c 0\nRT w\nRT main\n'
PLACES = [
    ('HL', 'HL h0 %s\n', SAME, 'NO 6 5', 'NO 6 5', 'NO 6 5'),
    ('SD', 'SD %s v0\n', SAME, 'NO 6 5', 'NO 6 5', 'NO 6 5'),
    ('RC', 'RC %s v0 v1\n', SAME, 'NO 6 5', 'NO 6 5', 'NO 6 5'),
    ('SH', 'SH %s h0\n', 'NO 6 5', SAME, 'NO 6 5', 'NO 6 5'),
    ('RH', 'RH %s h0 v0\n', 'NO 6 5', SAME, 'NO 6 5', 'NO 6 5'),
    ('CL', 'CL %s\n', SAME, SAME, 'NO 6 5', 'NO 6 5'),
    ('CS', 'SE 1\nCS %s v0 0\n', SAME, 'NO 6 6', 'NO 6 6', 'NO 6 6'),
    ('CR', 'SE 1\nCR %s v0 v1 0\n', SAME, 'NO 6 6', 'NO 6 6', 'NO 6 6'),
    ('GS', 'SE 1\nGS %s h0 0\n', 'NO 6 6', SAME, 'NO 6 6', 'NO 6 6'),
    ('GR', 'SE 1\nGR %s h0 v0 0\n', 'NO 6 6', SAME, 'NO 6 6', 'NO 6 6'),
    ('GO', 'GO %s\n', 'NO 6 5', 'NO 6 5', SAME, 'NO 6 5'),
]
# A target on each line that has one, in `main`, whose three lines are text lines 4 on: the answers for targets 0 to 4.
# 3 is the body's end.
LED = 'VC a 0\nHC c 0\nRT main\n'
LEADS = [
    ('JP', 'JP %d\nSE 1\nCD 0\n', SAME, SAME, 'NO 7 4', SAME, 'NO 7 4'),
    ('JN', 'JN v0 %d\nSE 1\nCD 0\n', SAME, SAME, 'NO 7 4', SAME, 'NO 7 4'),
    ('CS', 'SE 1\nCS a v0 %d\nPR v0\n', SAME, 'NO 7 5', SAME, SAME, 'NO 7 5'),
    ('CR', 'SE 1\nCR a v0 v1 %d\nPR v0\n', SAME, 'NO 7 5', SAME, SAME, 'NO 7 5'),
    ('GS', 'SE 1\nGS c h0 %d\nPR v0\n', SAME, 'NO 7 5', SAME, SAME, 'NO 7 5'),
    ('GR', 'SE 1\nGR c h0 v0 %d\nPR v0\n', SAME, 'NO 7 5', SAME, SAME, 'NO 7 5'),
    ('CD', 'SE 1\nCD %d\nPR v0\n', SAME, 'NO 7 5', SAME, SAME, 'NO 7 5'),
]
# a jump in front of a select with a case of each kind, lines 2 to 6 of seven
ONTO = LED + 'JP %d\nSE 5\nCS a v0 0\nCR a v0 v1 0\nGS c h0 0\nGR c h0 v0 0\nCD 0\n'

cases = [
    # title, text, answer
    ('no-text', '', 'NO 6 0'),
    ('every-line', EVERY, SAME),
    ('main-alone', MAIN, SAME),
    # 1 Overlong: the whole text, before anything else
    ('32768-bytes', 'x' * 32767 + '\n', 'NO 2 1'),
    ('32769-bytes', 'x' * 32768 + '\n', 'NO 1 0'),
    ('32769-good-lines', MAIN + 'PR v0\n' * 5460 + 'x', 'NO 1 0'),
    # 2 Broken: at its first and at its last place
    ('broken-first', 'vc a 0\n' + MAIN, 'NO 2 1'),
    ('broken-last', MAIN + 'PR v0\nPR v8\n', 'NO 2 3'),
    ('unended', MAIN + 'PR v0', 'NO 2 2'),
    ('unended-mark', 'R', 'NO 2 1'),
    ('empty-line', '\n', 'NO 2 1'),
    ('line-of-one-byte', 'R\n', 'NO 2 1'),
    ('mark-alone', MAIN + 'PR\n', 'NO 2 2'),
    ('space-in-front', ' RT main\n', 'NO 2 1'),
    ('space-doubled', 'RT  main\n', 'NO 2 1'),
    ('space-at-the-end', 'RT main \n', 'NO 2 1'),
    ('tab', 'RT\tmain\n', 'NO 2 1'),
    ('a-field-more', MAIN + 'PR v0 v1\n', 'NO 2 2'),
    ('a-field-less', MAIN + 'AD v0\n', 'NO 2 2'),
    ('name-of-8', MAIN + 'RT abcdefgh\n', SAME),
    ('name-of-9', 'RT abcdefghi\n', 'NO 2 1'),
    ('name-with-a-capital', 'RT Main\n', 'NO 2 1'),
    ('name-with-a-digit', 'RT main1\n', 'NO 2 1'),
    ('register-v8', MAIN + 'PR v8\n', 'NO 2 2'),
    ('register-h4', MAIN + 'HN h4\n', 'NO 2 2'),
    ('register-v00', MAIN + 'PR v00\n', 'NO 2 2'),
    ('value-for-a-handle', MAIN + 'HN v0\n', 'NO 2 2'),
    ('value-for-an-operand', MAIN + 'SD v0 v1\n', 'NO 2 2'),
    ('value-to-close', MAIN + 'CL v0\n', 'NO 2 2'),
    ('register-to-start', MAIN + 'GO v0\n', 'NO 2 2'),
    ('handle-for-a-name', MAIN + 'HL h0 h1\n', 'NO 2 2'),
    ('least-number', MAIN + 'SV v0 -2147483648\n', SAME),
    ('below-the-least', MAIN + 'SV v0 -2147483649\n', 'NO 2 2'),
    ('greatest-number', MAIN + 'SV v0 2147483647\n', SAME),
    ('above-the-greatest', MAIN + 'SV v0 2147483648\n', 'NO 2 2'),
    ('minus-zero', MAIN + 'SV v0 -0\n', 'NO 2 2'),
    ('minus-alone', MAIN + 'SV v0 -\n', 'NO 2 2'),
    ('plus-one', MAIN + 'SV v0 +1\n', 'NO 2 2'),
    ('two-zeros', MAIN + 'SV v0 00\n', 'NO 2 2'),
    ('leading-zero', MAIN + 'SV v0 01\n', 'NO 2 2'),
    ('minus-in-a-target', MAIN + 'JP -1\n', 'NO 2 2'),
    ('minus-in-a-capacity', 'VC a -1\n', 'NO 2 1'),
    ('greatest-target', MAIN + 'JP 2147483647\n', 'NO 7 2'),
    ('target-past-32-bits', MAIN + 'JP 2147483648\n', 'NO 2 2'),
    ('capacity-past-32-bits', 'VC a 2147483648\n', 'NO 2 1'),
    # 3 Misplaced
    ('body-line-first', 'PR v0\n', 'NO 3 1'),
    ('channel-after-a-body', MAIN + 'VC a 0\n', 'NO 3 2'),
    ('handles-after-a-body', MAIN + 'HC a 0\n', 'NO 3 2'),
    ('case-without-select', MAIN + 'CD 0\n', 'NO 3 2'),
    ('case-too-many', MAIN + 'SE 1\nCD 0\nCS a v0 0\n', 'NO 3 4'),
    ('line-for-a-case', MAIN + 'SE 2\nCD 0\nPR v0\n', 'NO 3 4'),
    ('select-for-a-case', MAIN + 'SE 1\nSE 1\nCD 0\n', 'NO 3 3'),
    ('body-for-a-case', MAIN + 'SE 1\nRT w\n', 'NO 3 3'),
    ('channel-for-a-case', MAIN + 'SE 1\nVC a 0\n', 'NO 3 3'),
    ('second-default', MAIN + 'SE 2\nCD 0\nCD 0\n', 'NO 3 4'),
    ('default-in-each', MAIN + 'SE 1\nCD 0\nSE 1\nCD 0\n', SAME),
    ('cases-due-at-the-end', MAIN + 'SE 2\nCD 0\n', 'NO 3 3'),
    ('select-9-at-the-end', MAIN + 'SE 9\n', 'NO 3 2'),
    ('select-0-at-the-end', MAIN + 'SE 0\n', SAME),
    ('broken-last-with-cases-due', MAIN + 'SE 1\nCD x\n', 'NO 2 3'),
    # 4 Full
    ('32-channels', channels(32) + MAIN, SAME),
    ('33-channels', channels(33), 'NO 4 33'),
    ('32-bodies', MAIN + bodies(31), SAME),
    ('33-bodies', MAIN + bodies(32), 'NO 4 33'),
    ('512-lines', MAIN + 'PR v0\n' * 512, SAME),
    ('513-lines', MAIN + 'PR v0\n' * 513, 'NO 4 514'),
    ('512-lines-in-two-bodies', MAIN + 'PR v0\n' * 256 + 'RT w\n' + 'PR v0\n' * 256, SAME),
    ('513-lines-in-two-bodies', MAIN + 'PR v0\n' * 256 + 'RT w\n' + 'PR v0\n' * 257, 'NO 4 515'),
    ('case-as-line-513', MAIN + 'PR v0\n' * 511 + 'SE 1\nCD 0\n', 'NO 4 514'),
    ('capacity-64', 'VC a 64\n' + MAIN, SAME),
    ('capacity-65', 'VC a 65\n', 'NO 4 1'),
    ('handles-of-64', 'HC a 64\n' + MAIN, SAME),
    ('handles-of-65', 'HC a 65\n', 'NO 4 1'),
    ('values-together-512', channels(8, 64) + MAIN, SAME),
    ('values-together-513', channels(8, 64) + 'VC x 1\n', 'NO 4 9'),
    ('handles-together-128', channels(2, 64, 'HC') + MAIN, SAME),
    ('handles-together-129', channels(2, 64, 'HC') + 'HC x 1\n', 'NO 4 3'),
    ('both-kinds-apart', channels(8, 64) + 'HC x 64\nHC y 64\n' + MAIN, SAME),
    ('select-of-8', 'VC a 0\n' + MAIN + 'SE 8\n' + 'CS a v0 0\n' * 8, SAME),
    ('select-of-9', MAIN + 'SE 9\n' + 'CS a v0 0\n' * 9, 'NO 4 2'),
    # 5 Twice
    ('channel-twice', 'VC a 0\nVC b 0\nVC a 0\n', 'NO 5 3'),
    ('one-name-in-both-kinds', 'VC a 0\nHC a 0\n', 'NO 5 2'),
    ('body-twice', MAIN + 'RT w\nRT main\n', 'NO 5 3'),
    ('channel-and-body-of-one-name', 'VC main 0\n' + MAIN, SAME),
    # several faults: the first line, by the lowest number
    ('full-and-twice', 'VC a 0\nVC a 65\n', 'NO 4 2'),
    ('misplaced-and-twice', 'VC a 0\n' + MAIN + 'VC a 0\n', 'NO 3 3'),
    ('misplaced-and-full', MAIN + 'VC a 65\n', 'NO 3 2'),
    ('broken-and-misplaced', MAIN + 'VC a 1 1\n', 'NO 2 2'),
    ('first-line-before-lowest', 'VC a 65\nxx\n', 'NO 4 1'),
    ('channel-33-twice', channels(32) + 'VC aa 0\n', 'NO 4 33'),
    # 6 Unknown: no main, which is found last
    ('declarations-alone', 'VC a 0\nHC b 0\n', 'NO 6 0'),
    ('no-main', 'RT w\nPR v0\n', 'NO 6 0'),
    ('main-as-a-channel', 'VC main 0\nRT w\n', 'NO 6 0'),
    ('main-and-a-letter', 'RT mains\n', 'NO 6 0'),
    ('main-less-a-letter', 'RT mai\n', 'NO 6 0'),
    ('main-last', 'RT w\nGO main\n' + MAIN, SAME),
    ('no-main-and-an-unknown-name', 'RT w\nPR v0\nGO x\n', 'NO 6 3'),
    ('no-main-and-a-wild-target', 'RT w\nPR v0\nJP 3\n', 'NO 7 3'),
    ('no-main-and-a-sound-target', 'RT w\nPR v0\nJP 2\n', 'NO 6 0'),
    # 6 Unknown: names
    ('letter-more', 'VC a 0\n' + MAIN + 'SD ab v0\n', 'NO 6 3'),
    ('letter-less', 'VC ab 0\n' + MAIN + 'SD a v0\n', 'NO 6 3'),
    ('last-letter-of-8', 'VC abcdefgh 0\n' + MAIN + 'SD abcdefgi v0\n', 'NO 6 3'),
    ('all-letters-of-8', 'VC abcdefgh 0\n' + MAIN + 'SD abcdefgh v0\n', SAME),
    ('channel-of-place-31', channels(32) + MAIN + 'SD bf v0\n', SAME),
    ('channel-of-no-place', channels(32) + MAIN + 'SD bg v0\n', 'NO 6 34'),
    ('body-of-place-31', MAIN + 'GO be\n' + bodies(31), SAME),
    ('body-of-no-place', MAIN + 'GO bf\n' + bodies(31), 'NO 6 2'),
    ('start-of-itself', MAIN + 'GO main\n', SAME),
    ('values-and-body-of-one-name', 'VC w 0\n' + MAIN + 'GO w\nSD w v0\nRT w\n', SAME),
    ('handles-and-body-of-one-name', 'HC w 0\n' + MAIN + 'GO w\nSH w h0\nRT w\n', SAME),
    ('one-name-and-the-other-kind', 'HC w 0\n' + MAIN + 'GO w\nSD w v0\nRT w\n', 'NO 6 4'),
    # 7 Wild
    ('end-of-an-only-line', MAIN + 'JP 1\n', SAME),
    ('past-an-only-line', MAIN + 'JP 2\n', 'NO 7 2'),
    ('end-of-512-lines', MAIN + 'PR v0\n' * 511 + 'JP 512\n', SAME),
    ('past-512-lines', MAIN + 'PR v0\n' * 511 + 'JP 513\n', 'NO 7 513'),
    ('on-into-the-next-body', MAIN + 'JP 2\nRT w\nPR v0\n', 'NO 7 2'),
    ('end-of-a-second-body', MAIN + 'PR v0\nPR v0\nRT w\nJP 1\n', SAME),
    ('past-a-second-body', MAIN + 'PR v0\nPR v0\nRT w\nJP 2\n', 'NO 7 5'),
    ('case-of-another-body', MAIN + 'SE 1\nCD 0\nRT w\nPR v0\nJP 1\n', SAME),
    # several faults: the first line, by the lowest number; reading before linking
    ('unknown-and-wild', MAIN + 'SE 1\nCS x v0 9\n', 'NO 6 3'),
    ('other-kind-and-on-a-case', 'HC c 0\n' + MAIN + 'SE 1\nCS c v0 1\n', 'NO 6 4'),
    ('unknown-then-wild', MAIN + 'GO x\nJP 9\n', 'NO 6 2'),
    ('wild-then-unknown', MAIN + 'JP 9\nGO x\n', 'NO 7 2'),
    ('unknown-twice', MAIN + 'PR v0\nGO x\nGO y\n', 'NO 6 3'),
    ('wild-twice', MAIN + 'PR v0\nJP 8\nJP 9\n', 'NO 7 3'),
    ('wild-then-unknown-in-bodies', MAIN + 'PR v0\nJP 7\nRT w\nGO x\n', 'NO 7 3'),
    ('unknown-then-wild-in-bodies', 'RT w\nGO x\n' + MAIN + 'JP 7\n', 'NO 6 2'),
    ('fault-of-the-last-line', MAIN + 'PR v0\nRT w\nPR v0\nGO x\n', 'NO 6 5'),
    ('broken-after-unknown', MAIN + 'GO x\nPR v8\n', 'NO 2 3'),
    ('misplaced-after-wild', MAIN + 'JP 9\nVC a 0\n', 'NO 3 3'),
    ('full-after-unknown', MAIN + 'GO x\nSE 9\nPR v0\n', 'NO 4 3'),
    ('twice-and-no-main', 'RT w\nRT w\n', 'NO 5 2'),
]
for mark, lines, *answers in PLACES:
    for what, name, answer in zip(('value', 'handle', 'body', 'undeclared'), 'acwx', answers, strict=True):
        cases.append(('%s-%s' % (mark, what), NAMED + lines % name, answer))
for mark, lines, *answers in LEADS:
    for target, answer in zip(range(5), answers, strict=True):
        cases.append(('%s-to-%d' % (mark, target), LED + lines % target, answer))
for target, answer in enumerate((SAME, SAME, 'NO 7 4', 'NO 7 4', 'NO 7 4', 'NO 7 4', 'NO 7 4', SAME, 'NO 7 4')):
    cases.append(('onto-%d' % target, ONTO % target, answer))

here = os.path.join(os.path.dirname(os.path.abspath(__file__)), '..', 'crates', 'boundaries')
with open(os.path.join(here, 'stdin'), 'w') as f:
    for title, text, _ in cases:
        f.write('%s %d\n%s' % (title, len(text), text))
with open(os.path.join(here, 'stdout'), 'w') as f:
    for title, _, answer in cases:
        f.write('%s: %s\n' % (title, answer))
assert len({title for title, _, _ in cases}) == len(cases)
print(len(cases), 'texts')

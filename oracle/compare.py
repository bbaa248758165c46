#!/usr/bin/env python3
"""compare.py DIRECTORY: its files stream, expect and output against each other."""
import sys
from collections import Counter

ANSWERED = ('check', 'label', 'lay')


def word(line):
    return line.split(' ', 1)[0].rstrip('\n')


def parts(path):
    """The stream cut behind every line that is answered."""
    own = []
    for line in open(path):
        own.append(line)
        if word(line) in ANSWERED:
            yield own
            own = []


def agrees(expected, line):
    """The line begins with these words."""
    return line.startswith(expected) and line[len(expected):len(expected) + 1] in (' ', ':', '\n', '')


def counted(expect):
    """How often each answer is expected."""
    words = [line.split() for line in expect]
    checks = Counter(int(e[1]) for e in words if e[0] == 'check')
    print('expected:', ', '.join('%d x%d' % (n, checks[n]) for n in sorted(checks)))
    print('3 at place 0: %d times' % expect.count('check 3 0'))
    labels = Counter(int(e[1]) for e in words if e[0] == 'label')
    print('labels:', ', '.join('%d x%d' % (n, labels[n]) for n in sorted(labels)))
    layings = Counter('13' if e[1] == '13' else ' '.join(e[2:-1]) if e[2] == 'no' else ' '.join(e[2:])
                      for e in words if e[0] == 'lay')
    print('layings:', ', '.join('%s x%d' % (n, layings[n]) for n in sorted(layings)))


def show(expect, streams, i):
    """The lines that led to an answer: for a label or a laying the two drawings too."""
    if not expect[i].startswith('check'):
        for k in [k for k in range(i) if expect[k].startswith('check 0 ')][-2:]:
            sys.stdout.write(''.join(streams[k]))
    sys.stdout.write(''.join(streams[i]))


def main(directory):
    expect = open(directory + '/expect').read().splitlines()
    output = [line for line in open(directory + '/output', errors='replace')
              if word(line) in ANSWERED]
    streams = list(parts(directory + '/stream'))
    assert len(streams) == len(expect)
    counted(expect)
    wrong = [i for i in range(min(len(output), len(expect))) if not agrees(expect[i], output[i])]
    fault = False
    if len(output) != len(expect):
        fault = True
        print('%d answers expected, and %d came' % (len(expect), len(output)))
        sys.stdout.write(''.join('    ' + line for line in
                                 list(open(directory + '/errors', errors='replace'))[-10:]))
        if len(output) < len(expect) and not wrong:
            print('the first without an answer is number %d:' % (len(output) + 1))
            sys.stdout.write(''.join(streams[len(output)][:2000]))
    if wrong:
        fault = True
        kinds = Counter((' '.join(expect[i].split()[:2]), ' '.join(output[i].split()[:2])) for i in wrong)
        print('%d of %d answers differ' % (len(wrong), len(expect)))
        for (e, g), n in kinds.most_common():
            print('    expected %s, got %s: %d times' % (e, g, n))
        i = min(wrong, key=lambda i: len(streams[i]))
        print('the smallest that differs is answer %d: expected "%s", got "%s"'
              % (i + 1, expect[i], output[i].rstrip('\n')))
        show(expect, streams, i)
    if not fault:
        drawings = sum(line.startswith('check') for line in expect)
        print('all %d drawings and %d labels and layings agree' % (drawings, len(expect) - drawings))
    return 1 if fault else 0


if __name__ == '__main__':
    sys.exit(main(sys.argv[1]))

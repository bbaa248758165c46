#!/usr/bin/env python3
"""The oracle by itself: known examples, a cross-check by other means, and
faulty oracles that the made drawings must tell from the right one."""
import random
import sys
from collections import Counter

import laying
import make
import oracle
from laying import Block
from make import BOX, BOX_FACES, WEDGE, WEDGE_FACES, plain
from oracle import verdict


def examples():
    def is_(t, number, place):
        got = verdict(*t)
        assert got == (number, place), (got, number, place)
    high = lambda z: [(x, y, z if h else 0) for x, y, h in BOX]
    is_(plain(BOX, BOX_FACES), 0, 24)
    is_(plain(WEDGE, WEDGE_FACES), 0, 12)
    is_(plain(BOX, [f[::-1] for f in BOX_FACES]), 12, 0)
    is_(plain(high(8000), BOX_FACES), 0, 24)
    is_(plain(high(8001), BOX_FACES), 2, 5)
    is_(plain(BOX[:6] + [(10, 20, 31)] + BOX[7:], BOX_FACES), 10, 5)
    is_(plain(BOX, [BOX_FACES[0], [4, 5, 6], [4, 6, 7]] + BOX_FACES[2:]), 11, 7)
    twice = WEDGE + [tuple(-x for x in p) for p in WEDGE[1:]]
    name = [0, 4, 5, 6]
    other = [[name[i] for i in f] for f in WEDGE_FACES]
    is_(plain(twice, WEDGE_FACES + other), 8, 1)
    is_(plain(twice, WEDGE_FACES + [f[::-1] for f in other]), 8, 1)
    numbers = [verdict(*t)[0] for _, t, _ in make.sample()]
    assert numbers == [0, 0, 0] + list(range(1, 13)), numbers
    box, wedge = Block(*plain(BOX, BOX_FACES)), Block(*plain(WEDGE, WEDGE_FACES))
    assert box.measure(1) == (400, 0, -400, 0, 0, -6000)
    assert wedge.measure(10) == (500, -400, -100, 100, 0, -6000)


def other_way(points, corners, faces):
    """For drawings that pass 1 to 7: 8 and 9 by counting, 12 by another origin."""
    number, _place = verdict(points, corners, faces)
    if number in range(1, 8):
        return
    n = len(corners)
    after = {}
    for first in faces:
        k = first
        while corners[k - 1][2]:
            after[k] = corners[k - 1][2]
            k = after[k]
        after[k] = first
    pair = {(corners[e - 1][0], corners[after[e] - 1][0]): e for e in after}
    opposite = {e: pair[(b, a)] for (a, b), e in pair.items()}
    assert len(pair) == n == len(after) and all(opposite[opposite[e]] == e != opposite[e] for e in after)
    parent = list(range(n + 1))

    def root(x):
        while parent[x] != x:
            x = parent[x]
        return x

    for e in after:
        parent[root(e)] = root(after[opposite[e]])
    fans = len({root(e) for e in after})
    assert (number == 8) == (fans != len(points)), (number, fans, len(points))
    if number == 8:
        return
    for e in after:
        parent[root(e)] = root(after[e])
    assert (number == 9) == (len({root(e) for e in after}) != 1)
    if number == 9:
        return
    euler = len(points) - n // 2 + len(faces)
    assert euler % 2 == 0 and euler <= 2
    ORIENT[euler] += number == 0
    if number in (0, 12):
        o = (123, -4567, 89)
        total = 0
        for first in faces:
            chain = [first]
            while after[chain[-1]] != first:
                chain.append(after[chain[-1]])
            q = [tuple(a - b for a, b in zip(points[corners[k - 1][0] - 1], o)) for k in chain]
            for i in range(1, len(q) - 1):
                total += oracle.vol(q[0], q[i], q[i + 1])
        assert (total > 0) == (number == 0)
        ZERO[0] += total == 0


ORIENT, ZERO = Counter(), [0]

FAULTS = [
    ('(4, 160)\nRANGE_FACES', '(4, 161)\nRANGE_FACES'), ('(4, 160)\nRANGE_FACES', '(4, 159)\nRANGE_FACES'),
    ('(4, 160)\nRANGE_FACES', '(3, 160)\nRANGE_FACES'), ('(4, 160)\nRANGE_FACES', '(5, 160)\nRANGE_FACES'),
    ('RANGE_FACES = (4, 160)', 'RANGE_FACES = (4, 161)'), ('RANGE_FACES = (4, 160)', 'RANGE_FACES = (4, 159)'),
    ('RANGE_FACES = (4, 160)', 'RANGE_FACES = (3, 160)'), ('RANGE_FACES = (4, 160)', 'RANGE_FACES = (5, 160)'),
    ('(12, 480)', '(11, 480)'), ('(12, 480)', '(13, 480)'), ('(12, 480)', '(12, 481)'), ('(12, 480)', '(12, 479)'),
    ('(-8000, 8000)', '(-8001, 8000)'), ('(-8000, 8000)', '(-8000, 8001)'),
    ('(-8000, 8000)', '(-7999, 8000)'), ('(-8000, 8000)', '(-8000, 7999)'),
    ('for x in point):', 'for x in point[:2]):'), ('for x in point):', 'for x in point[1:]):'),
    # a first index of 0 alone is also a chain of no corners, so leaving that test out is no fault
    ('if at > len(corners):\n                return None, place',
                                     'if at > len(corners):\n                break'),
    ('if at in seen:\n                return None, place', 'if at in seen:\n                break'),
    ('if at in seen:', 'if at in chain:'), ('< 3:', '< 2:'), ('< 3:', '< 4:'),
    ('    seen = set()\n    for place, first in enumerate(faces, 1):', '    for place, first in enumerate(faces, 1):\n        seen = set()'),
    ('        return None, 0\n', '        pass\n'), ('        return None, 0\n', '        return None, 1\n'),
    ('        chains.append(chain)\n    if any(k not in seen for k in range(1, len(corners) + 1)):\n        return None, 0\n    return chains, None',
     '        chains.append(chain)\n    return chains, None'),
    ('corner[0] == 0 or', ''), ('or corner[0] > len(points)', ''), ('corner[0] > len(points)', 'corner[0] > len(points) + 1'),
    ('if i not in named:', 'if False:'), ('range(1, len(points) + 1):\n        if i not', 'range(1, len(points)):\n        if i not'),
    ('return 6, i + 1', 'return 6, 1 + points.index(points[i])'), ('points[:i]]:', 'points[i - 1:i]]:'), ('points[:i]]:', 'points[:1]]:'),
    ('        if start[e] == end[e]:\n            return 7, e\n', ''),
    ('there.count(there[e - 1]) != 1 or ', ''), (' or there.count(back[e - 1]) != 1', ''),
    ('there.count(back[e - 1]) != 1', 'there.count(back[e - 1]) == 0'),
    ('if not leaving <= fan:', 'if False:'), ('return 8, p', 'return 8, 1'), ('return 8, p', 'return 8, first'),
    (' | {after[e] for e in reached}', ''), (' | {opposite[e] for e in reached}', ''),
    ('return 9, e', 'return 9, 13'), ('return 9, e', 'return 9, 1 + len(reached)'), ('return 9, e', 'return 9, max(x for x in edges if x not in reached)'),
    ('v[after[b]]) != 0', 'v[after[b]]) > 0'), ('v[after[b]]) != 0', 'v[after[b]]) < 0'), ('return 10, e', 'return 10, b'),
    ('v[after[opposite[e]]]) == 0', 'v[after[opposite[e]]]) <= 0'), ('v[after[opposite[e]]])', 'v[opposite[e]])'),
    ('v[after[opposite[e]]])', 'v[after[after[opposite[e]]]])'), ('return 11, e', 'return 11, opposite[e]'),
    ('v[e], v[after[e]], v[after[opposite[e]]]', 'v[e], v[after[after[e]]], v[after[opposite[e]]]'),
    ('if total <= 0:', 'if total < 0:'), ('if total <= 0:', 'if total <= 1:'), ('if total <= 0:', 'if total != total:'),
    ('range(1, len(q) - 1)', 'range(1, 2)'), ('range(1, len(q) - 1)', 'range(1, len(q) - 2)'), ('range(1, len(q) - 1)', 'range(2, len(q) - 1)'),
    ('return 0, len(corners)', 'return 0, len(points)'),
    # int overflow as in 32 bits
    ('    if total <= 0:', '    total = (total + 2**31) % 2**32 - 2**31\n    if total <= 0:'),
    ('    if total <= 0:', '    total = (total + 2**42) % 2**43 - 2**42\n    if total <= 0:'),
    ('    if total <= 0:', '    total = (total + 2**43) % 2**44 - 2**43\n    if total <= 0:'),
]


def block(source, number):
    """The lines of one check inside verdict."""
    lines = source.split('\n')
    at = [i for i, line in enumerate(lines) if line.startswith('    # %d: ' % number)][0]
    end = at + 1
    while end < len(lines) and not lines[end].startswith('    # ') and lines[end] != '    return 0, len(corners)':
        end += 1
    return at, end


def swapped(source, a, b):
    """Check b moved before check a (only where it can stand there)."""
    lines = source.split('\n')
    i, j = block(source, b)
    moved = lines[i:j]
    lines[i:j] = []
    at = block('\n'.join(lines), a)[0]
    lines[at:at] = moved
    return '\n'.join(lines)


def faulty(drawings, right):
    source = open(oracle.__file__).read()
    variants = []
    for old, new in FAULTS:
        assert old in source, old
        variants.append((repr(old) + ' -> ' + repr(new), source.replace(old, new, 1)))
    for a, b in [(1, 2), (2, 3), (3, 4), (3, 5), (4, 5), (5, 6), (2, 4), (2, 5), (2, 6), (3, 6), (4, 6), (6, 7), (8, 9), (10, 11), (10, 12), (11, 12)]:
        variants.append(('%d before %d' % (b, a), swapped(source, a, b)))
    weak = 0
    for name, text in variants:
        space = {'__name__': 'faulty'}
        exec(compile(text, name, 'exec'), space)
        differ = 0
        for t, r in zip(drawings, right):
            try:
                differ += space['verdict'](*t) != r
            except Exception:
                differ += 1
        weak += differ == 0
        print('%6d %s' % (differ, name.replace('\n', ' ')))
    print('%d faulty oracles, %d not told apart' % (len(variants), weak))


def congruent(a, b, images):
    """A laying by its points: edges keep their ends and faces, points their distances and side."""
    if sorted(images) != list(range(1, b.n + 1)) or a.n != b.n:
        return False
    to = {}
    for e, g in enumerate(images, 1):
        for p, q in zip(a.ends[e], b.ends[g]):
            if to.setdefault(p, q) != q:
                return False
    home = {}
    for e in b.after:
        if e not in home:
            k = e
            while k not in home:
                home[k] = e
                k = b.after[k]
    if any(home[images[e - 1]] != home[images[a.after[e] - 1]] for e in a.after):
        return False
    here = {p: a.points[p - 1] for p in to}
    there = {p: b.points[q - 1] for p, q in to.items()}
    apart = lambda at, p, q: sum(x * x for x in oracle.minus(at[p], at[q]))
    side = lambda at, p, q, r, s: oracle.vol(*(oracle.minus(at[x], at[p]) for x in (q, r, s)))
    p, q = a.ends[1]
    r = a.ends[a.after[1]][1]
    return (len(set(to.values())) == len(to)
            and all(apart(here, x, y) == apart(there, x, y) for x in to for y in to)
            and all(side(here, p, q, r, s) == side(there, p, q, r, s) for s in to))


class Checked(laying.Session):
    """A session whose layings are tried by their points too."""
    seen = Counter()

    def lay(self, kind):
        if self.before:
            right = laying.first_flaw('measure', self.before, self.last, self.images) is None
            assert right == congruent(self.before, self.last, self.images)
            self.seen[right] += 1
        return super().lay(kind)


LAYING_FAULTS = [
    ('        return \'length\', 0', '        return \'length\', 1'),
    ('image[e] == 0 or ', ''), (' or image[e] > b.n', ''), ('image[e] > b.n', 'image[e] > a.n'),
    ('image[e] > b.n', 'image[e] > b.n + 1'), ('image[e] > b.n', 'image[e] >= b.n'),
    ('return \'twice\', e', 'return \'twice\', images.index(image[e]) + 1'),
    ('return \'missed\', g', 'return \'missed\', a.n'),
    ('image[a.after[e]] != b.after[image[e]]', 'image[a.after[e]] != image[e]'),
    ('image[a.after[e]] != b.after[image[e]]', 'False'),
    ('image[a.opposite[e]] != b.opposite[image[e]]', 'False'),
    ('a.label(kind, e) != b.label(kind, image[e])', 'False'),
    ('a.label(kind, e) != b.label(kind, image[e])', 'a.label(kind, e) != b.label(kind, e)'),
    ('self.before, self.last = self.last, Block', 'self.last, self.before = self.last, Block'),
    ('if answer[0] == 0:', 'if True:'), ('images, self.images = self.images, []', 'images = self.images'),
    ('1 <= e <= self.last.n', '0 <= e <= self.last.n'), ('1 <= e <= self.last.n', '1 <= e < self.last.n'),
    ('first_flaw(kind, self.before, self.last, images)', 'first_flaw(kind, self.last, self.before, images)'),
    ('self.last.measure(e)', '(self.before or self.last).measure(min(e, (self.before or self.last).n))'),
    ('dot(v[e], v[e])', 'dot(v[b], v[b])'), ('dot(v[e], v[b])', 'dot(v[b2], v[b])'),
    ('dot(v[e], v[b2])', 'dot(v[b], v[b2])'), ('dot(v[e], v[c])', 'dot(v[b2], v[c])'),
    ('dot(v[b], v[c])', 'dot(v[b2], v[c])'), ('vol(v[e], v[b], v[c])', 'vol(v[b], v[e], v[c])'),
    ('vol(v[e], v[b], v[c])', 'abs(vol(v[e], v[b], v[c]))'),
    ('after[opposite[e]]', 'opposite[after[e]]'),
    ('return self.measure(e), self.mark[e]', 'return self.measure(e)'),
    ('return self.measure(e), self.mark[e]', 'return self.mark[e]'),
]


def faulty_layings(lines, expected):
    source = open(laying.__file__).read()
    weak = 0
    for old, new in LAYING_FAULTS:
        assert old in source, old
        space = {'__name__': 'faulty'}
        exec(compile(source.replace(old, new, 1), old, 'exec'), space)
        differ = 0
        try:
            differ = sum(x != y for x, y in zip(space['answers'](lines), expected))
        except (KeyError, IndexError):
            differ += 1
        weak += differ == 0
        print('%6d %r -> %r' % (differ, old, new))
    print('%d faulty layings, %d not told apart' % (len(LAYING_FAULTS), weak))


def layings(seed, count):
    story = make.Story(random.Random(seed))
    story.session = Checked()
    story.tell(count)
    print('by points: %d layings, %d of them congruences' % (sum(Checked.seen.values()), Checked.seen[True]))
    assert list(laying.answers(story.lines)) == story.expected
    faulty_layings(story.lines, story.expected)


if __name__ == '__main__':
    examples()
    print('examples: right')
    seed = int(sys.argv[1]) if len(sys.argv) > 1 else 1
    count = int(sys.argv[2]) if len(sys.argv) > 2 else 1500
    rng = random.Random(seed)
    drawings = [make.drawing(rng) for _ in range(count)]
    for t in drawings:
        other_way(*t)
    print('other way: %d drawings agree; sound ones by Euler number %s; volume just 0: %d'
          % (count, dict(ORIENT), ZERO[0]))
    faulty(drawings, [verdict(*t) for t in drawings])
    layings(seed, count)

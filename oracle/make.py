#!/usr/bin/env python3
"""make.py SEED COUNT [--expect FILE]: a stream of COUNT drawings on standard
output, some with label lines and layings after them, and the expected words
for programs of each answer in FILE.
make.py --sample [--expect FILE]: the short sample with comments."""
import argparse
import random
import sys

from laying import Block, Session, answers
from shapes import (BOX_FACES, Degenerate, LIMIT, WEDGE_FACES, bipyramid_of, convex_polygon, fits,
                    placed, prism_of, shape, wild)
from trials import HUGE, images_for, kind_of, label_number, second, walked
FAR = [9223372036854775807, -9223372036854775808]


# ------------------------------------------------- damage to a shape
def all_reversed(rng, s):
    return s[0], [f[::-1] for f in s[1]]


def mirrored(rng, s):
    d = rng.randrange(3)
    return [tuple(-x if i == d else x for i, x in enumerate(p)) for p in s[0]], s[1]


def no_volume(rng, s):
    """A prism over a closed line that cuts itself: any volume, often none."""
    if rng.random() < 0.5:
        w, h = rng.randint(1, 20), rng.randint(1, 20)
        line = [(0, 0), (w, h), (w, 0), (0, h)]
        if rng.random() < 0.3:
            line[0] = (rng.choice([-1, 1]), 0)
    else:
        line = wild(rng, rng.randint(4, 8))
    return prism_of(line, (rng.randint(-2, 2), rng.randint(-2, 2), rng.randint(1, 20)))


def face_reversed(rng, s):
    faces = [list(f) for f in s[1]]
    for _ in range(rng.choice([1, 1, 2])):
        k = rng.randrange(len(faces))
        faces[k] = faces[k][::-1]
    return s[0], faces


def face_dropped(rng, s):
    faces = list(s[1])
    faces.pop(rng.randrange(len(faces)))
    return s[0], faces


def face_twice(rng, s):
    f = list(rng.choice(s[1]))
    return s[0], list(s[1]) + [f[::-1] if rng.random() < 0.4 else f]


def corner_dropped(rng, s):
    faces = [list(f) for f in s[1]]
    f = rng.choice(faces)
    f.pop(rng.randrange(len(f)))
    return s[0], [f for f in faces if f]


def corner_twice(rng, s):
    faces = [list(f) for f in s[1]]
    f = rng.choice(faces)
    j = rng.randrange(len(f))
    f.insert(j, f[j])
    return s[0], faces


def corners_swapped(rng, s):
    faces = [list(f) for f in s[1]]
    f = rng.choice(faces)
    i, j = rng.sample(range(len(f)), 2) if len(f) > 1 else (0, 0)
    f[i], f[j] = f[j], f[i]
    return s[0], faces


def corner_renamed(rng, s):
    faces = [list(f) for f in s[1]]
    f = rng.choice(faces)
    f[rng.randrange(len(f))] = rng.randrange(len(s[0]))
    return s[0], faces


def face_of_two(rng, s):
    f = [rng.randrange(len(s[0])) for _ in range(rng.choice([1, 2, 2]))]
    faces = list(s[1])
    faces.insert(rng.randint(0, len(faces)), f)
    return s[0], faces


def faces_swapped(rng, s):
    faces = list(s[1])
    i, j = rng.randrange(len(faces)), rng.randrange(len(faces))
    faces[i], faces[j] = faces[j], faces[i]
    return s[0], faces


def names_swapped(rng, s):
    """Two points change places: the chains stay."""
    points = list(s[0])
    i, j = rng.randrange(len(points)), rng.randrange(len(points))
    points[i], points[j] = points[j], points[i]
    return points, s[1]


def merged(rng, s):
    """One point takes the place of another in all chains."""
    points, faces = list(s[0]), [list(f) for f in s[1]]
    for _ in range(rng.choice([1, 1, 2])):
        if len(points) < 5:
            break
        best = None
        for _ in range(8):
            a, b = rng.sample(range(len(points)), 2)
            near = [{q for f in faces if p in f for q in f} for p in (a, b)]
            best = (a, b)
            if not near[0] & near[1]:
                break
        a, b = best
        faces = [[a if i == b else i for i in f] for f in faces]
        last = len(points) - 1
        faces = [[b if i == last else i for i in f] for f in faces] if b != last else faces
        points[b] = points[last]
        points.pop()
    return points, faces


def spread(points, s):
    """The second shape numbered after the first one's points."""
    n = len(points)
    return [[i + n for i in f] for f in s[1]]


def beside(rng, s, inside_out=False):
    """A second block that shares no point."""
    t = shape(rng, small=True)
    faces = spread(s[0], t)
    if inside_out or rng.random() < 0.3:
        faces = [f[::-1] for f in faces]
    taken = set(s[0])
    points = list(t[0])
    for _ in range(30):
        if not taken & set(points):
            break
        step = [rng.randint(-50, 50) for _ in range(3)]
        points = [tuple(max(-LIMIT, min(LIMIT, a + b)) for a, b in zip(p, step)) for p in points]
    return list(s[0]) + points, list(s[1]) + faces


def sharing(rng, s):
    """A second block that shares one point (or a few)."""
    points, faces = beside(rng, s)
    n = len(s[0])
    for _ in range(rng.choice([1, 1, 1, 2])):
        if n >= len(points):
            break
        a, b = rng.randrange(n), rng.randrange(n, len(points))
        last = len(points) - 1
        faces = [[a if i == b else b if i == last else i for i in f] for f in faces]
        points[b] = points[last]
        points.pop()
    return points, faces


def reflected(rng, s):
    """A block and its reflection through one of its points."""
    points, faces = s
    a = rng.randrange(len(points))
    n = len(points)
    name = {}
    more = []
    for i, p in enumerate(points):
        if i == a:
            name[i] = a
        else:
            name[i] = n + len(more)
            more.append(tuple(2 * points[a][d] - p[d] for d in range(3)))
    turned = [[name[i] for i in f] for f in faces]
    if rng.random() < 0.5:
        turned = [f[::-1] for f in turned]
    return list(points) + more, list(faces) + turned


def split(rng, s):
    """A face of four or more cut into two level ones; or any into three."""
    points, faces = list(s[0]), [list(f) for f in s[1]]
    large = [k for k, f in enumerate(faces) if len(f) > 3]
    if not large or rng.random() < 0.2:
        k = rng.randrange(len(faces))
        f = faces.pop(k)
        n = len(points)
        points = [tuple(3 * x for x in p) for p in points]
        points.append(tuple(sum(points[i][d] for i in f[:3]) // 3 for d in range(3)))
        faces += [[f[i - 1], f[i], n] for i in range(len(f))]
        return points, faces
    k = rng.choice(large)
    f = faces[k]
    r = rng.randrange(len(f))
    f = f[r:] + f[:r]
    j = rng.randint(2, len(f) - 2)
    faces[k] = f[:j + 1]
    faces.insert(rng.randint(0, len(faces)), f[j:] + f[:1])
    return points, faces


def straight(rng, s):
    """A point in the middle of an edge."""
    points, faces = [tuple(2 * x for x in p) for p in s[0]], [list(f) for f in s[1]]
    f = rng.choice(faces)
    a, b = f[-1], f[0]
    n = len(points)
    points.append(tuple((x + y) // 2 for x, y in zip(points[a], points[b])))
    for g in faces:
        for i in range(len(g)):
            if {g[i - 1], g[i]} == {a, b}:
                g.insert(i, n)
                break
    return points, faces


def bent(rng, s):
    points = list(s[0])
    large = [i for f in s[1] if len(f) > 3 for i in f]
    for _ in range(rng.choice([1, 1, 1, 2])):
        i = rng.choice(large or range(len(points)))
        d = rng.randrange(3)
        step = rng.choice([1, -1, rng.randint(-20, 20)])
        points[i] = tuple(x + step if j == d else x for j, x in enumerate(points[i]))
    return points, s[1]


def same_place(rng, s):
    points = list(s[0])
    for _ in range(rng.choice([1, 1, 2, 3])):
        i, j = rng.sample(range(len(points)), 2)
        points[i] = points[j]
    return points, s[1]


def unnamed(rng, s):
    """One or more points that no corner names."""
    points, faces = list(s[0]), [list(f) for f in s[1]]
    for _ in range(rng.choice([1, 1, 2, 3])):
        i = rng.randint(0, len(points))
        p = rng.choice(points) if rng.random() < 0.5 else (
            tuple(rng.randint(-LIMIT, LIMIT) for _ in range(3)))
        points.insert(i, p)
        faces = [[k + (k >= i) for k in f] for f in faces]
    return points, faces


def unnamed_by_change(rng, s):
    """A point dropped from all chains, its neighbours stay."""
    faces = [list(f) for f in s[1]]
    a = rng.randrange(len(s[0]))
    if rng.random() < 0.5:
        b = rng.randrange(len(s[0]))
        faces = [[b if i == a else i for i in f] for f in faces]
    else:
        faces = [[i for i in f if i != a] for f in faces]
    return s[0], [f for f in faces if f]


def not_sided(rng, s):
    """Six points, ten triangles: a closed sheet with one side only."""
    six = [[0, 1, 2], [0, 2, 3], [0, 3, 4], [0, 4, 5], [0, 5, 1],
           [1, 2, 4], [2, 3, 5], [3, 4, 1], [4, 5, 2], [5, 1, 3]]
    points = set()
    while len(points) < 6:
        points.add(tuple(rng.randint(-30, 30) for _ in range(3)))
    return sorted(points), [f[::rng.choice([1, -1])] for f in six]


SHAPE_DAMAGE = {
    5: [unnamed, unnamed, unnamed_by_change],
    6: [same_place],
    7: [face_reversed, face_reversed, face_dropped, face_twice, corner_dropped, corner_twice,
        corners_swapped, corner_renamed, not_sided, merged],
    8: [merged, sharing, sharing, reflected],
    9: [beside],
    10: [bent],
    11: [split, split, straight],
    12: [all_reversed, mirrored, no_volume, names_swapped],
}


# ------------------------------------------------- storing
def store(rng, s):
    """The three tables: numbering, order and marks at random."""
    points, faces = list(s[0]), [list(f) for f in s[1]]
    if rng.random() < 0.6:
        order = list(range(len(points)))
        rng.shuffle(order)
        new = {old: i for i, old in enumerate(order)}
        points = [points[i] for i in order]
        faces = [[new[i] for i in f] for f in faces]
    if rng.random() < 0.5:
        rng.shuffle(faces)
        faces = [f[r:] + f[:r] for f in faces for r in [rng.randrange(max(1, len(f)))]]
    total = sum(len(f) for f in faces)
    slots = list(range(1, total + 1))
    r = rng.random()
    if r < 0.5:
        rng.shuffle(slots)
    elif r < 0.6:
        slots.reverse()
    style = rng.randrange(4)
    corners = [None] * total
    firsts = []
    k = 0
    for f in faces:
        own = slots[k:k + len(f)]
        k += len(f)
        firsts.append(own[0] if own else 0)
        for j, i in enumerate(f):
            mark = (0, 255, rng.randrange(256), k % 256)[style]
            corners[own[j] - 1] = (i + 1, mark, own[j + 1] if j + 1 < len(f) else 0)
    return points, corners, firsts


# ------------------------------------------------- damage to the tables
def bad_index(rng, count):
    return rng.choice([0, count + 1, count + 1, count + rng.randint(1, 9), HUGE, HUGE - 1,
                       1 << 32, 1 << 63, (1 << 32) + 1, rng.randint(1, max(1, count))])


def too_far(rng, t):
    points, corners, faces = t
    for _ in range(rng.choice([1, 1, 2, 3])):
        if points:
            i = rng.randrange(len(points))
            d = rng.randrange(3)
            x = rng.choice([8001, -8001, 8001, -8001, 8000, -8000, 9000, 65536, -65536,
                            4294967296, -4294967296 + 5] + FAR)
            points[i] = tuple(x if j == d else y for j, y in enumerate(points[i]))
    return points, corners, faces


def next_changed(rng, t):
    points, corners, faces = t
    for _ in range(rng.choice([1, 1, 2])):
        if corners:
            k = rng.randrange(len(corners))
            p, m, _n = corners[k]
            n = rng.choice([bad_index(rng, len(corners)), rng.randint(0, len(corners)), k + 1,
                            len(corners) + 1, HUGE])
            corners[k] = (p, m, n)
    return points, corners, faces


def first_changed(rng, t):
    points, corners, faces = t
    for _ in range(rng.choice([1, 1, 2])):
        if faces:
            faces[rng.randrange(len(faces))] = rng.choice(
                [bad_index(rng, len(corners)), 0, len(corners) + 1, rng.randint(0, len(corners))])
    return points, corners, faces


def chain_closed(rng, t):
    """The last corner of a chain leads back into it."""
    points, corners, faces = t
    f = rng.choice(faces) if faces else 0
    own = []
    while 0 < f <= len(corners) and f not in own:
        own.append(f)
        f = corners[f - 1][2]
    if own:
        p, m, _n = corners[own[-1] - 1]
        corners[own[-1] - 1] = (p, m, rng.choice(own))
    return points, corners, faces


def chain_cut(rng, t):
    """A chain ends early: corners that no chain meets, or a short chain."""
    points, corners, faces = t
    if corners:
        k = rng.randrange(len(corners))
        corners[k] = (corners[k][0], corners[k][1], 0)
    return points, corners, faces


def first_later(rng, t):
    """A face begins one corner later."""
    points, corners, faces = t
    if faces:
        k = rng.randrange(len(faces))
        if 0 < faces[k] <= len(corners):
            faces[k] = corners[faces[k] - 1][2]
    return points, corners, faces


def loose_corner(rng, t):
    points, corners, faces = t
    for _ in range(rng.choice([1, 1, 3])):
        corners.append((rng.randint(0, len(points) + 1), rng.randrange(256),
                        rng.choice([0, 0, len(corners) + 1, rng.randint(0, len(corners) + 1), HUGE])))
    return points, corners, faces


def face_again(rng, t):
    points, corners, faces = t
    if faces:
        faces.insert(rng.randint(0, len(faces)), rng.choice(faces))
    return points, corners, faces


def face_gone(rng, t):
    points, corners, faces = t
    if faces:
        faces.pop(rng.randrange(len(faces)))
    return points, corners, faces


def no_point(rng, t):
    points, corners, faces = t
    for _ in range(rng.choice([1, 1, 2, 3])):
        if corners:
            k = rng.randrange(len(corners))
            corners[k] = (rng.choice([0, 0, len(points) + 1, len(points) + 1, HUGE, 1 << 32,
                                      (1 << 32) + 1, 1 << 63]), corners[k][1], corners[k][2])
    return points, corners, faces


def record_dropped(rng, t):
    table = rng.choice([x for x in t if x] or [[0]])
    table.pop(rng.randrange(len(table)))
    return t


def record_twice(rng, t):
    table = rng.choice([x for x in t if x] or [[0]])
    table.insert(rng.randint(0, len(table)), rng.choice(table))
    return t


def record_changed(rng, t):
    points, corners, faces = t
    kind = rng.randrange(3)
    if kind == 0:
        return too_far(rng, t)
    if kind == 1 and corners:
        k = rng.randrange(len(corners))
        p, m, n = corners[k]
        which = rng.randrange(3)
        if which == 0:
            p = rng.choice([bad_index(rng, len(points)), rng.randint(0, len(points) + 1)])
        elif which == 1:
            m = rng.choice([0, 255, rng.randrange(256)])
        else:
            n = bad_index(rng, len(corners))
        corners[k] = (p, m, n)
        return t
    return first_changed(rng, t)


def point_changed(rng, t):
    points, corners, faces = t
    if points:
        points[rng.randrange(len(points))] = rng.choice(
            [rng.choice(points), tuple(rng.choice([0, LIMIT, -LIMIT, 1]) for _ in range(3)),
             tuple(rng.randint(-LIMIT, LIMIT) for _ in range(3))])
    return t


def table_empty(rng, t):
    t = list(t)
    for _ in range(rng.choice([1, 1, 2, 3])):
        t[rng.randrange(3)] = []
    return tuple(t)


def table_short(rng, t):
    k = rng.randrange(3)
    least = (4, 12, 4)[k]
    t = list(t)
    t[k] = t[k][:least - rng.choice([0, 1, 1, 1, 2, 3])]
    return tuple(t)


def table_long(rng, t):
    """Filled up to the limit, one more, or many more."""
    points, corners, faces = (list(x) for x in t)
    for k in rng.sample(range(3), rng.choice([1, 1, 2])):
        most = (160, 480, 160)[k]
        goal = most + rng.choice([0, 1, 1, 1, 2, rng.randint(1, 300)])
        if rng.random() < 0.01:
            goal = rng.choice([5000, 20000])
        table = (points, corners, faces)[k]
        while len(table) < goal:
            if k == 0:
                table.append(tuple(rng.randint(-LIMIT, LIMIT) for _ in range(3)))
            elif k == 1:
                table.append((rng.randint(1, max(1, len(points))), rng.randrange(256),
                              rng.choice([0, len(table) + 2])))
            else:
                table.append(rng.randint(1, max(1, len(corners))))
    return points, corners, faces


TABLE_DAMAGE = {
    1: [table_empty, table_short, table_short, table_long, table_long, table_long],
    2: [too_far],
    3: [next_changed, first_changed, chain_closed, chain_cut, loose_corner, face_again, face_gone,
        first_later],
    4: [no_point],
}
ANY_TABLE = [record_dropped, record_dropped, record_twice, record_changed, record_changed,
             point_changed, too_far, next_changed, first_changed, chain_closed, chain_cut,
             loose_corner, face_again, face_gone, no_point, table_short, first_later]
ANY_SHAPE = [f for fs in SHAPE_DAMAGE.values() for f in fs] + [face_of_two, faces_swapped]


# ------------------------------------------------- drawings
def refit(rng, s):
    """After scaling or joining: back inside the limits if it can be."""
    try:
        if max(abs(x) for p in s[0] for x in p) > LIMIT:
            return placed(rng, s)
    except (Degenerate, ValueError):
        pass
    return s


def oversized(rng):
    """A well-made block, too large for the tables."""
    kind = rng.randrange(3)
    n = rng.choice([81, 81, 90, 150])
    if kind == 0:
        s = prism_of(convex_polygon(rng, n), (0, 0, 10))
    elif kind == 1:
        s = bipyramid_of(convex_polygon(rng, n))
    else:
        m = rng.choice([121, 130, 160])
        points = [(x, y, 0) for x, y in convex_polygon(rng, m)] + [(0, 0, 9)]
        s = points, [list(range(m - 1, -1, -1))] + [[i, (i + 1) % m, m] for i in range(m)]
    return store(rng, s)


def with_damage(rng, numbers):
    """A drawing with damage meant for these refusals."""
    s = shape(rng)
    table_numbers = [n for n in numbers if n in TABLE_DAMAGE]
    for n in sorted((n for n in numbers if n in SHAPE_DAMAGE), reverse=True):
        d = rng.choice(SHAPE_DAMAGE[n])
        s = refit(rng, d(rng, s))
    if not fits(s) and 1 not in numbers and rng.random() < 0.9:
        return with_damage(rng, numbers)
    t = store(rng, s)
    for n in sorted(table_numbers, reverse=True):
        if n == 3 and rng.random() < 0.15:
            t = store(rng, face_of_two(rng, s))
            continue
        t = rng.choice(TABLE_DAMAGE[n])(rng, t)
    return t


def drawing(rng):
    r = rng.random()
    if r < 0.25:
        return store(rng, shape(rng))
    if r < 0.60:
        return with_damage(rng, [rng.randint(1, 12)])
    if r < 0.80:
        return with_damage(rng, rng.sample(range(1, 13), rng.choice([2, 2, 3, 4])))
    if r < 0.81:
        return oversized(rng)
    s = shape(rng)
    for _ in range(rng.choice([0, 1, 1, 2])):
        if s[1] and all(s[1]):
            s = refit(rng, rng.choice(ANY_SHAPE)(rng, s))
    t = store(rng, s)
    for _ in range(rng.choice([0, 0, 1, 1, 2, 3])):
        t = rng.choice(ANY_TABLE)(rng, t)
    return t


# ------------------------------------------------- writing
def records(rng, t):
    """The lines of a drawing: table by table, or mixed."""
    points, corners, faces = t
    tables = [['p %d %d %d' % tuple(p) for p in points],
              ['c %d %d %d' % tuple(c) for c in corners],
              ['f %d' % f for f in faces]]
    r = rng.random()
    if r < 0.15:
        which = [k for k in range(3) for _ in tables[k]]
        rng.shuffle(which)
        heads = [iter(x) for x in tables]
        lines = [next(heads[k]) for k in which]
    else:
        if r < 0.25:
            rng.shuffle(tables)
        lines = [line for table in tables for line in table]
    return lines


REMARKS = ['', '', '#', '# a remark', '#check', '# p 1 2 3', '#p 1 2 3', '####', '# f 1', '']


def text(rng, t, number):
    lines = records(rng, t) + ['check']
    if rng.random() < 0.3:
        lines.insert(0, '# drawing %d' % number)
    if rng.random() < 0.3:
        for _ in range(rng.randint(1, 4)):
            lines.insert(rng.randint(0, len(lines)), rng.choice(REMARKS))
    return lines


# ------------------------------------------------- a stream
def mixed(rng, first, more):
    """Both lists of lines, each in its order."""
    which = [0] * len(first) + [1] * len(more)
    rng.shuffle(which)
    heads = iter(first), iter(more)
    return [next(heads[k]) for k in which]


class Story:
    """Drawings, labels and layings one after another, with the answers to expect."""

    def __init__(self, rng):
        self.rng = rng
        self.session = Session()
        self.number = 0
        self.lines = []
        self.expected = []

    def draw(self, t, images=()):
        """A drawing with its check, and images before, among or after its lines."""
        self.number += 1
        lines = text(self.rng, t, self.number)
        hand = ['i %d' % g for g in images]
        r = self.rng.random()
        if r < 0.1:
            lines = hand + lines
        elif r < 0.2:
            lines = mixed(self.rng, hand, lines)
        else:
            lines = lines + hand
        self.session.images += images
        self.lines += lines
        self.expected.append(self.session.check(*t))
        return self.expected[-1].startswith('check 0 ')

    def label(self):
        e = label_number(self.rng, self.session.last)
        self.lines.append('label %d' % e)
        self.expected.append(self.session.label(e))

    def lay(self, kind):
        self.lines.append('lay ' + kind)
        self.expected.append(self.session.lay(kind))

    def lay_again(self, known):
        """Images for the last two sound drawings, now and then with some left from before."""
        kind = kind_of(self.rng)
        images = images_for(self.rng, kind, self.session.before, self.session.last, known)
        self.session.images += images
        self.lines += ['i %d' % g for g in images]
        if self.rng.random() < 0.97:
            self.lay(kind if self.rng.random() < 0.8 else kind_of(self.rng))

    def pair(self, t):
        """A second drawing after the sound drawing t, and layings of t onto it."""
        s, known = second(self.rng, t)
        kind = kind_of(self.rng)
        self.draw(s, images_for(self.rng, kind, self.session.last, Block(*s), known))
        self.lay(kind)
        while self.rng.random() < 0.5:
            self.lay_again(known)

    def tell(self, count):
        self.label()
        self.session.images.append(1)
        self.lines.append('i 1')
        self.lay('both')
        while self.number < count:
            t = drawing(self.rng)
            sound = self.draw(t)
            while self.rng.random() < (0.5 if sound else 0.1):
                self.label()
            if not sound:
                continue
            if self.session.before is None:
                self.lay('measure')
            if self.number < count and self.rng.random() < 0.7:
                self.pair(t)
            elif self.session.before and self.rng.random() < 0.6:
                self.lay_again(None)


# ------------------------------------------------- the sample
BOX = [(0, 0, 0), (10, 0, 0), (10, 20, 0), (0, 20, 0),
       (0, 0, 30), (10, 0, 30), (10, 20, 30), (0, 20, 30)]
WEDGE = [(0, 0, 0), (10, 0, 0), (0, 20, 0), (0, 0, 30)]


def plain(points, faces):
    """Stored in order, marks 0."""
    corners, firsts = [], []
    for f in faces:
        firsts.append(len(corners) + 1)
        for j, i in enumerate(f):
            corners.append((i + 1, 0, 0 if j + 1 == len(f) else len(corners) + 2))
    return list(points), corners, firsts


def sample():
    """A remark, the tables it speaks of, and the lines after their check."""
    box, wedge = plain(BOX, BOX_FACES), plain(WEDGE, WEDGE_FACES)
    each = ['i %d' % e for e in range(1, 25)]
    turn = ['i %d' % g for g in walked(Block(*box), Block(*box), 2)]
    result = [('A sound box, 10 x 20 x 30.', box,
               ['label 1', '', '# The box has the edges 1 to 24.', 'label 25']),
              ('The box once more: each edge lies on itself.', box,
               each + ['lay both', '', '# A quarter turn of the box about its height: an edge of 20 lies on one of 10.']
               + turn + ['lay measure', '', '# All marks of the box are 0, so that its marks stand the turn.']
               + turn + ['lay mark']),
              ('A sound wedge, which has fewer edges than the box.', wedge,
               ['label 10'] + each + ['lay measure'])]
    return result + [(remark, t, []) for remark, t in refused_sample()]


def refused_sample():
    """Pairs of a remark and tables that are refused, one for each check."""
    w = WEDGE_FACES
    result = []
    result.append(('A wedge whose fourth face is missing: three faces are too few.',
                   plain(WEDGE, w[:3])))
    result.append(('A wedge whose point 4 lies too high.', plain(WEDGE[:3] + [(0, 0, 8001)], w)))
    p, c, f = plain(WEDGE, w)
    c[8] = (c[8][0], 0, 10)
    result.append(('A wedge whose third chain does not end: corner 9 goes on to corner 10,\n'
                   'which the fourth face then meets again.', (p, c, f)))
    p, c, f = plain(WEDGE, w)
    c[11] = (5, 0, 0)
    result.append(('A wedge whose last corner names point 5, and there are four.', (p, c, f)))
    result.append(('A wedge with a point 5 that no corner names.', plain(WEDGE + [(5, 5, 5)], w)))
    result.append(('A wedge whose point 4 lies where point 1 lies.',
                   plain(WEDGE[:3] + [(0, 0, 0)], w)))
    result.append(('A wedge whose fourth chain runs the wrong way round: edges 2 and 12 both run\n'
                   'from point 3 to point 2.', plain(WEDGE, w[:3] + [[1, 3, 2]])))
    result.append(('Two wedges that touch in point 1 only.',
                   plain(WEDGE + [tuple(-x for x in q) for q in WEDGE[1:]],
                         w + [[0, 4, 5], [0, 6, 4], [0, 5, 6], [6, 5, 4]])))
    result.append(('Two wedges that do not touch: the second begins with edge 13.',
                   plain(WEDGE + [(x + 100, y, z) for x, y, z in WEDGE],
                         w + [[i + 4 for i in g] for g in w])))
    result.append(('A pyramid on four points whose base is bent: point 3 lies 1 too high.',
                   plain([(0, 0, 0), (10, 0, 0), (10, 10, 1), (0, 10, 0), (5, 5, 10)],
                         [[0, 3, 2, 1], [0, 1, 4], [1, 2, 4], [2, 3, 4], [3, 0, 4]])))
    result.append(('A wedge with a straight corner: point 5 lies in the middle of the edge from\n'
                   'point 1 to point 2.',
                   plain(WEDGE + [(5, 0, 0)], [[0, 2, 1, 4], [0, 4, 1, 3], [0, 3, 2], [1, 2, 3]])))
    result.append(('A wedge with all chains the wrong way round: it is inside out.',
                   plain(WEDGE, [g[::-1] for g in w])))
    return result


def sample_lines():
    lines = []
    for n, (remark, t, after) in enumerate(sample()):
        lines += [''] if n else []
        lines += ['# ' + line for line in remark.split('\n')]
        points, corners, faces = t
        lines += ['p %d %d %d' % p for p in points]
        lines += ['c %d %d %d' % c for c in corners]
        lines += ['f %d' % f for f in faces]
        lines += ['check'] + after
    return lines


def main():
    parser = argparse.ArgumentParser()
    parser.add_argument('seed', nargs='?', type=int, default=1)
    parser.add_argument('count', nargs='?', type=int, default=100)
    parser.add_argument('--expect')
    parser.add_argument('--sample', action='store_true')
    options = parser.parse_args()
    if options.sample:
        lines = sample_lines()
        expected = list(answers(lines))
    else:
        story = Story(random.Random(options.seed))
        story.tell(options.count)
        lines, expected = story.lines, story.expected
    sys.stdout.write('\n'.join(lines) + '\n')
    if options.expect:
        with open(options.expect, 'w') as expect:
            expect.write('\n'.join(expected) + '\n')


if __name__ == '__main__':
    main()

"""Shapes of many kinds, as (points, faces): points are integer triples, faces
are lists of point indices from 0, anticlockwise seen from outside."""
from math import gcd, atan2, sqrt
from oracle import vol, minus

LIMIT = 8000


class Degenerate(Exception):
    pass


# ---------------------------------------------------------------- polygons
def area2(polygon):
    return sum(polygon[i - 1][0] * polygon[i][1] - polygon[i][0] * polygon[i - 1][1]
               for i in range(len(polygon)))


def anticlockwise(polygon):
    return polygon if area2(polygon) >= 0 else polygon[::-1]


def convex_polygon(rng, n):
    """Exactly n corners, none straight."""
    even = n + n % 2
    reach = 1
    half = []
    while len(half) < even // 2:
        reach += 1
        half = [(a, b) for a in range(-reach, reach + 1) for b in range(reach + 1)
                if gcd(a, b) == 1 and (b > 0 or a > 0)]
    if rng.random() < 0.5:
        reach += 1
        half = [(a, b) for a in range(-reach, reach + 1) for b in range(reach + 1)
                if gcd(a, b) == 1 and (b > 0 or a > 0)]
    chosen = rng.sample(half, even // 2)
    steps = chosen + [(-a, -b) for a, b in chosen]
    steps.sort(key=lambda s: atan2(s[1], s[0]))
    if n % 2:
        i = rng.randrange(len(steps) - 1)
        steps[i:i + 2] = [(steps[i][0] + steps[i + 1][0], steps[i][1] + steps[i + 1][1])]
    x = y = 0
    polygon = []
    for a, b in steps:
        polygon.append((x, y))
        x, y = x + a, y + b
    return polygon


def parabola(rng, n):
    low = -(n // 2)
    return [(t, t * t) for t in range(low, low + n)]


def staircase(rng, steps):
    polygon = [(0, 0)]
    xs = sorted(rng.sample(range(1, 10 * steps + 10), steps))
    ys = sorted(rng.sample(range(1, 10 * steps + 10), steps), reverse=True)
    polygon.append((xs[-1], 0))
    for i in range(steps - 1, -1, -1):
        polygon.append((xs[i], ys[i]))
        if i > 0:
            polygon.append((xs[i - 1], ys[i]))
    polygon.append((0, ys[0]))
    return anticlockwise(polygon)


def ell(rng, _n=0):
    return staircase(rng, 2)


def comb(rng, teeth):
    top = []
    x = 0
    for _ in range(teeth):
        width, gap = rng.randint(1, 9), rng.randint(1, 9)
        high, low = rng.randint(20, 40), rng.randint(5, 15)
        top += [(x, low), (x, high), (x + width, high), (x + width, low)]
        x += width + gap
    top = [(top[0][0], 0)] + top[1:-1] + [(top[-1][0], 0)]
    return anticlockwise(top)


def star_shaped(rng, n, reach=100):
    """A simple polygon that winds once round the origin."""
    for _ in range(50):
        directions = {}
        while len(directions) < n:
            x, y = rng.randint(-reach, reach), rng.randint(-reach, reach)
            if (x, y) != (0, 0):
                g = gcd(x, y)
                directions[(x // g, y // g)] = (x, y)
        polygon = sorted(directions.values(), key=lambda p: atan2(p[1], p[0]))
        if all(cross(polygon[i - 1], polygon[i]) > 0 for i in range(n)):
            return polygon
    raise Degenerate


def cross(p, q):
    return p[0] * q[1] - p[1] * q[0]


def wild(rng, n):
    """Any closed line, may cut itself."""
    reach = rng.choice([3, 10, 100])
    if n > 30 and reach < 10:
        reach = 10
    points = set()
    while len(points) < n:
        points.add((rng.randint(-reach, reach), rng.randint(-reach, reach)))
    points = sorted(points)
    rng.shuffle(points)
    return anticlockwise(points)


def any_polygon(rng, most):
    kind = rng.choice(['convex', 'convex', 'parabola', 'stairs', 'ell', 'comb', 'star'])
    n = size(rng, 3, most)
    if kind == 'convex':
        return convex_polygon(rng, n)
    if kind == 'parabola':
        return parabola(rng, n)
    if kind == 'stairs' and most >= 6:
        return staircase(rng, max(2, (n - 2) // 2))
    if kind == 'ell' and most >= 6:
        return ell(rng)
    if kind == 'comb' and most >= 8:
        return comb(rng, max(2, n // 4))
    return star_shaped(rng, n)


def size(rng, low, high):
    """Mostly small, now and then large or the very largest."""
    r = rng.random()
    if r < 0.75:
        return rng.randint(low, min(high, low + 5))
    if r < 0.95:
        return rng.randint(low, min(high, low + 30))
    if r < 0.98:
        return rng.randint(low, high)
    return high


# ---------------------------------------------------------------- shapes
def box(rng):
    a, b, c = (rng.choice([1, 2, 10, rng.randint(1, 500), rng.randint(1, 8000)]) for _ in range(3))
    points = [(0, 0, 0), (a, 0, 0), (a, b, 0), (0, b, 0),
              (0, 0, c), (a, 0, c), (a, b, c), (0, b, c)]
    return points, BOX_FACES


BOX_FACES = [[0, 3, 2, 1], [4, 5, 6, 7], [0, 1, 5, 4], [1, 2, 6, 5], [2, 3, 7, 6], [3, 0, 4, 7]]
WEDGE_FACES = [[0, 2, 1], [0, 1, 3], [0, 3, 2], [1, 2, 3]]


def wedge(rng):
    reach = rng.choice([1, 5, 100, 8000])
    while True:
        points = [tuple(rng.randint(-reach, reach) for _ in range(3)) for _ in range(4)]
        d = vol(*(minus(p, points[0]) for p in points[1:]))
        if d > 0:
            return points, WEDGE_FACES
        if d < 0:
            points[2], points[3] = points[3], points[2]
            return points, WEDGE_FACES


def thin(rng):
    """A wedge of the least volume there is, with far points."""
    rows = [[1, 0, 0], [0, 1, 0], [0, 0, 1]]
    reach = rng.choice([10, 1000, LIMIT])
    for _ in range(40):
        i, j = rng.sample(range(3), 2)
        k = rng.choice([-3, -2, -1, 1, 2, 3])
        row = [a + k * b for a, b in zip(rows[i], rows[j])]
        if max(abs(x) for x in row) <= reach:
            rows[i] = row
    return [(0, 0, 0)] + [tuple(r) for r in rows], WEDGE_FACES


def prism_of(polygon, step):
    n = len(polygon)
    bottom = [(x, y, 0) for x, y in polygon]
    top = [(x + step[0], y + step[1], step[2]) for x, y in polygon]
    faces = [list(range(n - 1, -1, -1)), list(range(n, 2 * n))]
    faces += [[i, (i + 1) % n, n + (i + 1) % n, n + i] for i in range(n)]
    return bottom + top, faces


def prism(rng, most=80):
    step = (0, 0, rng.randint(1, 100))
    if rng.random() < 0.4:
        step = (rng.randint(-30, 30), rng.randint(-30, 30), step[2])
    return prism_of(any_polygon(rng, most), step)


def frustum(rng, most=80):
    polygon = any_polygon(rng, min(most, 60))
    n = len(polygon)
    low, high = rng.sample([1, 2, 3], 2)
    if rng.random() < 0.1:
        high = -high
    h, dx, dy = rng.randint(1, 100), rng.randint(-20, 20), rng.randint(-20, 20)
    points = [(low * x, low * y, 0) for x, y in polygon]
    points += [(high * x + dx, high * y + dy, h) for x, y in polygon]
    return points, prism_of(polygon, (0, 0, 1))[1]


def pyramid(rng, most=120):
    polygon = any_polygon(rng, most)
    n = len(polygon)
    apex = (rng.randint(-50, 50), rng.randint(-50, 50), rng.randint(1, 100))
    points = [(x, y, 0) for x, y in polygon] + [apex]
    return points, [list(range(n - 1, -1, -1))] + [[i, (i + 1) % n, n] for i in range(n)]


def bipyramid(rng, most=80):
    polygon = any_polygon(rng, most)
    n = len(polygon)
    points = [(x, y, 0) for x, y in polygon]
    if rng.random() < 0.3:
        points = [(x, y, rng.randint(-3, 3)) for x, y in polygon]
    points += [(rng.randint(-9, 9), rng.randint(-9, 9), s * rng.randint(5, 100)) for s in (1, -1)]
    faces = [[i, (i + 1) % n, n] for i in range(n)]
    faces += [[(i + 1) % n, i, n + 1] for i in range(n)]
    return points, faces


def octahedron(rng):
    a, b, c = (rng.randint(1, 300) for _ in range(3))
    points = [(a, 0, 0), (0, b, 0), (-a, 0, 0), (0, -b, 0), (0, 0, c), (0, 0, -c)]
    return points, [[i, (i + 1) % 4, 4] for i in range(4)] + [[(i + 1) % 4, i, 5] for i in range(4)]


def hull(points):
    """The faces of the convex hull of points in general position."""
    start = vol(*(minus(p, points[0]) for p in points[1:4]))
    if start == 0:
        raise Degenerate
    faces = [list(f) for f in WEDGE_FACES]
    if start < 0:
        faces = [f[::-1] for f in faces]
    for k in range(4, len(points)):
        visible, hidden = [], []
        for f in faces:
            a, b, c = (points[i] for i in f)
            d = vol(minus(b, a), minus(c, a), minus(points[k], a))
            if d == 0:
                raise Degenerate
            (visible if d > 0 else hidden).append(f)
        rim = {(f[i - 1], f[i]) for f in visible for i in range(3)}
        faces = hidden + [[a, b, k] for a, b in rim if (b, a) not in rim]
    return used(points, faces)


def used(points, faces):
    """Without the points that no face names."""
    names = sorted({i for f in faces for i in f})
    new = {old: i for i, old in enumerate(names)}
    return [points[i] for i in names], [[new[i] for i in f] for f in faces]


def ball(rng, most=82):
    n = size(rng, 4, most)
    radius = rng.choice([30, 300, 2000, 7999])
    for _ in range(20):
        points = set()
        tries = 0
        while len(points) < n and tries < 50 * n:
            tries += 1
            v = [rng.gauss(0, 1) for _ in range(3)]
            length = sqrt(sum(x * x for x in v))
            points.add(tuple(round(radius * x / length) for x in v))
        points = sorted(points)
        rng.shuffle(points)
        try:
            return hull(points)
        except Degenerate:
            radius = 7999
    raise Degenerate


def cyclic(rng):
    n = size(rng, 4, 41)
    points = [(t, t * t, t ** 3) for t in rng.sample(range(-20, 21), n)]
    return hull(points)


def ring(rng, most=480):
    """A polygon round the origin times a cross-section without level sides."""
    sides = rng.choice([3, 4, 4, 4, 5, 6, rng.randint(3, 30)])
    if sides == 4 and rng.random() < 0.7:
        a, b = rng.randint(1, 40), rng.randint(1, 40)
        polygon = [(a, b), (-a, b), (-a, -b), (a, -b)]
    else:
        polygon = star_shaped(rng, sides, 35)
    parts = rng.choice([3, 4, 4, 5, 6])
    if rng.random() < 0.1:
        parts = min(160 // len(polygon), 120 // len(polygon))
    while 4 * parts * len(polygon) > most:
        parts -= 1
    if parts < 3:
        raise Degenerate
    section = star_shaped(rng, parts)
    low = min(r for r, _ in section)
    section = [(r - low + 10, z) for r, z in section]
    if rng.random() < 0.5:
        a, b = rng.randint(2, 9), rng.randint(1, 9)
        section = [(a, 0), (a + b, b), (a, 2 * b), (max(1, a - b), b)]
        if a == b:
            raise Degenerate
    if any(section[i - 1][1] == section[i][1] for i in range(len(section))):
        raise Degenerate
    return sweep(polygon, section)


def sweep(polygon, section):
    n, m = len(polygon), len(section)
    points = [(r * x, r * y, z) for x, y in polygon for r, z in section]
    faces = []
    for i in range(n):
        for j in range(m):
            k, l = (i + 1) % n, (j + 1) % m
            faces.append([i * m + j, k * m + j, k * m + l, i * m + l])
    return points, faces


SEVEN = ([[i, (i + 1) % 7, (i + 3) % 7] for i in range(7)]
         + [[i, (i + 3) % 7, (i + 2) % 7] for i in range(7)])


def mesh(rng):
    """Triangles, closed, with points anywhere (faces may cut through each other)."""
    faces = [list(f) for f in rng.choice([SEVEN, WEDGE_FACES, SEVEN])]
    for _ in range(rng.choice([0, 0, 1, 1, 2, 3])):
        more = [list(f) for f in rng.choice([SEVEN, WEDGE_FACES])]
        faces = glue(rng, faces, more)
    for _ in range(rng.choice([0, 1, 5])):
        if len(faces) <= 156:
            f = faces.pop(rng.randrange(len(faces)))
            n = 1 + max(max(g) for g in faces + [f])
            faces += [[f[0], f[1], n], [f[1], f[2], n], [f[2], f[0], n]]
    n = 1 + max(max(f) for f in faces)
    reach = rng.choice([2, 4, 20, 1000, 8000])
    points = set()
    while len(points) < n:
        points.add(tuple(rng.randint(-reach, reach) for _ in range(3)))
    points = sorted(points)
    rng.shuffle(points)
    if volume((points, faces)) < 0:
        faces = [f[::-1] for f in faces]
    return points, faces


def glue(rng, faces, more):
    """Both without one triangle, sewn together along it."""
    a = faces.pop(rng.randrange(len(faces)))
    b = more.pop(rng.randrange(len(more)))
    n = 1 + max(max(f) for f in faces + [a])
    name = {b[0]: a[0], b[1]: a[2], b[2]: a[1]}
    for f in more:
        for i in f:
            if i not in name:
                name[i] = n
                n += 1
    return faces + [[name[i] for i in f] for f in more]


def volume(shape):
    points, faces = shape
    return sum(vol(points[f[0]], points[f[i]], points[f[i + 1]])
               for f in faces for i in range(1, len(f) - 1))


def spiked(rng, shape):
    """A face of the shape drawn out, or pushed in, to a new point."""
    points, faces = shape
    k = rng.randrange(len(faces))
    f = faces[k]
    middle = [sum(points[i][d] for i in f) // len(f) for d in range(3)]
    apex = tuple(m + rng.randint(-9, 9) for m in middle)
    n = len(points)
    rest = faces[:k] + faces[k + 1:]
    return points + [apex], rest + [[f[i - 1], f[i], n] for i in range(len(f))]


def cut(rng, shape):
    """A corner where three faces meet is cut off, a third of the way (or so)."""
    points, faces = shape
    factor = rng.randint(3, 5)
    points = [tuple(factor * x for x in p) for p in points]
    if max(abs(x) for p in points for x in p) > 2 * LIMIT:
        raise Degenerate
    for _ in range(rng.randint(1, 2)):
        degree = [sum(f.count(i) for f in faces) for i in range(len(points))]
        three = [i for i, d in enumerate(degree) if d == 3]
        if not three:
            break
        p = rng.choice(three)
        ends = {}
        for f in faces:
            if p in f:
                j = f.index(p)
                ends[f[j - 1]] = f[(j + 1) % len(f)]
        # going round p from outside, as the faces do: before -> after
        new = {}
        for q in ends:
            step = minus(points[q], points[p])
            g = gcd(gcd(step[0], step[1]), step[2])
            if g < 2:
                return points, faces
            part = rng.randint(1, g - 1)
            new[q] = tuple(points[p][d] + step[d] // g * part for d in range(3))
        number = {}
        points = list(points)
        for n, q in enumerate(new):
            if n == 0:
                points[p] = new[q]
                number[q] = p
            else:
                number[q] = len(points)
                points.append(new[q])
        result = []
        for f in faces:
            if p in f:
                j = f.index(p)
                f = f[:j] + [number[f[j - 1]], number[f[(j + 1) % len(f)]]] + f[j + 1:]
            result.append(f)
        q = next(iter(ends))
        around = [q, ends[q], ends[ends[q]]]
        result.append([number[a] for a in around[::-1]])
        faces = result
    return points, faces


# ---------------------------------------------------------------- placing
def turns():
    """The 24 turns of the cube and their 24 mirror images."""
    from itertools import permutations, product
    result = []
    for perm in permutations(range(3)):
        for signs in product((1, -1), repeat=3):
            rows = [tuple(signs[r] if c == perm[r] else 0 for c in range(3)) for r in range(3)]
            result.append(rows)
    return result


TURNS = turns()


def moved(rng, shape):
    """Turned, sheared, scaled and shifted; never mirrored inside out."""
    points, faces = shape
    if rng.random() < 0.5:
        rows = rng.choice(TURNS)
        points = [apply(rows, p) for p in points]
        if vol(*rows) < 0:
            faces = [f[::-1] for f in faces]
    if rng.random() < 0.25:
        rows = rng.choice([[(1, 1, 0), (0, 1, 0), (0, 0, 1)], [(1, 0, 0), (0, 1, 0), (2, 1, 1)],
                           [(2, -1, 2), (2, 2, -1), (-1, 2, 2)], [(3, -4, 0), (4, 3, 0), (0, 0, 5)],
                           [(1, 0, -1), (0, 1, 1), (1, 0, 0)]])
        assert vol(*rows) > 0
        points = [apply(rows, p) for p in points]
    return placed(rng, (points, faces))


def apply(rows, p):
    return tuple(r[0] * p[0] + r[1] * p[1] + r[2] * p[2] for r in rows)


def placed(rng, shape):
    """Inside the limits, now and then touching them."""
    points, faces = shape
    low = [min(p[d] for p in points) for d in range(3)]
    high = [max(p[d] for p in points) for d in range(3)]
    if max(h - l for h, l in zip(high, low)) > 2 * LIMIT:
        raise Degenerate
    r = rng.random()
    if r < 0.1:
        g = min(2 * LIMIT // max(1, h - l) for h, l in zip(high, low))
        if g > 1:
            g = rng.randint(2, g) if rng.random() < 0.5 else g
            return placed(rng, ([tuple(g * x for x in p) for p in points], faces))
    shift = []
    for l, h in zip(low, high):
        least, most = -LIMIT - l, LIMIT - h
        s = 0 if rng.random() < 0.6 else rng.choice([least, most, rng.randint(least, most)])
        shift.append(min(max(s, least), most))
    return [tuple(p[d] + shift[d] for d in range(3)) for p in points], faces


def fits(shape):
    points, faces = shape
    return (4 <= len(points) <= 160 and 4 <= len(faces) <= 160
            and 12 <= sum(len(f) for f in faces) <= 480
            and max(abs(x) for p in points for x in p) <= LIMIT)


MAKERS = [box, box, wedge, wedge, thin, prism, prism, prism, frustum, pyramid, pyramid, bipyramid,
          octahedron, ball, ball, cyclic, ring, ring, mesh, mesh]


def largest(rng):
    """A block at one of the limits."""
    kind = rng.randrange(6)
    if kind == 0:
        return prism_of(convex_polygon(rng, 80), (0, 0, rng.randint(1, 99)))
    if kind == 1:
        polygon = convex_polygon(rng, 120)
        n = 120
        points = [(x, y, 0) for x, y in polygon] + [(0, 0, 500)]
        return points, [list(range(n - 1, -1, -1))] + [[i, (i + 1) % n, n] for i in range(n)]
    if kind == 2:
        return bipyramid(rng, 80) if rng.random() < 0.2 else bipyramid_of(convex_polygon(rng, 80))
    if kind == 3:
        polygon = [(20, 1), (-20, 1), (-20, -1), (20, -1)]
        return sweep(polygon, star_section(rng, 30))
    if kind == 4:
        return prism_of(staircase(rng, 39), (0, 0, 7))
    return prism_of(comb(rng, 20), (1, 2, 3))


def bipyramid_of(polygon):
    n = len(polygon)
    mx, my = (sum(p[d] for p in polygon) // n for d in (0, 1))
    points = [(x, y, 0) for x, y in polygon] + [(mx, my, 90), (mx, my, -90)]
    faces = [[i, (i + 1) % n, n] for i in range(n)] + [[(i + 1) % n, i, n + 1] for i in range(n)]
    return points, faces


def star_section(rng, n):
    while True:
        section = star_shaped(rng, n)
        if all(section[i - 1][1] != section[i][1] for i in range(n)):
            return [(r + 101, z) for r, z in section]


def shape(rng, small=False):
    """A block that should be sound nearly always."""
    while True:
        try:
            if not small and rng.random() < 0.03:
                s = largest(rng)
            else:
                s = rng.choice(MAKERS)(rng)
            if rng.random() < 0.12:
                s = spiked(rng, s)
            if rng.random() < 0.12:
                s = cut(rng, s)
            s = moved(rng, s)
        except Degenerate:
            continue
        if not fits(s):
            continue
        if small and sum(len(f) for f in s[1]) > 100:
            continue
        return s

#!/usr/bin/env python3
"""A second, independent judge of drawings: literal and slow on purpose.

verdict(points, corners, faces) -> (number, place), or (0, edges) when sound.
  points:  list of (x, y, z)
  corners: list of (point, mark, next)
  faces:   list of first corner
All numbering in the tables is from 1.
"""
RANGE_POINTS = (4, 160)
RANGE_FACES = (4, 160)
RANGE_CORNERS = (12, 480)
COORDINATE = (-8000, 8000)


def minus(a, b):
    return (a[0] - b[0], a[1] - b[1], a[2] - b[2])


def vol(u, v, w):
    """The determinant with rows u, v, w, as the sum over six permutations."""
    return (u[0] * v[1] * w[2] + u[1] * v[2] * w[0] + u[2] * v[0] * w[1]
            - u[2] * v[1] * w[0] - u[1] * v[0] * w[2] - u[0] * v[2] * w[1])


def follow(faces, corners):
    """Check 3: the chains, or the place of the fault."""
    chains = []
    seen = set()
    for place, first in enumerate(faces, 1):
        if first == 0:
            return None, place
        chain = []
        at = first
        while at != 0:
            if at > len(corners):
                return None, place
            if at in seen:
                return None, place
            seen.add(at)
            chain.append(at)
            at = corners[at - 1][2]
        if len(chain) < 3:
            return None, place
        chains.append(chain)
    if any(k not in seen for k in range(1, len(corners) + 1)):
        return None, 0
    return chains, None


def verdict(points, corners, faces):
    # 1: counts
    for table, (low, high) in ((points, RANGE_POINTS), (faces, RANGE_FACES),
                               (corners, RANGE_CORNERS)):
        if not low <= len(table) <= high:
            return 1, 0
    # 2: coordinates
    for i, point in enumerate(points, 1):
        if any(not COORDINATE[0] <= x <= COORDINATE[1] for x in point):
            return 2, i
    # 3: chains
    chains, place = follow(faces, corners)
    if chains is None:
        return 3, place
    # 4: corners name points of the table
    for k, corner in enumerate(corners, 1):
        if corner[0] == 0 or corner[0] > len(points):
            return 4, k
    # 5: every point is named
    named = [corner[0] for corner in corners]
    for i in range(1, len(points) + 1):
        if i not in named:
            return 5, i
    # 6: no point repeats an earlier one
    for i in range(1, len(points)):
        if tuple(points[i]) in [tuple(p) for p in points[:i]]:
            return 6, i + 1
    # 7: edges pair up
    edges = range(1, len(corners) + 1)
    after = {}
    for chain in chains:
        for j in range(len(chain)):
            after[chain[j - 1]] = chain[j]
    start = {e: corners[e - 1][0] for e in edges}
    end = {e: start[after[e]] for e in edges}
    there = [1000 * start[e] + end[e] for e in edges]
    back = [1000 * end[e] + start[e] for e in edges]
    for e in edges:
        if start[e] == end[e]:
            return 7, e
        if there.count(there[e - 1]) != 1 or there.count(back[e - 1]) != 1:
            return 7, e
    opposite = {e: 1 + there.index(back[e - 1]) for e in edges}
    v = {e: minus(points[end[e] - 1], points[start[e] - 1]) for e in edges}
    # 8: one fan round every point
    for p in range(1, len(points) + 1):
        leaving = {e for e in edges if start[e] == p}
        for first in leaving:
            fan = set()
            e = first
            while e not in fan:
                fan.add(e)
                e = after[opposite[e]]
            if not leaving <= fan:
                return 8, p
    # 9: everything hangs together with edge 1
    reached = {1}
    while True:
        more = reached | {after[e] for e in reached} | {opposite[e] for e in reached}
        if more == reached:
            break
        reached = more
    for e in edges:
        if e not in reached:
            return 9, e
    # 10: flat faces
    for e in edges:
        b = after[e]
        if vol(v[e], v[b], v[after[b]]) != 0:
            return 10, e
    # 11: no level faces, no straight corners
    for e in edges:
        if vol(v[e], v[after[e]], v[after[opposite[e]]]) == 0:
            return 11, e
    # 12: positive volume
    total = 0
    for chain in chains:
        q = [points[start[e] - 1] for e in chain]
        for i in range(1, len(q) - 1):
            total += vol(q[0], q[i], q[i + 1])
    if total <= 0:
        return 12, 0
    return 0, len(corners)

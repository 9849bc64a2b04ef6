"""Meshes that are checked: request 7's sentences, taken as they stand, and meshes of every kind from a seed."""
import os
import random
import subprocess
import sys

import jobs

NONE, LAST_PORTAL, STRIDE = 65535, 65539, 3
DRIVER = os.path.join(os.path.dirname(os.path.abspath(__file__)), 'driver')


class Mesh:
    """What is handed in: nvp, the grid, the claim, and three lists of numbers."""

    def __init__(self, nvp, w, h, border, claim, vertices, polygons, links):
        self.nvp, self.w, self.h, self.border, self.claim = nvp, w, h, border, claim
        self.vertices, self.polygons, self.links = vertices, polygons, links

    def copy(self):
        return Mesh(self.nvp, self.w, self.h, self.border, self.claim, list(self.vertices), list(self.polygons), list(self.links))

    def record(self):
        lists = [n for part in (self.vertices, self.polygons, self.links) for n in (len(part), *part)]
        return ' '.join(map(str, ['check', self.nvp, self.w, self.h, self.border, self.claim, *lists, 'end']))


# ---- the sentences

def sides(row):
    """The corners before the first 65,535, each with the one after it."""
    corners = row[:row.index(NONE)] if NONE in row else row
    return [(a, corners[(k + 1) % len(corners)]) for k, a in enumerate(corners)]


def portal(mesh, a, b):
    """What R7 gives an open side."""
    (ax, az), (bx, bz) = a, b
    if mesh.border > 0:
        for mark, on in enumerate((ax == bx == 0, az == bz == mesh.h, ax == bx == mesh.w, az == bz == 0)):
            if on:
                return 65536 + mark
    return NONE


def area(points):
    """The doubled area of a polygon, side by side."""
    return sum(bx * az - ax * bz for (ax, az), (bx, bz) in zip(points, points[1:] + points[:1])) * -1


def verdict(mesh):
    n = mesh.nvp
    if not 3 <= n <= 12 or len(mesh.vertices) % STRIDE or len(mesh.polygons) % n or len(mesh.links) != len(mesh.polygons):
        return 40, 0
    places = [(mesh.vertices[k], mesh.vertices[k + 2]) for k in range(0, len(mesh.vertices), STRIDE)]
    rows = [mesh.polygons[k:k + n] for k in range(0, len(mesh.polygons), n)]
    links = [mesh.links[k:k + n] for k in range(0, len(mesh.links), n)]
    if len(places) > 65535 or len(rows) > 65535 or any(max(p) > 32767 for p in places):
        return 40, 0
    for i, row in enumerate(rows):
        used = len(sides(row))
        if used < 3 or any(c >= len(places) for c in row[:used]) or any(c != NONE for c in row[used:]):
            return 41, i
    around = [sides(row) for row in rows]
    for i, ring in enumerate(around):
        for (a, b), link in zip(ring, links[i]):
            back = link < len(rows) and link != i and any(s == (b, a) and l == i for s, l in zip(around[link], links[link]))
            if not (back or NONE <= link <= LAST_PORTAL):
                return 42, i
        if any(link != NONE for link in links[i][len(ring):]):
            return 42, i
    for i, ring in enumerate(around):
        if any(link >= NONE and link != portal(mesh, places[a], places[b]) for (a, b), link in zip(ring, links[i])):
            return 43, i
    total = sum(area([places[a] for a, _ in ring]) for ring in around)
    return (0, 0) if total == mesh.claim else (44, 0)


# ---- meshes

def built(count, seed):
    """Meshes that the driver builds, with their own totals as the sentences have them."""
    shares = jobs.read_shares('all=0,simple=4,grid=3,tiny=6,limit=2,pinched=3,many=1,layers=2')
    found = [jobs.make(seed, k, shares) for k in range(count)]
    run = subprocess.run([DRIVER, 'build'], input=b''.join(j.text() for j in found), capture_output=True)
    if run.returncode:
        sys.exit('checking: ' + run.stderr.decode())
    meshes, lines = [], iter(run.stdout.decode().split('\n'))
    for job in found:
        mesh = Mesh(job.nvp, job.w, job.h, job.border, 0, [], [], [])
        for line in lines:
            words = line.split()
            if words == ['done']:
                break
            kind, numbers = words[0], list(map(int, words[1:]))
            if kind == 'v':
                mesh.vertices += numbers
            elif kind == 'p':
                mesh.polygons += numbers[2:] + [NONE] * (job.nvp - len(numbers) + 2)
            elif kind == 'n':
                mesh.links += numbers + [NONE] * (job.nvp - len(numbers))
        places = [(mesh.vertices[k], mesh.vertices[k + 2]) for k in range(0, len(mesh.vertices), STRIDE)]
        rows = [mesh.polygons[k:k + job.nvp] for k in range(0, len(mesh.polygons), job.nvp)]
        mesh.claim = sum(area([places[a] for a, _ in sides(row)]) for row in rows)
        meshes.append(mesh)
    return meshes


def damage(rng, mesh):
    """One fault, or a change that may be none."""
    kind = rng.randrange(14)
    part = (mesh.vertices, mesh.polygons, mesh.links)[rng.randrange(3)]
    polygons = len(mesh.polygons) // mesh.nvp if mesh.nvp else 0
    number = lambda: rng.choice([0, 1, 2, rng.randrange(polygons + 2), NONE - 1, NONE, 65536, 65537, 65538, 65539, 65540, 2**32 - 1])
    at = rng.randrange(len(mesh.links)) if mesh.links else None
    if kind == 0 and part:
        part.pop()
    elif kind == 1:
        part.append(rng.choice([0, NONE]))
    elif kind == 2 and mesh.vertices:
        mesh.vertices[rng.randrange(len(mesh.vertices))] = rng.choice([32767, 32768, 65535])
    elif kind == 3:
        mesh.nvp = rng.choice([0, 1, 2, 3, 4, 6, 12, 13, 2**32 - 1])
    elif kind in (4, 5) and mesh.polygons:
        mesh.polygons[rng.randrange(len(mesh.polygons))] = rng.choice([0, 1, len(mesh.vertices) // STRIDE, NONE - 1, NONE])
    elif kind in (6, 7, 8) and mesh.links:
        mesh.links[at] = number()
    elif kind == 9 and mesh.links:
        mesh.links[at], other = number(), rng.randrange(len(mesh.links))
        mesh.links[other] = number()
    elif kind == 10:
        mesh.border = rng.choice([0, 1, 65535])
    elif kind == 11:
        mesh.w, mesh.h = rng.choice([(mesh.w + 1, mesh.h), (mesh.h, mesh.w), (0, 0)])
    elif kind == 12:
        claim = rng.choice([-mesh.claim, mesh.claim + 1, mesh.claim - 1, mesh.claim + 2**32, -2**63, 2**63 - 1, 0])
        mesh.claim = max(-2**63, min(claim, 2**63 - 1))
    elif kind == 13 and mesh.vertices:
        mesh.vertices += rng.choice([[0, 0, 0], [32767, 65535, 32767]])


def small(rng):
    """Few places, few polygons over them, links mostly of the kinds that can be right."""
    nvp, count, polygons = rng.choice([3, 3, 3, 4, 5, 12]), rng.randrange(1, 5), rng.randrange(4)
    w, h, border = rng.randrange(3), rng.randrange(3), rng.randrange(2)
    mesh = Mesh(nvp, w, h, border, 0, [rng.randrange(3) for _ in range(STRIDE * count)], [], [])
    for _ in range(polygons):
        used = min(nvp, rng.choice([3, 3, 3, 3, 4, 2]))
        mesh.polygons += [rng.randrange(count) for _ in range(used)] + [NONE] * (nvp - used)
    places = [(mesh.vertices[k], mesh.vertices[k + 2]) for k in range(0, len(mesh.vertices), STRIDE)]
    rows = [sides(mesh.polygons[k:k + nvp]) for k in range(0, len(mesh.polygons), nvp)]
    for i, ring in enumerate(rows):
        links = []
        for a, b in ring:
            others = [q for q, other in enumerate(rows) if q != i and (b, a) in other]
            right = portal(mesh, places[a], places[b])
            links.append(rng.choice(others + others + [right, right, rng.choice([NONE, 65536, 65539, 65540, i, polygons])]))
        mesh.links += links + [NONE] * (nvp - len(links))
    mesh.claim = sum(area([places[a] for a, _ in ring]) for ring in rows) + rng.choice([0, 0, 0, 0, 0, 0, 0, 0, 0, 1])
    return mesh


def make(count, seed):
    """COUNT meshes of this seed; those that were built come first."""
    rng = random.Random(seed)
    own = built(max(1, count // 10), seed)
    for mesh in own:
        if verdict(mesh) != (0, 0):
            sys.exit('checking: the sentences refuse a mesh that was built\n' + mesh.record())
    found = list(own)
    while len(found) < count:
        mesh = small(rng) if rng.randrange(2) else rng.choice(own).copy()
        for _ in range(rng.choice([0, 0, 1]) if len(mesh.polygons) <= 36 else rng.randrange(1, 4)):
            damage(rng, mesh)
        found.append(mesh)
    return found[:count]

"""Jobs for the mesher: what one is, its text, and jobs of many kinds from a seed.

Job number k of a seed depends on the seed and k alone. All that is made here lies in document 01's comparison domain, but for its last
clause (no directed side twice among one contour's welded triangles), which only the triangles can tell: sides.py looks at them.
"""
import math
import random

MOST = 32767            # the greatest x and z
MOST_V = 20000
MOST_CONTOURS = 65535


class Job:
    """contours: lists of (region, code, vertices), a vertex (x, y, z, flag)."""

    def __init__(self, nvp, w, h, border, contours, kind=''):
        self.nvp, self.w, self.h, self.border = nvp, w, h, border
        self.contours = contours
        self.kind = kind

    def v(self):
        return sum(len(c[2]) for c in self.contours if len(c[2]) >= 3)

    def text(self, nvp=None, first=None):
        """The job's text; with another nvp, or with its first contours only."""
        contours = self.contours if first is None else self.contours[:first]
        out = ['job %d %d %d %d %d' % (nvp or self.nvp, self.w, self.h, self.border, len(contours))]
        for region, code, vertices in contours:
            out.append('%d %d %d' % (region, code, len(vertices)))
            out.extend(['%d %d %d %d' % v for v in vertices])
        out.append('end\n')
        return '\n'.join(out).encode()


def read_jobs(text):
    """The jobs of a text. ValueError if it is malformed."""
    words = iter(text.split())

    def number():
        word = next(words, None)
        if word is None or not word.isdigit():
            raise ValueError('%r where a number is due' % word)
        return int(word)

    for word in words:
        if word != b'job':
            raise ValueError('%r where "job" is due' % word)
        nvp, w, h, border, count = (number() for _ in range(5))
        contours = []
        for _ in range(count):
            region, code, length = number(), number(), number()
            contours.append((region, code, [(number(), number(), number(), number()) for _ in range(length)]))
        if next(words, None) != b'end':
            raise ValueError('a job without its "end"')
        yield Job(nvp, w, h, border, contours)


class Dice:
    """Chance from a seed. It uses random() alone, which is the same in every version of Python."""

    def __init__(self, *seed):
        self.random = random.Random(' '.join(str(s) for s in seed)).random

    def below(self, n):
        return int(self.random() * n)

    def between(self, low, high):
        return low + self.below(high - low + 1)

    def chance(self, p):
        return self.random() < p

    def pick(self, things):
        return things[self.below(len(things))]

    def shuffle(self, things):
        for i in range(len(things) - 1, 0, -1):
            j = self.below(i + 1)
            things[i], things[j] = things[j], things[i]


# ------------------------------------------------------------------------------------------------ outlines, as lists of (x, z)

def doubled_area(points):
    return sum(a[0] * b[1] - b[0] * a[1] for a, b in zip(points, points[1:] + points[:1]))


def wound(points):
    """The way round that the rules want: the doubled area below zero."""
    return points if doubled_area(points) <= 0 else points[::-1]


def begun_anywhere(d, points):
    k = d.below(len(points)) if points else 0
    return points[k:] + points[:k]


def size_of(d):
    return d.pick((2, 3, 4, 6, 9, 15, 30, 60, 100, 181, 500, 1000, 5000, 20000, MOST, MOST))


def star(d, n, size):
    """Round a middle point, by angle."""
    low, half = d.pick((0.05, 0.3, 0.7, 1.0)), size / 2
    points = []
    for a in sorted(d.random() * 2 * math.pi for _ in range(n)):
        r = half * (low + (1 - low) * d.random())
        points.append((int(half + r * math.cos(a)), int(half + r * math.sin(a))))
    return wound(points)


def slab(d, n, size):
    """Two chains from left to right, one above and one below the middle."""
    half, upper = max(1, size // 2), max(1, n // 2)
    above = sorted((d.between(0, size), d.between(half, size)) for _ in range(upper))
    below = sorted((d.between(0, size), d.between(0, half - 1)) for _ in range(n - upper))
    return wound(below + above[::-1])


def untangled(d, n, size):
    """Points anywhere, crossings undone by turning parts round."""
    points = [(d.between(0, size), d.between(0, size)) for _ in range(n)]

    def turn(a, b, c):
        return (b[0] - a[0]) * (c[1] - a[1]) - (c[0] - a[0]) * (b[1] - a[1])

    for _ in range(100):
        found = False
        for i in range(n - 1):
            for j in range(i + 2, n):
                a, b, e, f = points[i], points[i + 1], points[j], points[(j + 1) % n]
                if turn(a, b, e) * turn(a, b, f) < 0 and turn(e, f, a) * turn(e, f, b) < 0:
                    points[i + 1:j + 1] = points[i + 1:j + 1][::-1]
                    found = True
        if not found:
            break
    return wound(points)


def comb(d, n, size):
    teeth, deep = max(1, n // 4), d.between(1, 6)
    points = [(0, 0)]
    for t in range(teeth):
        points += [(2 * t, 1 + d.between(1, deep)), (2 * t + 1, 1 + d.between(1, deep)), (2 * t + 1, 1), (2 * t + 2, 1)]
    points.append((2 * teeth, 0))
    k = max(1, min(size // (2 * teeth), size // 7))
    return wound([(x * k, z * k) for x, z in points if x * k <= MOST])


def spiral(d, n, size):
    """A corridor that winds outward."""
    x = z = 0
    cells, (dx, dz) = {(0, 0): 1}, (1, 0)
    for arm in range(max(2, min(n // 2, 120) - 1)):
        for _ in range(2 * (arm // 2 + 1)):
            x, z = x + dx, z + dz
            cells[x, z] = 1
        dx, dz = -dz, dx
    return fitted(thinned(cells, traced(d, cells, 1)[0]), size)


def maze(d, n, size):
    """Corridors that branch and never meet again."""
    wide = max(2, int(math.sqrt(n / 2) * (0.5 + d.random())))
    high = max(1, n // 2 // wide)
    at = [(d.below(wide), d.below(high))]
    cells = {(2 * at[0][0], 2 * at[0][1]): 1}
    while at:
        i = len(at) - 1 if d.chance(0.7) else d.below(len(at))
        x, z = at[i]
        ways = [(u, v) for u, v in ((1, 0), (-1, 0), (0, 1), (0, -1))
                if 0 <= x + u < wide and 0 <= z + v < high and (2 * x + 2 * u, 2 * z + 2 * v) not in cells]
        if not ways:
            at.pop(i)
            continue
        u, v = d.pick(ways)
        cells[2 * x + u, 2 * z + v] = cells[2 * x + 2 * u, 2 * z + 2 * v] = 1
        at.append((x + u, z + v))
    return fitted(thinned(cells, traced(d, cells, 1)[0]), size)


def fitted(points, size):
    """Moved to 0, and made as large as `size` allows."""
    x0, z0 = min(x for x, _ in points), min(z for _, z in points)
    k = max(1, size // max(max(x - x0, z - z0) for x, z in points))
    return [((x - x0) * k, (z - z0) * k) for x, z in points]


def strip(d, n, size):
    """A strip of cells, one high: points in line on both sides."""
    m = max(1, n // 2 - 1)
    k = max(1, size // (m + 1))
    return [(i * k, 0) for i in range(m, -1, -1)] + [(i * k, k) for i in range(m + 1)]


SHAPES = (star, star, slab, slab, comb, maze, spiral)


def outline(d, n, size):
    shape = untangled if n <= 14 and d.chance(0.4) else d.pick(SHAPES)
    return begun_anywhere(d, shape(d, max(3, n), size))


# ------------------------------------------------------------------------------------------------ regions traced from cells

def regions_of(d, wide, high, count):
    """Cells to region numbers from 1 on, grown from random cells; some cells stay free."""
    cells = {}
    fringe = []
    for r in range(1, count + 1):
        fringe.append((d.below(wide), d.below(high), r))
    free = d.pick((0.0, 0.0, 0.1, 0.25))
    dead = set()
    while fringe:
        i = d.below(len(fringe))
        fringe[i], fringe[-1] = fringe[-1], fringe[i]
        x, z, r = fringe.pop()
        if not (0 <= x < wide and 0 <= z < high) or (x, z) in cells or (x, z) in dead:
            continue
        if d.chance(free):
            dead.add((x, z))
            continue
        cells[x, z] = r
        fringe += [(x + 1, z, r), (x - 1, z, r), (x, z + 1, r), (x, z - 1, r)]
    return cells


def traced(d, cells, region):
    """The closed lines round one region: outer ones wound as wanted, those round holes the other way."""
    sides = {}
    for (x, z), r in cells.items():
        if r != region:
            continue
        for beside, a, b in (((x - 1, z), (x, z), (x, z + 1)), ((x, z + 1), (x, z + 1), (x + 1, z + 1)),
                             ((x + 1, z), (x + 1, z + 1), (x + 1, z)), ((x, z - 1), (x + 1, z), (x, z))):
            if cells.get(beside) != region:
                sides.setdefault(a, []).append(b)
    lines = []
    while sides:
        start = at = next(iter(sides))
        line = []
        while True:
            line.append(at)
            ahead = sides[at]
            to = ahead.pop(d.below(len(ahead)) if len(ahead) > 1 else 0)
            if not ahead:
                del sides[at]
            at = to
            if at == start:
                break
        lines.append(line)
    return lines


def thinned(cells, line):
    """The line's turns, and the points where more than two regions meet: those that a shared border needs on both sides."""
    kept = []
    for i, (x, z) in enumerate(line):
        a, b = line[i - 1], line[(i + 1) % len(line)]
        straight = (x - a[0]) * (b[1] - z) == (b[0] - x) * (z - a[1])
        around = {cells.get(c) for c in ((x, z), (x - 1, z), (x, z - 1), (x - 1, z - 1))}
        if not straight or len(around) > 2:
            kept.append((x, z))
    return kept


def bridged(outer, hole):
    """A hole joined to its outer line by a bridge there and back, between their nearest points."""
    i, j = min(((i, j) for i in range(len(outer)) for j in range(len(hole))),
               key=lambda ij: abs(outer[ij[0]][0] - hole[ij[1]][0]) + abs(outer[ij[0]][1] - hole[ij[1]][1]))
    return outer[:i + 1] + hole[j:] + hole[:j + 1] + outer[i:]


def grid_outlines(d, wide, high, count):
    """Outlines of regions on a grid, each with its region."""
    cells = regions_of(d, wide, high, count)
    whole = d.chance(0.2)
    found = []
    for region in range(1, count + 1):
        lines = traced(d, cells, region)
        if not whole:
            lines = [thinned(cells, line) for line in lines]
        outer = [line for line in lines if doubled_area(line) < 0]
        holes = [line for line in lines if doubled_area(line) > 0]
        if outer and holes and d.chance(0.8):
            big = max(range(len(outer)), key=lambda i: -doubled_area(outer[i]))
            for hole in holes:
                outer[big] = bridged(outer[big], hole)
        elif holes and d.chance(0.1):
            outer += holes
        found += [(region, line) for line in outer]
    return found


# ------------------------------------------------------------------------------------------------ kinds: outlines of one job

def of_simple(d):
    count = d.pick((1, 1, 1, 2, 3))
    found = []
    for _ in range(count):
        n = d.pick((3, 4, 5, 6, 8, 10, 14, 20, 30, 40, 60))
        found.append((d.below(5), outline(d, n, max(size_of(d), 5 * n if d.chance(0.8) else 0))))
    return found


def of_grid(d):
    wide, high = d.between(2, 16), d.between(2, 16)
    found = grid_outlines(d, wide, high, d.between(1, 7))
    k = d.pick((1, 1, 1, 2, 3, 10, 100, MOST // 16))
    x0, z0 = d.pick(((0, 0), (0, 0), (1, 3), (d.below(MOST - 16 * k + 1), d.below(MOST - 16 * k + 1))))
    return [(r, [(x0 + x * k, z0 + z * k) for x, z in line]) for r, line in found]


def of_tiny(d):
    m = d.between(1, 4)
    return [(d.below(3), [(d.between(0, m), d.between(0, m)) for _ in range(d.pick((0, 1, 2, 3, 3, 4, 4, 5, 5, 6, 7, 8)))])
            for _ in range(d.pick((1, 1, 2, 3, 4)))]


def of_limit(d):
    ends = (0, 1, 2, 16383, 16384, MOST - 2, MOST - 1, MOST)
    found = []
    for _ in range(d.pick((1, 1, 2))):
        if d.chance(0.5):
            n = d.between(3, 7)
            found.append((1, wound([(d.pick(ends), d.pick(ends)) for _ in range(n)])))
        else:
            found.append((2, outline(d, d.between(3, 24), MOST)))
    return found


def halfway(a, b):
    return (a[0] + b[0]) // 2, (a[1] + b[1]) // 2


def of_pinched(d):
    """Outlines that touch themselves: points twice, points on a side, spurs there and back, bridged holes, two that share a point."""
    size = d.pick((30, 100, 1000, 10000, 30000))
    line = outline(d, d.between(4, 16), size)
    if d.chance(0.4):
        rim = [(int(x), int(z)) for x, z in ((size * (1 + math.cos(a)) / 2, size * (1 + math.sin(a)) / 2)
                                             for a in (2 * math.pi * i / 12 for i in range(12)))]
        small = outline(d, d.between(3, 9), size // 3)
        line = bridged(wound(rim), [(x + size // 3, z + size // 3) for x, z in small][::-1])
    for _ in range(d.pick((0, 1, 1, 2, 3))):
        i = d.below(len(line))
        a, b = line[i], line[(i + 1) % len(line)]
        how = d.below(6)
        if how == 0:
            more = [a]
        elif how == 1:
            more = [halfway(a, b)]
        elif how == 2:
            more = [halfway(line[i - 1], b), a]
        elif how == 3:
            more = [halfway(a, b), a]
        elif how == 4:
            other = outline(d, d.between(3, 6), size // 2)
            x, z = a[0] - other[0][0], a[1] - other[0][1]
            more = [(u + x, v + z) for u, v in other[1:]] + [a]
            if not all(0 <= c <= MOST for point in more for c in point):
                more = []
        else:
            more = [d.pick(line), a] if d.chance(0.3) else []
        line = line[:i + 1] + more + line[i + 1:]
    return [(1, line)]


def of_many(d, most=None):
    """A field of cells whose corners are shared and shaken, each cell one outline or two."""
    most = most or d.between(20, 250)
    wide = max(1, int(math.sqrt(most) * (0.5 + d.random())))
    high = max(1, most // wide)
    k = max(1, min(d.pick((1, 4, 10, 40, 300)), MOST // (max(wide, high) + 1)))
    shake = k // 3
    corner = {(i, j): (i * k + d.between(0, shake), j * k + d.between(0, shake))
              for i in range(wide + 1) for j in range(high + 1)}
    found = []
    for i in range(wide):
        for j in range(high):
            a, b, c, e = corner[i, j], corner[i, j + 1], corner[i + 1, j + 1], corner[i + 1, j]
            how = d.below(5)
            if how == 0:
                found += [(1 + d.below(9), [a, b, c]), (1 + d.below(9), [a, c, e])]
            elif how == 1:
                middle = halfway(a, c)
                found.append((1, [a, b, c, e, middle] if middle not in (a, b, c, e) else [a, b, c, e]))
            else:
                found.append((d.below(4), begun_anywhere(d, [a, b, c, e])))
    if d.chance(0.3):
        d.shuffle(found)
    return found


def of_layers(d):
    """The same ground several times, at different heights (which are added later)."""
    base = d.pick((of_simple, of_grid, of_tiny))(d)
    if d.chance(0.3):
        base = of_many(d, d.between(2, 30))
    found = []
    for _ in range(d.between(2, 5)):
        found += [(r, begun_anywhere(d, line)) for r, line in base if d.chance(0.9)]
    return found


def of_long(d, nvp):
    n = d.between(150, 900) if nvp == 3 else d.between(80, 300)
    shape = d.pick(SHAPES + (strip,))
    return [(1, begun_anywhere(d, shape(d, n, d.pick((300, 1000, 5000, MOST)))))]


def of_full(d):
    """As many vertices as the domain has, in short outlines."""
    return of_many(d, 4900) if d.chance(0.7) else [(1, outline(d, 20, size_of(d))) for _ in range(960)]


def of_crowd(d):
    """Over 60,000 contours, most of them skipped ones."""
    real = of_many(d, d.between(100, 3000))
    found = []
    count = d.between(60001, MOST_CONTOURS)
    every = max(1, count // (len(real) + 1))
    for i in range(count):
        if i % every == 0 and real:
            found.append(real.pop())
        else:
            found.append((0, [(d.below(9), d.below(9)) for _ in range(d.pick((0, 0, 0, 0, 1, 2)))]))
    return found


def of_longest(d):
    n = 2000 + int(18000 * d.random() * d.random())
    shape = d.pick((star, slab, comb, strip))
    return [(1, begun_anywhere(d, shape(d, n, MOST)))]


# How many in 10,000 jobs are of a kind.
SHARES = {'simple': 3000, 'grid': 2500, 'tiny': 1400, 'limit': 800, 'pinched': 900, 'many': 500, 'layers': 700, 'long': 188,
          'full': 4, 'crowd': 4, 'longest': 4}


# ------------------------------------------------------------------------------------------------ the rest of a job

def with_heights(d, found):
    """Vertices (x, y, z, 0). Heights: all one, or apart by 0 to 5 in each place or each time, or far apart."""
    base = d.pick((0, 0, 0, 3, 1000, 65530, d.below(65531)))
    how = d.pick(('flat', 'flat', 'place', 'time', 'outline', 'far'))
    places = {}
    contours = []
    for region, line in found:
        own = base + d.below(6)
        vertices = []
        for x, z in line:
            if how == 'flat':
                y = base
            elif how == 'place':
                y = places.setdefault((x, z), base + d.below(6))
            elif how == 'time':
                y = base + (d.below(6) if d.chance(0.3) else 0)
            elif how == 'outline':
                y = own
            else:
                y = d.below(65536) if d.chance(0.1) else base
            vertices.append((x, y, z, 0))
        contours.append((region, vertices))
    return contours


def within(contours):
    """Without what would lead out of the domain."""
    kept, v = [], 0
    for region, code, vertices in contours[:MOST_CONTOURS]:
        if len(vertices) >= 3:
            if v + len(vertices) > MOST_V:
                continue
            v += len(vertices)
        kept.append((region, code, vertices))
    return kept


def make(seed, k, shares=SHARES):
    """Job number k of a seed."""
    d = Dice('mittencrest', seed, k)
    kinds = [name for name in SHARES if shares[name] > 0]
    at = d.random() * sum(shares[name] for name in kinds)
    for kind in kinds:
        at -= shares[kind]
        if at < 0:
            break
    nvp = 3 if kind == 'longest' else d.between(3, 12)
    found = of_long(d, nvp) if kind == 'long' else globals()['of_' + kind](d)
    if d.chance(0.04) and found:
        i = d.below(len(found))
        found[i] = (found[i][0], found[i][1][::-1])
    wild = d.chance(0.1)
    contours = [(d.below(65536) if wild else region, d.below(256) if wild else d.below(4), vertices)
                for region, vertices in with_heights(d, found)]
    contours = within(contours)
    xs = [v[0] for c in contours for v in c[2]] or [0]
    zs = [v[2] for c in contours for v in c[2]] or [0]
    w, h = d.pick(((max(xs), max(zs)), (max(xs), max(zs)), (max(xs), 0), (0, max(zs)), (d.below(65536), d.below(65536)),
                   (d.pick(xs), d.pick(zs))))
    return Job(nvp, w, h, d.pick((0, 0, 1, 1, 7, 256, 32768, 65535)), contours, kind)


def read_shares(text):
    """'KIND=N,KIND=N' over the usual shares. ValueError if it names no kind."""
    shares = dict(SHARES)
    for part in text.split(','):
        name, _, n = part.partition('=')
        if name == 'all' and n.isdigit():
            shares = {key: int(n) for key in SHARES}
        elif name in SHARES and n.isdigit():
            shares[name] = int(n)
        else:
            raise ValueError('%r is no share; there are: %s' % (part, ', '.join(SHARES)))
    if not any(shares.values()):
        raise ValueError('no kind has a share')
    return shares

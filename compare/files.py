"""Binary STL: request 11's sentences, taken as they stand, and calls of every kind from a seed."""
import random
import struct

import meshes

FILL = 2654435761
FRONT, FACET, WORDS = 84, 50, 9
SIZES = ['3f800000', '3f000000', '3e800000', '3dcccccd', '3a83126f', '3ba3d70a', '46834e6f', '41cb3333', '00000001', '00800000', '007fffff',
         '7f7fffff', '7e000000', '00000000', '80000000', 'bf800000', '7f800000', 'ff800000', '7fc00000', '7f800001', 'ffc00001', '40490fdb']


def lent(count, shift):
    """What lent words of 32 bits, or bytes (shift 24), hold before the call."""
    return [((i * FILL + 40503) % 2**32) >> shift for i in range(count)]


def value(pattern):
    """The number that eight hex digits stand for; every f32 is a float of 64 bits too."""
    return struct.unpack('>f', bytes.fromhex(pattern))[0]


def rounded(x):
    """The four bytes of the f32 nearest to x; what is too large is infinite."""
    try:
        return struct.pack('<f', x)
    except OverflowError:
        return struct.pack('<f', float('inf') if x > 0 else float('-inf'))


def millimetres(inches, x):
    """Itself, or times f32 25.4, rounded once: the product of two f32 fits 64 bits, so that there is no rounding before."""
    return struct.unpack('<f', rounded(x * value('41cb3333')))[0] if inches else x


class Carving:
    """A mesh that is written, its scale, and how many bytes are lent."""

    def __init__(self, mesh, inches, size, height, room):
        self.mesh, self.inches, self.size, self.height, self.room = mesh, inches, size, height, room

    def record(self):
        m = self.mesh
        lists = [n for part in (m.vertices, m.polygons, m.links) for n in (len(part), *part)]
        return ' '.join(map(str, ['stl', m.nvp, 'in' if self.inches else 'mm', self.size, self.height, *lists, self.room, 'end']))

    def facets(self):
        """The corners of each facet: a fan from the first corner of each polygon."""
        n = self.mesh.nvp
        rows = [[a for a, _ in meshes.sides(self.mesh.polygons[k:k + n])] for k in range(0, len(self.mesh.polygons), n)]
        return [(row[0], row[k - 1], row[k]) for row in rows for k in range(2, len(row))]

    def answer(self):
        """The reply, its second number, and the lent bytes."""
        before = bytes(lent(self.room, 24))
        reply, polygon = meshes.verdict(self.mesh)
        if reply in (40, 41, 42):
            return reply, polygon, before
        size, height = (millimetres(self.inches, value(x)) for x in (self.size, self.height))
        if not all(0 < mm < float('inf') for mm in (size, height)):
            return 70, 0, before
        facets = self.facets()
        if FRONT + FACET * len(facets) > self.room:
            return 71, 0, before
        points = [rounded(x * size) + rounded(y * height) + rounded(z * size) for x, y, z in zip(*[iter(self.mesh.vertices)] * 3)]
        file = bytes(80) + struct.pack('<I', len(facets))
        file += b''.join(bytes(12) + points[a] + points[b] + points[c] + bytes(2) for a, b, c in facets)
        return 0, len(facets), file + before[len(file):]


class Reading:
    """A file that is read, and how many words are lent."""

    def __init__(self, file, room):
        self.file, self.room = file, room

    def record(self):
        digits = self.file.hex()
        return ' '.join(['unstl', str(len(self.file)), *[digits[k:k + 64] for k in range(0, len(digits), 64)], str(self.room), 'end'])

    def answer(self):
        """The reply, its second number, and the lent words."""
        before = lent(self.room, 0)
        if len(self.file) < FRONT:
            return 72, 0, before
        count = int.from_bytes(self.file[80:84], 'little')
        if len(self.file) != FRONT + FACET * count:
            return 72, 0, before
        zeros = [*range(80), *(FRONT + FACET * k + j for k in range(count) for j in [*range(12), 48, 49])]
        for i in zeros:
            if self.file[i]:
                return 73, i, before
        if WORDS * count > self.room:
            return 71, 0, before
        words = [w for k in range(count) for w in struct.unpack('<9I', self.file[FRONT + FACET * k + 12:FRONT + FACET * k + 48])]
        return 0, count, words + before[len(words):]


# ---- calls

def scale(rng):
    """A cell size or height: mostly one that sheets have, else any float, mostly above zero."""
    kind = rng.randrange(8)
    return rng.choice(SIZES[:8]) if kind < 5 else rng.choice(SIZES) if kind == 5 else '%08x' % rng.randrange(2**32 if kind == 6 else 2**31)


def carvings(count, seed):
    """COUNT calls of this seed: the checker's meshes, good and damaged, with scales and rooms at and around every limit."""
    rng, found = random.Random(seed), []
    for mesh in meshes.make(count, seed):
        size, height = (scale(rng) for _ in range(2))
        call = Carving(mesh, bool(rng.randrange(2)), size, height, 0)
        sound = meshes.verdict(mesh)[0] not in (40, 41, 42)
        need = FRONT + FACET * len(call.facets()) if sound else FRONT + FACET
        call.room = max(0, rng.choice([need, need, need, need + 1, need - 1, need - FACET, need + rng.randrange(80), rng.randrange(90), 0]))
        found.append(call)
    return found


def coordinate(rng):
    return struct.pack('<I', rng.choice([0, 0x80000000, 0x3f800000, 0x7f800000, 0x7fc00000, 0xff800001, rng.randrange(2**32)]))


def readings(count, seed):
    """COUNT files of this seed: good ones with any coordinates, and damaged ones: bytes, lengths and counts of every kind."""
    rng, found = random.Random(seed), []
    while len(found) < count:
        facets = rng.choice([0, 0, 1, 1, 1, 2, 3, rng.randrange(40)])
        file = bytearray(bytes(80) + struct.pack('<I', facets))
        for _ in range(facets):
            file += bytes(12) + b''.join(coordinate(rng) for _ in range(WORDS)) + bytes(2)
        for _ in range(rng.choice([0, 0, 1, 1, 2, 3])):
            kind = rng.randrange(8)
            if kind < 3 and file:
                file[rng.randrange(len(file))] = rng.choice([0, 1, 32, 128, 255])
            elif kind == 3 and facets:
                at = FRONT + FACET * rng.randrange(facets) + rng.choice([0, 3, 11, 12, 47, 48, 49])
                if at < len(file):
                    file[at] = rng.choice([1, 128])
            elif kind == 4:
                del file[len(file) - min(len(file), rng.choice([1, 2, 49, 50, 51])):]
            elif kind == 5:
                file += bytes(rng.choice([1, 2, 50]))
            elif kind == 6 and len(file) >= FRONT:
                file[80:84] = struct.pack(rng.choice('<>') + 'I', rng.choice([facets, facets + 1, 85899346 + facets, 2**32 - 1, 0]))
            elif kind == 7:
                del file[rng.randrange(len(file) + 1):]
        need = WORDS * facets
        room = max(0, rng.choice([need, need, need + 1, need - 1, need + rng.randrange(20), 0]))
        found.append(Reading(bytes(file), room))
    return found

"""A printed mesh as text: printed, damaged, and read as docs/CHECKING.md says, without the proved reader."""
import re

import meshes

LIMIT, COUNT_MOST, LINK_MOST, TOTAL_MOST = 65536, 8192, 2**32 - 1, 2**63 - 1
DECIMAL = re.compile(rb'(0|[1-9][0-9]*)')


def text(rng, mesh):
    """The mesh as `./mesh` prints one, with its `nvp` and `grid` lines. What a text can't hold is left out: numbers past the last whole row."""
    rows = len(mesh.polygons) // mesh.nvp if 0 < mesh.nvp <= 12 else 0
    vertices = len(mesh.vertices) // meshes.STRIDE
    lines = [['unit', rng.choice(['mm', 'in'])], ['cell', rng.randrange(1, 2**24 + 1), rng.randrange(1, 9)], ['nvp', min(mesh.nvp, 65535)]]
    lines += [['grid', mesh.w, mesh.h, mesh.border], ['mesh', vertices, rows, mesh.claim]]
    lines += [['v'] + mesh.vertices[meshes.STRIDE * k:meshes.STRIDE * (k + 1)] for k in range(vertices)]
    for i in range(rows):
        row, links = (part[i * mesh.nvp:(i + 1) * mesh.nvp] for part in (mesh.polygons, mesh.links))
        used = len(row)
        while used and row[used - 1] == meshes.NONE and (links[used - 1:used] or [meshes.NONE]) == [meshes.NONE]:
            used -= 1
        lines += [['p', rng.randrange(65536), rng.randrange(256)] + row[:used], ['n'] + (links + [meshes.NONE] * used)[:used]]
    return b''.join(b'\t'.join(str(cell).encode() for cell in line) + b'\n' for line in lines)


def damaged(rng, data):
    """Most texts as they are; the others with a line or a byte gone, twice, or another."""
    kind = rng.randrange(12)
    lines = data.split(b'\n')
    at = rng.randrange(len(lines))
    if kind == 0:
        del lines[at]
    elif kind == 1:
        lines.insert(at, lines[at])
    elif kind == 2:
        lines[at] += rng.choice([b'\t0', b'\t', b'\r', b' ', b'\t65535', b'\t-1'])
    elif kind == 3:
        lines[at] = lines[at].rpartition(b'\t')[0]
    elif kind == 4 and data:
        k = rng.randrange(len(data))
        return data[:k] + bytes([rng.choice([data[k] ^ 1, 48, 45, 9, 10, 0, 255])]) + data[k + 1:]
    elif kind == 5 and data:
        return data[:rng.randrange(len(data))]
    elif kind == 6 and rng.randrange(4) == 0:
        return data + b'v\t0\t0\t0\n' * (LIMIT // 8)
    return b'\n'.join(lines)


def numbers(cells, name, mosts, least=0):
    """The numbers of a line of this name, or None."""
    if cells is None or cells[0] != name or len(cells) != len(mosts) + 1:
        return None
    if not all(DECIMAL.fullmatch(c) and least <= int(c) <= m for c, m in zip(cells[1:], mosts)):
        return None
    return [int(c) for c in cells[1:]]


def mesh_line(cells):
    """Vertices, polygons and the claim, or None."""
    counts = numbers(cells[:3] if cells else None, b'mesh', [COUNT_MOST] * 2)
    if counts is None or len(cells) != 4:
        return None
    below = cells[3].startswith(b'-')
    total = numbers([b''] + [cells[3][below:]], b'', [TOTAL_MOST], int(below))
    return None if total is None else counts + [-total[0] if below else total[0]]


def read(data):
    """A mesh, or a refusal of two numbers."""
    if len(data) > LIMIT:
        return 23, 0
    lines = data.split(b'\n')
    whole = [line.split(b'\t') for line in lines[:-1]]
    more = 1 if lines[-1] else 0  # a last line that no line feed ends
    line = lambda k: whole[k] if k < len(whole) else None
    if line(0) not in ([b'unit', b'mm'], [b'unit', b'in']):
        return 21, 1
    if numbers(line(1), b'cell', [2**24] * 2, 1) is None:
        return 22, 2
    nvp, grid, head = numbers(line(2), b'nvp', [65535]), numbers(line(3), b'grid', [65535] * 3), mesh_line(line(4))
    for k, found in ((3, nvp), (4, grid), (5, head)):
        if found is None:
            return 22, k
    vertices, at, width = [], 5, min(nvp[0], 12)
    for at in range(5, 5 + head[0]):
        place = numbers(line(at), b'v', [65535] * 3)
        if place is None:
            return 22, at + 1
        vertices += place
    polygons, links, at = [], [], 5 + head[0]
    for at in range(at, at + 2 * head[1], 2):
        used = len(line(at) or []) - 3
        row = numbers(line(at), b'p', [65535, 255] + [65535] * used) if 0 <= used <= width else None
        if row is None:
            return 22, at + 1
        beyond = numbers(line(at + 1), b'n', [LINK_MOST] * used)
        if beyond is None:
            return 22, at + 2
        polygons += row[2:] + [meshes.NONE] * (width - used)
        links += beyond + [meshes.NONE] * (width - used)
    end = 5 + head[0] + 2 * head[1]
    if len(whole) + more > end:
        return 22, end + 1
    return meshes.Mesh(nvp[0], *grid, head[2], vertices, polygons, links)


def answer(data):
    """What is printed."""
    found = read(data)
    number, second = found if isinstance(found, tuple) else meshes.verdict(found)
    return b'accepted\n' if number == 0 else b'refused\t%d\t%d\n' % (number, second)

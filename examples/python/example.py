"""Meshes document 01's square, prints the mesh, and writes it as a binary STL, in millimetres, to the file that is named.

usage: example.py LIBRARY PART.stl

LIBRARY is the shared library that `examples/run` makes of the static one; it builds and runs all this.
"""
import ctypes
import sys

NVP, V = 6, 4
T = V - 2
NONE = 65535
CELL_SIZE, CELL_HEIGHT = 6, 7  # places in the header
REPLY, SECOND, THIRD, UNIT = range(4)  # places in the answer


def slice_of(words):
    """A slice is a pointer and its count of elements."""
    return words, ctypes.c_size_t(len(words))


def numbers(kind, values):
    return (kind * len(values))(*values)


def refuse(answer):
    print('refused', answer[REPLY], answer[SECOND])
    sys.exit(1)


def build(library):
    """The square's mesh: the header, and what was lent, cut to the answer's counts."""
    u8, u16, u32 = ctypes.c_uint8, ctypes.c_uint16, ctypes.c_uint32
    # A box of 2 mm by 2 mm, cells of 0.5 mm by 0.5 mm, steps in height of 0.25 mm.
    header = numbers(ctypes.c_float, [0, 0, 0, 2, 0, 2, 0.5, 0.25, 0])
    # One contour: region 1, area code 7, four vertices (x, y, z, flag), the ground on the right hand.
    given = [numbers(u32, [V]), numbers(u16, [1]), numbers(u8, [7]), numbers(u16, [0, 0, 0, 0, 0, 0, 4, 0, 4, 0, 4, 0, 4, 0, 0, 0])]
    # What is lent, each as long as it has to be.
    lent = [(u16 * (3 * V))(), (u16 * (T * NVP))(), (u32 * (T * NVP))(), (u16 * T)(), (u8 * T)(), (u16 * T)(), (u32 * (4096 + 128 * V))()]
    answer = (ctypes.c_uint64 * 4)()
    slices = [part for words in given + lent for part in slice_of(words)]
    reply = library.mittencrest_build_v1(header, ctypes.c_bool(False), u32(NVP), u16(4), u16(4), u16(0), *slices, answer)
    if reply != 0:
        refuse(answer)
    vertices, polygons, neighbours, regions, codes = lent[:5]
    corners = answer[SECOND] * NVP
    return header, answer, vertices[:answer[THIRD] * 3], polygons[:corners], neighbours[:corners], regions, codes


def show(library, header, answer, vertices, polygons, regions, codes):
    cell = library.mittencrest_millimetres_v1(ctypes.c_bool(answer[UNIT] == 1), ctypes.c_float(header[CELL_SIZE]))
    print('mesh: %d vertices, %d polygons, cells of %g mm' % (answer[THIRD], answer[SECOND], cell))
    for i in range(answer[THIRD]):
        print('vertex %d: %d %d %d' % (i, *vertices[3 * i:3 * i + 3]))
    for p in range(answer[SECOND]):
        corners = [c for c in polygons[p * NVP:(p + 1) * NVP] if c != NONE]
        print('polygon %d: region %d, area code %d, corners %s' % (p, regions[p], codes[p], ' '.join(map(str, corners))))


def stl_of(library, header, answer, vertices, polygons, neighbours):
    """The mesh as a binary STL: each polygon has two facets fewer than corners, and all together at most T."""
    file, stl = (ctypes.c_uint8 * (84 + 50 * T))(), (ctypes.c_uint64 * 3)()
    lists = [numbers(ctypes.c_uint16, vertices), numbers(ctypes.c_uint16, polygons), numbers(ctypes.c_uint32, neighbours), file]
    slices = [part for words in lists for part in slice_of(words)]
    reply = library.mittencrest_stl_v1(ctypes.c_uint32(NVP), ctypes.c_bool(answer[UNIT] == 1), ctypes.c_float(header[CELL_SIZE]),
                                       ctypes.c_float(header[CELL_HEIGHT]), *slices, stl)
    if reply != 0:
        refuse(stl)
    return bytes(file)[:84 + 50 * stl[SECOND]]


def main():
    if len(sys.argv) != 3:
        sys.exit(__doc__.strip())
    library = ctypes.CDLL(sys.argv[1])
    library.mittencrest_build_v1.restype = library.mittencrest_stl_v1.restype = ctypes.c_uint32
    library.mittencrest_millimetres_v1.restype = ctypes.c_float
    header, answer, vertices, polygons, neighbours, regions, codes = build(library)
    show(library, header, answer, vertices, polygons, regions, codes)
    file = stl_of(library, header, answer, vertices, polygons, neighbours)
    with open(sys.argv[2], 'wb') as out:
        out.write(file)
    print('stl: %d facets, %d bytes, in millimetres' % ((len(file) - 84) // 50, len(file)))


main()

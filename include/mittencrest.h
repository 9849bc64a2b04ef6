/* Mittencrest: contours in, a polygon mesh out.
 *
 * The functions below are proved: for any numbers at all the build ends with the mesh that document 01's rules give, or with the
 * first refusal that applies, and a refusal writes to no output buffer; the mender, the checker and the writer and reader of
 * binary STL do what document 02's requests say, likewise. What they do is said in crates/rules; what is promised of each, in docs/PROMISES.md.
 *
 * `rt lib`, in crates/capi, writes crates/capi/out/libcapi.a, for x86-64. A slice is a pointer and its count of elements. The pointer of
 * an empty one may be null. Slices must not overlap, but for those that are only read.
 */
#ifndef MITTENCREST_H
#define MITTENCREST_H

#include <stdbool.h>
#include <stddef.h>
#include <stdint.h>

#ifdef __cplusplus
extern "C" {
#endif

/* Places in `header`, which comes back bit for bit, whatever the reply. The cell height has the cell size's unit. */
enum {
    MITTENCREST_MIN_X,
    MITTENCREST_MIN_Y,
    MITTENCREST_MIN_Z,
    MITTENCREST_MAX_X,
    MITTENCREST_MAX_Y,
    MITTENCREST_MAX_Z,
    MITTENCREST_CELL_SIZE,
    MITTENCREST_CELL_HEIGHT,
    MITTENCREST_MAX_EDGE_ERROR,
    MITTENCREST_HEADER_LENGTH
};

/* Places in `answer`. */
enum {
    MITTENCREST_REPLY,  /* the reply's number, which is also the function's result */
    MITTENCREST_SECOND, /* what the table below says */
    MITTENCREST_THIRD,  /* with reply 0 the vertex count, otherwise 0 */
    MITTENCREST_UNIT,   /* 0 for millimetres, 1 for inches, as it was given */
    MITTENCREST_ANSWER_LENGTH
};

/* Replies. They are checked in this order, and the first that applies is given. */
enum {
    MITTENCREST_BUILT = 0,             /* second number: the polygon count; third number: the vertex count */
    MITTENCREST_BAD_CORNER_LIMIT = 1,  /* nvp is below 3 or above 12; nvp */
    MITTENCREST_COUNTS_DISAGREE = 2,   /* not a region and a code a length, not four numbers a vertex, or over 65,535 contours; 0 */
    MITTENCREST_HIGH_COORDINATE = 3,   /* x or z above 32,767; the first such vertex, from 0, skipped contours counted */
    MITTENCREST_BAD_FLAG = 4,          /* a flag other than 0 or 1; the first such vertex, likewise */
    MITTENCREST_TOO_MANY_VERTICES = 5, /* V above 65,535; V */
    MITTENCREST_SHORT_BUFFER = 6,      /* a lent buffer is too short; the first such, from 0, in the order of the parameters */
    MITTENCREST_NO_EAR_IN_CONTOUR = 7, /* a contour has no ear to cut; its number from 0, skipped ones counted */
    MITTENCREST_NO_EAR_IN_HOLE = 8     /* a hole has no ear to cut; the vertex number when tried */
};

/* No polygon beyond a side, and no corner; and the first of the four marks of a portal: x = 0, z = h, x = w, z = 0. */
#define MITTENCREST_NONE 65535u
#define MITTENCREST_PORTAL 65536u

/* Builds a mesh.
 *
 *   nvp                the most corners a polygon may have, 3 to 12
 *   w, h, border       the grid's width and height, and its border; with a border above 0 open sides on the edge become portals
 *   lengths            for each contour how many vertices it has; contours of fewer than 3 are skipped
 *   regions, codes     for each contour its region and its area code
 *   numbers            four for each vertex, contour after contour: x, y, z and flag (1: to be removed)
 *
 * V is the sum of the lengths of contours of 3 or more vertices, T the sum of length minus 2 over the same. Lent buffers, with their
 * least lengths:
 *
 *   vertices      3V            x, y and z of each vertex
 *   polygons      T*nvp         nvp corners a polygon, 65,535 behind the last
 *   neighbours    T*nvp         for each side the polygon beyond it, 65,535 for none, 65,536 to 65,539 for a portal
 *   polyregions   T             the polygons' regions
 *   polycodes     T             their area codes
 *   flags         T             0 for each polygon
 *   work          4096 + 128*V  scratch
 *
 * Replies 1 to 6 write to no buffer. Replies 7 and 8 leave the first six as they were. After 0, 7 and 8 the work buffer's first
 * 4,096 + 128*V words are 0. What lies behind the mesh is as it was, always.
 *
 * The result is the reply's number. `answer` and `header` are written whatever the reply is.
 */
uint32_t mittencrest_build_v1(float header[9], bool inches,
                              uint32_t nvp, uint16_t w, uint16_t h, uint16_t border,
                              const uint32_t *lengths, size_t lengths_count,
                              const uint16_t *regions, size_t regions_count,
                              const uint8_t *codes, size_t codes_count,
                              const uint16_t *numbers, size_t numbers_count,
                              uint16_t *vertices, size_t vertices_count,
                              uint16_t *polygons, size_t polygons_count,
                              uint32_t *neighbours, size_t neighbours_count,
                              uint16_t *polyregions, size_t polyregions_count,
                              uint8_t *polycodes, size_t polycodes_count,
                              uint16_t *flags, size_t flags_count,
                              uint32_t *work, size_t work_count,
                              uint64_t answer[4]);

/* Places in the mender's `answer`. */
enum {
    /* MITTENCREST_REPLY, MITTENCREST_SECOND and MITTENCREST_THIRD, as above */
    MITTENCREST_MENDED_LENGTH = 3
};

/* The mender's replies. They are checked in this order: 80, 2, 82, 81. A refusal's second and third number are 0. */
enum {
    MITTENCREST_MENDED = 0,             /* second number: how many points were lost; third number: how many are kept */
    MITTENCREST_NOT_WHOLE = 80,         /* the numbers are not whole vertices */
    MITTENCREST_LENGTHS_DISAGREE = 2,   /* of a job: the lengths are not those of the vertices, or there are over 65,535 contours */
    MITTENCREST_SHORT_SCRATCH = 82,     /* `work` has fewer words than the longest contour has vertices, or there are over 4,294,967,295 vertices */
    MITTENCREST_LIST_FULL = 81          /* more points are lost than `lost` has room for */
};

/* Mends one traced contour in place, before a build, only when asked: doubled points and spikes are taken out of it.
 *
 *   numbers   four for each vertex: x, y, z and flag. They come back as the vertices that are kept, in their order, and zeros behind them
 *   lost      takes the number, from 0, of each vertex that was lost, in the order of the losses; words behind the last are as they were
 *   work      scratch, a word for each vertex
 *
 * The lowest place that applies, round the end too: a point equal in x and z to the one after it loses that later one; a point, another,
 * and the first's x and z again lose the latter two. Where both apply at one place, the first does. A point that is kept takes a 1 as its
 * flag if one that it lost had a 1; other flags are left, as is y. So on, till neither applies or under three points are left. The
 * doubled area stays as it was. x and z above 32,767 and flags other than 0 and 1 are not refused here; the build refuses them.
 *
 * A refusal writes neither `numbers` nor `lost`. After 0 and 81 the first words of `work`, one for each vertex, are 0; after 80 and 82
 * it is as it was. The result is the reply's number. `answer` is written whatever the reply is. No slices may overlap.
 */
uint32_t mittencrest_mend_v1(uint16_t *numbers, size_t numbers_count,
                             uint32_t *lost, size_t lost_count,
                             uint32_t *work, size_t work_count,
                             uint64_t answer[3]);

/* Mends all contours of a job in place, each by itself.
 *
 *   lengths   for each contour how many vertices it has; they come back as how many are kept. Their number stays
 *   numbers   as above, contour after contour; the vertices that are kept close up over the contours, with zeros behind the last
 *   lost      as above, contour after contour; vertices are numbered through the job, as replies 3 and 4 number them
 *   work      scratch, a word for each vertex of the longest contour
 *
 * Replies and buffers as above; reply 2 leaves all four, and 81 is given, and nothing mended, if the list has no room for what all
 * contours lose together.
 */
uint32_t mittencrest_mend_job_v1(uint32_t *lengths, size_t lengths_count,
                                 uint16_t *numbers, size_t numbers_count,
                                 uint32_t *lost, size_t lost_count,
                                 uint32_t *work, size_t work_count,
                                 uint64_t answer[3]);

/* The checker's verdicts. They are looked for in this order, each in the whole mesh, and the first that applies is given. */
enum {
    MITTENCREST_ACCEPTED = 0,     /* second number: 0 */
    MITTENCREST_BAD_BUFFERS = 40, /* not whole vertices or polygons, not a link a corner, nvp not 3 to 12, x or z above 32,767, too many; 0 */
    MITTENCREST_BAD_CORNERS = 41, /* a corner is no vertex, a polygon has under 3, or something but 65,535 stands behind them; the first polygon */
    MITTENCREST_BAD_LINKS = 42,   /* a link isn't named back, or names no other polygon of the mesh; the first polygon that holds such a link */
    MITTENCREST_BAD_PORTALS = 43, /* an open side bears something else than its place on the grid gives; the first polygon with such a side */
    MITTENCREST_BAD_AREA = 44     /* the doubled areas don't sum to the claim; 0 */
};

enum {
    /* places in the checker's `answer`: MITTENCREST_REPLY, MITTENCREST_SECOND and MITTENCREST_THIRD, which is 0 */
    MITTENCREST_VERDICT_LENGTH = 3
};

/* Checks a mesh, from elsewhere or from here. Any numbers may be handed in; nothing is written but `answer`.
 *
 *   nvp            how many corners and links a polygon has in the lists, used or not, 3 to 12
 *   w, h, border   the grid's width and height, and its border
 *   claim          the sum of the doubled areas that the mesh is said to have, in cells, with its sign
 *   vertices       three for each vertex, used or not: x, y and z. At most 65,535 vertices
 *   polygons       nvp corners a polygon, 65,535 behind the last. At most 65,535 polygons
 *   links          for each corner the link of the side that begins there
 *
 * The lists are exactly the mesh: a buffer of mittencrest_build_v1 is handed on cut to the counts of its reply. A mesh is accepted exactly
 * if every polygon has 3 to nvp corners, all of them vertices, and 65,535 behind them; the link of each side from a to b is 65,535 to 65,539,
 * or names another polygon that has a side from b to a whose link names this one; links behind the last corner are 65,535; a side that
 * names none bears what the build's R7 gives: with a border 65,536 to 65,539 if both its ends are on x = 0, z = h, x = w or z = 0, tried in
 * this order, else 65,535; and the doubled areas sum to the claim. A corner twice, a side from a vertex to itself, open sides that could be
 * joined and any y are no fault. Every mesh that mittencrest_build_v1 builds is accepted with its own total.
 *
 * The result is the verdict's number. `answer` is written whatever it is, and must not overlap with the lists, which may overlap.
 */
uint32_t mittencrest_check_v1(uint32_t nvp, uint16_t w, uint16_t h, uint16_t border, int64_t claim,
                              const uint16_t *vertices, size_t vertices_count,
                              const uint16_t *polygons, size_t polygons_count,
                              const uint32_t *links, size_t links_count,
                              uint64_t answer[3]);

/* The replies to writing a binary STL. A mesh is checked first: 40 to 42 as above, with the same second numbers; then 70, then 71. */
enum {
    MITTENCREST_STL_DONE = 0,       /* second number: how many facets the file has */
    MITTENCREST_BAD_SCALE = 70,     /* cell size or height, in millimetres, is not finite and above zero; 0 */
    MITTENCREST_STL_NO_ROOM = 71,   /* fewer bytes, or words, were lent than are needed; 0 */
    /* to reading one, in this order: 72, 73, 71 */
    MITTENCREST_BAD_LENGTH = 72,    /* the file's length is not 84 and 50 times the count in it; 0 */
    MITTENCREST_NOT_ZERO = 73       /* the header, a normal or an attribute is not zero; the first such byte of the file, from 0 */
};

enum {
    /* places in `answer`: MITTENCREST_REPLY, MITTENCREST_SECOND and MITTENCREST_THIRD, which is 0 */
    MITTENCREST_STL_LENGTH = 3,
    /* the bytes in front of the facets, and of a facet; the words of a facet that is read */
    MITTENCREST_STL_FRONT_BYTES = 84,
    MITTENCREST_STL_FACET_BYTES = 50,
    MITTENCREST_STL_FACET_WORDS = 9
};

/* Writes a mesh as a binary STL. An STL has no unit: the numbers in it are millimetres, always.
 *
 *   nvp, vertices, polygons, links   a mesh as mittencrest_check_v1 takes it: exactly the mesh
 *   inches, size, height             the cell size and height as the build's header has them, in millimetres or in inches
 *   file                             lent bytes
 *
 * A polygon of n corners becomes n - 2 facets, a fan from its first corner, in the order of its corners; a facet of no area too. The file
 * has 80 zero bytes, the count of facets, and for each facet a normal of zeros, three points and two zero bytes; numbers are of 32 bits,
 * the lowest byte first. A coordinate is the vertex's number times the cell size in millimetres (y: times the height), rounded once;
 * inches are made millimetres first, as mittencrest_millimetres_v1 does it. The box is not added. A product may be infinite, and is
 * written; it is never a NaN.
 *
 * The file needs 84 + 50 times the facets, at most 32,767,584 bytes, and stands at the beginning of `file`; what is behind it is as it
 * was. A refusal writes nothing of it. The result is the reply's number. `answer` is written whatever it is. `file` and `answer` must not
 * overlap with anything; the lists may overlap.
 */
uint32_t mittencrest_stl_v1(uint32_t nvp, bool inches, float size, float height,
                            const uint16_t *vertices, size_t vertices_count,
                            const uint16_t *polygons, size_t polygons_count,
                            const uint32_t *links, size_t links_count,
                            uint8_t *file, size_t file_count,
                            uint64_t answer[3]);

/* Reads a binary STL as mittencrest_stl_v1 writes it.
 *
 *   file     the file's bytes, all of them. Any bytes may be handed in
 *   points   lent words: the 32 bits of each coordinate, as they are in the file, nine a facet: x, y and z of its three points
 *
 * Any coordinate is read, negative, infinite and NaN too, with its bits. Words behind the last are as they were. A refusal writes none.
 * Reading what was written gives the same facets bit for bit. The result is the reply's number; `answer` as above.
 */
uint32_t mittencrest_unstl_v1(const uint8_t *file, size_t file_count,
                              uint32_t *points, size_t points_count,
                              uint64_t answer[3]);

/* The squared distance on the plane from the point p to the segment from a to b, one rounding for each operation. */
float mittencrest_distance_v1(uint16_t px, uint16_t pz, uint16_t ax, uint16_t az, uint16_t bx, uint16_t bz);

/* A length of this many thousandths: divided by 1000 with one rounding, for numbers up to 16,777,216. */
float mittencrest_thousandths_v1(uint32_t thousandths);

/* A length in millimetres: itself, or inches times the float 25.4, rounded once. */
float mittencrest_millimetres_v1(bool inches, float length);

#ifdef __cplusplus
}
#endif

#endif

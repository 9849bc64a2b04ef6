/* Meshes document 01's square, prints the mesh, and writes it as a binary STL, in millimetres, to the file that is named. `examples/run` builds
 * and runs it. */
#include "mittencrest.h"

#include <inttypes.h>
#include <stdio.h>

enum { NVP = 6, V = 4, T = V - 2 };

/* The mesh as a binary STL: each polygon has two facets fewer than corners, and all together at most T. */
static int write_stl(const char *name, const float *header, bool inches, const uint16_t *vertices, size_t nverts,
                     const uint16_t *polygons, const uint32_t *neighbours, size_t npolys)
{
    static uint8_t file[MITTENCREST_STL_FRONT_BYTES + MITTENCREST_STL_FACET_BYTES * T];
    uint64_t answer[MITTENCREST_STL_LENGTH];
    uint32_t reply = mittencrest_stl_v1(NVP, inches, header[MITTENCREST_CELL_SIZE], header[MITTENCREST_CELL_HEIGHT], vertices, 3 * nverts,
                                        polygons, NVP * npolys, neighbours, NVP * npolys, file, sizeof file, answer);
    if (reply != MITTENCREST_STL_DONE) {
        printf("refused %" PRIu32 " %" PRIu64 "\n", reply, answer[MITTENCREST_SECOND]);
        return 1;
    }
    size_t bytes = MITTENCREST_STL_FRONT_BYTES + MITTENCREST_STL_FACET_BYTES * (size_t)answer[MITTENCREST_SECOND];
    FILE *out = fopen(name, "wb");
    if (out == NULL || fwrite(file, 1, bytes, out) != bytes || fclose(out) != 0) {
        perror(name);
        return 1;
    }
    printf("stl: %" PRIu64 " facets, %zu bytes, in millimetres\n", answer[MITTENCREST_SECOND], bytes);
    return 0;
}

int main(int count, char **words)
{
    if (count != 2) {
        fprintf(stderr, "usage: example PART.stl\n");
        return 2;
    }
    /* A box of 2 mm by 2 mm, cells of 0.5 mm by 0.5 mm, steps in height of 0.25 mm. */
    float header[MITTENCREST_HEADER_LENGTH] = {0, 0, 0, 2, 0, 2, 0.5f, 0.25f, 0};

    /* One contour: region 1, area code 7, four vertices (x, y, z, flag), the ground on the right hand. */
    const uint32_t lengths[] = {V};
    const uint16_t regions[] = {1};
    const uint8_t codes[] = {7};
    const uint16_t numbers[4 * V] = {0, 0, 0, 0, 0, 0, 4, 0, 4, 0, 4, 0, 4, 0, 0, 0};

    /* What is lent, each as long as it has to be. */
    uint16_t vertices[3 * V], polygons[T * NVP], polyregions[T], flags[T];
    uint8_t polycodes[T];
    uint32_t neighbours[T * NVP];
    static uint32_t work[4096 + 128 * V];
    uint64_t answer[MITTENCREST_ANSWER_LENGTH];

    uint32_t reply = mittencrest_build_v1(header, false, NVP, 4, 4, 0, lengths, 1, regions, 1, codes, 1, numbers, 4 * V,
                                          vertices, 3 * V, polygons, T * NVP, neighbours, T * NVP, polyregions, T, polycodes, T,
                                          flags, T, work, 4096 + 128 * V, answer);
    if (reply != MITTENCREST_BUILT) {
        printf("refused %" PRIu32 " %" PRIu64 "\n", reply, answer[MITTENCREST_SECOND]);
        return 1;
    }
    float cell = mittencrest_millimetres_v1(answer[MITTENCREST_UNIT] == 1, header[MITTENCREST_CELL_SIZE]);
    printf("mesh: %" PRIu64 " vertices, %" PRIu64 " polygons, cells of %g mm\n", answer[MITTENCREST_THIRD], answer[MITTENCREST_SECOND], cell);
    for (uint64_t i = 0; i < answer[MITTENCREST_THIRD]; i++)
        printf("vertex %" PRIu64 ": %u %u %u\n", i, vertices[3 * i], vertices[3 * i + 1], vertices[3 * i + 2]);
    for (uint64_t p = 0; p < answer[MITTENCREST_SECOND]; p++) {
        printf("polygon %" PRIu64 ": region %u, area code %u, corners", p, polyregions[p], polycodes[p]);
        for (int i = 0; i < NVP && polygons[p * NVP + i] != MITTENCREST_NONE; i++)
            printf(" %u", polygons[p * NVP + i]);
        printf("\n");
    }
    return write_stl(words[1], header, answer[MITTENCREST_UNIT] == 1, vertices, answer[MITTENCREST_THIRD], polygons, neighbours,
                     answer[MITTENCREST_SECOND]);
}

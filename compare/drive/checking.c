/* Meshes that are checked: modes check and checktime. */
#include "driver.h"

/* One call, held to what is said of every reply. */
uint32_t check(const struct mesh *mesh, uint64_t answer[MITTENCREST_VERDICT_LENGTH])
{
    memset(answer, 0xa5, MITTENCREST_VERDICT_LENGTH * sizeof answer[0]);
    uint32_t reply = mittencrest_check_v1(mesh->nvp, mesh->w, mesh->h, mesh->border, mesh->claim, mesh->vertices.words, mesh->vertices.count,
                                          mesh->polygons.words, mesh->polygons.count, mesh->links.words, mesh->links.count, answer);
    if (answer[MITTENCREST_REPLY] != reply)
        stop(3, "the answer's reply isn't that of the call");
    if (answer[MITTENCREST_THIRD] != 0)
        stop(3, "a verdict has a third number");
    return reply;
}

/* x or z of the vertex that is corner k of the polygon whose words begin at `first`. */
static int64_t place(const struct mesh *mesh, size_t first, size_t k, size_t axis)
{
    return get(&mesh->vertices, 3 * (size_t)get(&mesh->polygons, first + k) + axis);
}

/* The doubled areas of a mesh's polygons, each as a fan from its first corner, summed. Corners have to be vertices. */
int64_t doubled_area(const struct mesh *mesh)
{
    int64_t sum = 0;
    for (size_t first = 0; first + mesh->nvp <= mesh->polygons.count; first += mesh->nvp) {
        int64_t x = place(mesh, first, 0, 0), z = place(mesh, first, 0, 2);
        for (size_t k = 2; k < mesh->nvp && get(&mesh->polygons, first + k) != MITTENCREST_NONE; k++)
            sum += (place(mesh, first, k - 1, 0) - x) * (place(mesh, first, k, 2) - z) -
                   (place(mesh, first, k, 0) - x) * (place(mesh, first, k - 1, 2) - z);
    }
    return sum;
}

static void begin_mesh(struct mesh *mesh)
{
    memset(mesh, 0, sizeof *mesh);
    mesh->vertices.size = mesh->polygons.size = 2;
    mesh->links.size = 4;
}

/* Reads one record. False at the end of the input. */
static bool read_mesh(struct mesh *mesh)
{
    if (!next_word())
        return false;
    if (strcmp(word, "check") != 0)
        stop(2, "malformed input: '%s' where 'check' is due", word);
    mesh->nvp = (uint32_t)number("nvp", UINT32_MAX);
    mesh->w = (uint16_t)number("w", UINT16_MAX);
    mesh->h = (uint16_t)number("h", UINT16_MAX);
    mesh->border = (uint16_t)number("border", UINT16_MAX);
    mesh->claim = signed_number("the claim");
    mesh->vertices.count = mesh->polygons.count = mesh->links.count = 0;
    read_list(&mesh->vertices, "a vertex's number", UINT16_MAX);
    read_list(&mesh->polygons, "a corner", UINT16_MAX);
    read_list(&mesh->links, "a link", UINT32_MAX);
    want_word("'end'");
    if (strcmp(word, "end") != 0)
        stop(2, "malformed input: '%s' where 'end' is due", word);
    return true;
}

void mode_check(void)
{
    struct mesh mesh;
    uint64_t answer[MITTENCREST_VERDICT_LENGTH];
    begin_mesh(&mesh);
    while (read_mesh(&mesh)) {
        check(&mesh, answer);
        printf("%" PRIu64 " %" PRIu64 "\ndone\n", answer[MITTENCREST_REPLY], answer[MITTENCREST_SECOND]);
        flush();
    }
}

/* The shortest of several calls on one mesh. */
void mode_checktime(void)
{
    struct mesh mesh;
    uint64_t answer[MITTENCREST_VERDICT_LENGTH];
    begin_mesh(&mesh);
    while (read_mesh(&mesh)) {
        struct stopwatch watch = {0};
        while (runs_again(&watch)) {
            start_run(&watch);
            check(&mesh, answer);
            end_run(&watch);
        }
        print_time(answer[MITTENCREST_REPLY], &watch);
    }
}

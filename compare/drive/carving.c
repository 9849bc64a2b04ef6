/* Binary STL files, written and read: modes stl, unstl, stltime and unstltime. */
#include "driver.h"

enum { BYTES_A_LINE = 32, PATTERNS_A_LINE = 9 };

/* A mesh that becomes a file, its scale, and the lent bytes. */
struct carving {
    uint32_t nvp;
    bool inches;
    float size, height;
    struct list vertices, polygons, links, file;
};

/* A file that is read, and the lent words. */
struct reading {
    struct list file, points;
};

static float pattern(const char *what)
{
    want_word(what);
    uint32_t bits = bits_in();
    float value;
    memcpy(&value, &bits, sizeof value);
    return value;
}

static void want_end(void)
{
    want_word("'end'");
    if (strcmp(word, "end") != 0)
        stop(2, "malformed input: '%s' where 'end' is due", word);
}

/* Reads one record. False at the end of the input. */
static bool read_carving(struct carving *c)
{
    if (!next_word())
        return false;
    if (strcmp(word, "stl") != 0)
        stop(2, "malformed input: '%s' where 'stl' is due", word);
    c->nvp = (uint32_t)number("nvp", UINT32_MAX);
    want_word("the unit");
    c->inches = unit_in();
    c->size = pattern("the cell size");
    c->height = pattern("the cell height");
    c->vertices.count = c->polygons.count = c->links.count = 0;
    read_list(&c->vertices, "a vertex's number", UINT16_MAX);
    read_list(&c->polygons, "a corner", UINT16_MAX);
    read_list(&c->links, "a link", UINT32_MAX);
    lend(&c->file, (size_t)number("the room", MOST_WORDS));
    want_end();
    return true;
}

static void begin_carving(struct carving *c)
{
    memset(c, 0, sizeof *c);
    c->vertices.size = c->polygons.size = 2;
    c->links.size = 4;
    c->file.size = 1;
}

/* The value of a hex digit. */
static unsigned nibble(char c)
{
    return (unsigned)(c <= '9' ? c - '0' : (c | 32) - 'a' + 10);
}

/* `count` bytes as hex digits, in words of an even number of them. */
static void read_bytes(struct list *list, uint64_t count)
{
    list->count = 0;
    while (list->count < count) {
        want_word("the file's bytes");
        size_t digits = strlen(word);
        if (digits % 2 != 0 || strspn(word, "0123456789abcdefABCDEF") != digits || digits / 2 > count - list->count)
            stop(2, "malformed input: '%s' is not of the file's bytes, two hex digits each", word);
        for (const char *c = word; *c; c += 2)
            push(list, 16 * nibble(c[0]) + nibble(c[1]));
    }
}

static bool read_reading(struct reading *r)
{
    if (!next_word())
        return false;
    if (strcmp(word, "unstl") != 0)
        stop(2, "malformed input: '%s' where 'unstl' is due", word);
    read_bytes(&r->file, number("the file's length", MOST_WORDS));
    lend(&r->points, (size_t)number("the room", MOST_WORDS));
    want_end();
    return true;
}

static void begin_reading(struct reading *r)
{
    memset(r, 0, sizeof *r);
    r->file.size = 1;
    r->points.size = 4;
}

/* What is said of every reply. */
static void hold(uint32_t reply, const uint64_t answer[MITTENCREST_STL_LENGTH])
{
    if (answer[MITTENCREST_REPLY] != reply)
        stop(3, "the answer's reply isn't that of the call");
    if (answer[MITTENCREST_THIRD] != 0)
        stop(3, "a reply has a third number");
}

static void write_file(struct carving *c, uint64_t answer[MITTENCREST_STL_LENGTH])
{
    memset(answer, 0xa5, MITTENCREST_STL_LENGTH * sizeof answer[0]);
    hold(mittencrest_stl_v1(c->nvp, c->inches, c->size, c->height, c->vertices.words, c->vertices.count, c->polygons.words,
                            c->polygons.count, c->links.words, c->links.count, c->file.words, c->file.count, answer),
         answer);
}

static void read_file(struct reading *r, uint64_t answer[MITTENCREST_STL_LENGTH])
{
    memset(answer, 0xa5, MITTENCREST_STL_LENGTH * sizeof answer[0]);
    hold(mittencrest_unstl_v1(r->file.words, r->file.count, r->points.words, r->points.count, answer), answer);
}

static void print_reply(const uint64_t answer[MITTENCREST_STL_LENGTH])
{
    printf("%" PRIu64 " %" PRIu64 "\n", answer[MITTENCREST_REPLY], answer[MITTENCREST_SECOND]);
}

void mode_stl(void)
{
    struct carving c;
    uint64_t answer[MITTENCREST_STL_LENGTH];
    begin_carving(&c);
    while (read_carving(&c)) {
        fill_lent(&c.file, 0);
        write_file(&c, answer);
        print_reply(answer);
        printf("b %zu\n", c.file.count);
        for (size_t i = 0; i < c.file.count; i++)
            printf("%02x%s", get(&c.file, i), i % BYTES_A_LINE == BYTES_A_LINE - 1 || i + 1 == c.file.count ? "\n" : "");
        printf("done\n");
        flush();
    }
}

void mode_unstl(void)
{
    struct reading r;
    uint64_t answer[MITTENCREST_STL_LENGTH];
    begin_reading(&r);
    while (read_reading(&r)) {
        fill_lent(&r.points, 0);
        read_file(&r, answer);
        print_reply(answer);
        printf("f %zu\n", r.points.count);
        for (size_t i = 0; i < r.points.count; i++)
            printf("%08x%s", get(&r.points, i), i % PATTERNS_A_LINE == PATTERNS_A_LINE - 1 || i + 1 == r.points.count ? "\n" : " ");
        printf("done\n");
        flush();
    }
}

/* The shortest of several calls on one mesh, and on one file. */
void mode_stltime(void)
{
    struct carving c;
    uint64_t answer[MITTENCREST_STL_LENGTH];
    begin_carving(&c);
    while (read_carving(&c)) {
        struct stopwatch watch = {0};
        while (runs_again(&watch)) {
            start_run(&watch);
            write_file(&c, answer);
            end_run(&watch);
        }
        print_time(answer[MITTENCREST_REPLY], &watch);
    }
}

void mode_unstltime(void)
{
    struct reading r;
    uint64_t answer[MITTENCREST_STL_LENGTH];
    begin_reading(&r);
    while (read_reading(&r)) {
        struct stopwatch watch = {0};
        while (runs_again(&watch)) {
            start_run(&watch);
            read_file(&r, answer);
            end_run(&watch);
        }
        print_time(answer[MITTENCREST_REPLY], &watch);
    }
}

/* Jobs that are built: modes build, buffers, time and header. */
#include "driver.h"

enum { BUFFERS = 7 };

struct job {
    uint32_t nvp;
    uint16_t w, h, border;
    struct list lengths, regions, codes, numbers;
    struct list lent[BUFFERS]; /* in document 01's order */
};

/* ------------------------------------------------------------------------------------------------------------------ jobs */

static void read_contours(struct job *job)
{
    uint64_t contours = number("the number of contours", SIZE_MAX);
    for (uint64_t c = 0; c < contours; c++) {
        push(&job->regions, number("a region", UINT16_MAX));
        push(&job->codes, number("an area code", UINT8_MAX));
        uint64_t length = number("a contour's length", UINT32_MAX);
        push(&job->lengths, length);
        for (uint64_t i = 0; i < 4 * length; i++)
            push(&job->numbers, number("a vertex's number", UINT16_MAX));
    }
}

/* Each buffer just as long as it has to be; V and T cut to 65,535 and nvp to 12, so that jobs that will be refused need no memory. */
static void least_lengths(const struct job *job, uint64_t least[BUFFERS])
{
    uint64_t v = 0, t = 0, nvp = job->nvp < 12 ? job->nvp : 12;
    for (size_t c = 0; c < job->lengths.count; c++) {
        uint64_t length = get(&job->lengths, c);
        if (length >= 3) {
            v += length;
            t += length - 2;
        }
    }
    v = v < 65535 ? v : 65535;
    t = t < 65535 ? t : 65535;
    least[0] = 3 * v;
    least[1] = least[2] = t * nvp;
    least[3] = least[4] = least[5] = t;
    least[6] = 4096 + 128 * v;
}

/* Reads one job and lends its buffers. False at the end of the input. */
static bool read_job(struct job *job)
{
    if (!next_word())
        return false;
    bool raw = strcmp(word, "rawjob") == 0;
    if (!raw && strcmp(word, "job") != 0)
        stop(2, "malformed input: '%s' where 'job' or 'rawjob' is due", word);
    job->nvp = (uint32_t)number("nvp", UINT32_MAX);
    job->w = (uint16_t)number("w", UINT16_MAX);
    job->h = (uint16_t)number("h", UINT16_MAX);
    job->border = (uint16_t)number("border", UINT16_MAX);
    job->lengths.count = job->regions.count = job->codes.count = job->numbers.count = 0;
    if (raw) {
        read_list(&job->lengths, "a length", UINT32_MAX);
        read_list(&job->regions, "a region", UINT16_MAX);
        read_list(&job->codes, "an area code", UINT8_MAX);
        read_list(&job->numbers, "a vertex's number", UINT16_MAX);
    } else {
        read_contours(job);
    }
    uint64_t have[BUFFERS];
    least_lengths(job, have);
    want_word("'bufs' or 'end'");
    if (strcmp(word, "bufs") == 0) {
        for (int k = 0; k < BUFFERS; k++)
            have[k] = number("a buffer's length", MOST_WORDS);
        want_word("'end'");
    }
    if (strcmp(word, "end") != 0)
        stop(2, "malformed input: '%s' where 'end' is due", word);
    for (int k = 0; k < BUFFERS; k++)
        lend(&job->lent[k], (size_t)have[k]);
    return true;
}

static void begin(struct job *job)
{
    static const size_t sizes[BUFFERS] = {2, 2, 4, 2, 1, 2, 4};
    memset(job, 0, sizeof *job);
    job->lengths.size = 4;
    job->regions.size = 2;
    job->codes.size = 1;
    job->numbers.size = 2;
    for (int k = 0; k < BUFFERS; k++)
        job->lent[k].size = sizes[k];
}

/* What the lent words hold before the build. */
static void fill(struct job *job)
{
    for (uint32_t k = 0; k < BUFFERS; k++)
        fill_lent(&job->lent[k], k);
}

/* One build, with this header. */
static uint32_t call(struct job *job, float header[MITTENCREST_HEADER_LENGTH], bool inches, uint64_t answer[MITTENCREST_ANSWER_LENGTH])
{
    struct list *lent = job->lent;
    return mittencrest_build_v1(header, inches, job->nvp, job->w, job->h, job->border,
                                job->lengths.words, job->lengths.count, job->regions.words, job->regions.count,
                                job->codes.words, job->codes.count, job->numbers.words, job->numbers.count,
                                lent[0].words, lent[0].count, lent[1].words, lent[1].count, lent[2].words, lent[2].count,
                                lent[3].words, lent[3].count, lent[4].words, lent[4].count, lent[5].words, lent[5].count,
                                lent[6].words, lent[6].count, answer);
}

/* One build, held to what is said of every reply. The header's bits are odd ones: NaNs, quiet and not, with payloads, -0, the smallest. */
static void build(struct job *job, uint64_t answer[MITTENCREST_ANSWER_LENGTH])
{
    static const uint32_t bits[MITTENCREST_HEADER_LENGTH] = {0x7f800001, 0xffc12345, 0x80000000, 0x00000001, 0x7fffffff,
                                                             0xff800000, 0x3e99999a, 0xffa00001, 0x00800000};
    static bool inches;
    float header[MITTENCREST_HEADER_LENGTH];
    inches = !inches;
    memcpy(header, bits, sizeof header);
    memset(answer, 0xa5, MITTENCREST_ANSWER_LENGTH * sizeof answer[0]);
    uint32_t reply = call(job, header, inches, answer);
    if (memcmp(header, bits, sizeof header) != 0)
        stop(3, "the header came back changed");
    if (answer[MITTENCREST_REPLY] != reply || answer[MITTENCREST_UNIT] != inches)
        stop(3, "the answer's reply or unit isn't that of the call");
    if (reply != MITTENCREST_BUILT && answer[MITTENCREST_THIRD] != 0)
        stop(3, "a refusal has a third number");
}

/* ----------------------------------------------------------------------------------------------------------------- modes */

static void print_mesh(const struct job *job, size_t polygons, size_t vertices)
{
    const struct list *lent = job->lent;
    if (3 * vertices > lent[0].count || polygons * job->nvp > lent[1].count || polygons > lent[3].count)
        stop(3, "the mesh has more than its buffers hold");
    printf("ok %zu %zu\n", vertices, polygons);
    for (size_t i = 0; i < vertices; i++)
        printf("v %u %u %u\n", get(&lent[0], 3 * i), get(&lent[0], 3 * i + 1), get(&lent[0], 3 * i + 2));
    for (size_t p = 0; p < polygons; p++) {
        size_t first = p * job->nvp, used = 0;
        printf("p %u %u", get(&lent[3], p), get(&lent[4], p));
        for (; used < job->nvp && get(&lent[1], first + used) != MITTENCREST_NONE; used++)
            printf(" %u", get(&lent[1], first + used));
        printf("\nn");
        for (size_t i = 0; i < used; i++)
            printf(" %u", get(&lent[2], first + i));
        printf("\n");
    }
}

/* "Every mesh we build, with its own total, is accepted." */
static void hold_accepted(const struct job *job, const uint64_t answer[])
{
    if (answer[MITTENCREST_REPLY] != MITTENCREST_BUILT)
        return;
    size_t polygons = (size_t)answer[MITTENCREST_SECOND], vertices = (size_t)answer[MITTENCREST_THIRD];
    struct mesh mesh = {job->nvp, job->w, job->h, job->border, 0, job->lent[0], job->lent[1], job->lent[2]};
    mesh.vertices.count = 3 * vertices;
    mesh.polygons.count = mesh.links.count = polygons * job->nvp;
    mesh.claim = doubled_area(&mesh);
    uint64_t verdict[MITTENCREST_VERDICT_LENGTH];
    if (check(&mesh, verdict) != MITTENCREST_ACCEPTED)
        stop(3, "the checker refuses a mesh that was built: %" PRIu64 " %" PRIu64, verdict[MITTENCREST_REPLY], verdict[MITTENCREST_SECOND]);
}

/* Builds one job after the other, holds each mesh to the checker, and prints what `print` prints. */
static void each_job(void (*print)(const struct job *job, const uint64_t answer[]))
{
    struct job job;
    uint64_t answer[MITTENCREST_ANSWER_LENGTH];
    begin(&job);
    while (read_job(&job)) {
        fill(&job);
        build(&job, answer);
        hold_accepted(&job, answer);
        print(&job, answer);
        printf("done\n");
        flush();
    }
}

static void print_answer(const struct job *job, const uint64_t answer[])
{
    if (answer[MITTENCREST_REPLY] == MITTENCREST_BUILT)
        print_mesh(job, (size_t)answer[MITTENCREST_SECOND], (size_t)answer[MITTENCREST_THIRD]);
    else
        printf("refused %" PRIu64 " %" PRIu64 "\n", answer[MITTENCREST_REPLY], answer[MITTENCREST_SECOND]);
}

void mode_build(void) { each_job(print_answer); }

static void print_buffers(const struct job *job, const uint64_t answer[])
{
    printf("%" PRIu64 " %" PRIu64 " %" PRIu64 "\n", answer[MITTENCREST_REPLY], answer[MITTENCREST_SECOND], answer[MITTENCREST_THIRD]);
    for (int k = 0; k < BUFFERS; k++)
        printf("b %zu %016" PRIx64 "\n", job->lent[k].count, checksum(&job->lent[k]));
}

void mode_buffers(void) { each_job(print_buffers); }

/* The header's bits after one build. They are copied as bytes, so that no float register can quieten a NaN on the way. */
static void print_header(struct job *job, const char *name, uint32_t reply, const uint32_t bits[MITTENCREST_HEADER_LENGTH], bool inches)
{
    float header[MITTENCREST_HEADER_LENGTH];
    uint32_t back[MITTENCREST_HEADER_LENGTH];
    uint64_t answer[MITTENCREST_ANSWER_LENGTH];
    memcpy(header, bits, sizeof header);
    if (call(job, header, inches, answer) != reply)
        stop(3, "the %s job has another reply", name);
    memcpy(back, header, sizeof back);
    printf("%s", name);
    for (int i = 0; i < MITTENCREST_HEADER_LENGTH; i++)
        printf(" %08" PRIx32, back[i]);
    printf(" %s\n", answer[MITTENCREST_UNIT] ? "in" : "mm");
}

void mode_header(void)
{
    static const uint16_t square[16] = {0, 0, 0, 0, 0, 0, 4, 0, 4, 0, 4, 0, 4, 0, 0, 0};
    struct job job;
    uint64_t least[BUFFERS];
    begin(&job);
    job.nvp = 6;
    push(&job.lengths, 4);
    push(&job.regions, 1);
    push(&job.codes, 7);
    for (int i = 0; i < 16; i++)
        push(&job.numbers, square[i]);
    least_lengths(&job, least);
    for (int k = 0; k < BUFFERS; k++)
        lend(&job.lent[k], (size_t)least[k]);
    while (next_line()) {
        uint32_t bits[MITTENCREST_HEADER_LENGTH];
        for (int i = 0; i < MITTENCREST_HEADER_LENGTH; i++) {
            if (i > 0)
                want_on_line("a float");
            bits[i] = bits_in();
        }
        want_on_line("the unit");
        bool inches = unit_in();
        fill(&job);
        job.nvp = 2;
        print_header(&job, "refused", MITTENCREST_BAD_CORNER_LIMIT, bits, inches);
        job.nvp = 6;
        print_header(&job, "built", MITTENCREST_BUILT, bits, inches);
        flush();
    }
}

/* The shortest of several builds of one job. */
void mode_time(void)
{
    struct job job;
    uint64_t answer[MITTENCREST_ANSWER_LENGTH];
    begin(&job);
    while (read_job(&job)) {
        struct stopwatch watch = {0};
        fill(&job);
        while (runs_again(&watch)) {
            start_run(&watch);
            build(&job, answer);
            end_run(&watch);
        }
        print_time(answer[MITTENCREST_REPLY], &watch);
    }
}

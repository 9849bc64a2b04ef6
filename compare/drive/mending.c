/* Traces that are mended: modes mend and mendtime. */
#include "driver.h"

/* A contour or a job that is to be mended, and what is lent for it. */
struct trace {
    bool is_job, shows_work;
    struct list lengths, numbers, lost, work;
};

/* A word a vertex of the longest contour. A length that speaks of more vertices than there are is refused, and needs no memory. */
static size_t scratch_words(const struct trace *trace)
{
    size_t vertices = trace->numbers.count / 4, longest = trace->is_job ? 0 : vertices;
    for (size_t c = 0; trace->is_job && c < trace->lengths.count; c++)
        longest = get(&trace->lengths, c) > longest ? get(&trace->lengths, c) : longest;
    return longest < vertices ? longest : vertices;
}

/* Reads one record. False at the end of the input. */
static bool read_trace(struct trace *trace)
{
    if (!next_word())
        return false;
    trace->is_job = strcmp(word, "mendjob") == 0;
    if (!trace->is_job && strcmp(word, "mend") != 0)
        stop(2, "malformed input: '%s' where 'mend' or 'mendjob' is due", word);
    trace->lengths.count = trace->numbers.count = 0;
    lend(&trace->lost, (size_t)number("the list's room", MOST_WORDS));
    if (trace->is_job)
        read_list(&trace->lengths, "a length", UINT32_MAX);
    read_list(&trace->numbers, "a vertex's number", UINT16_MAX);
    size_t words = scratch_words(trace);
    want_word("'scratch' or 'end'");
    trace->shows_work = strcmp(word, "scratch") == 0;
    if (trace->shows_work) {
        words = (size_t)number("the scratch's words", MOST_WORDS);
        want_word("'end'");
    }
    if (strcmp(word, "end") != 0)
        stop(2, "malformed input: '%s' where 'end' is due", word);
    lend(&trace->work, words);
    return true;
}

static void begin_trace(struct trace *trace)
{
    memset(trace, 0, sizeof *trace);
    trace->lengths.size = trace->lost.size = trace->work.size = 4;
    trace->numbers.size = 2;
}

/* One call, held to what is said of every reply. */
static void mend(struct trace *trace, uint64_t answer[MITTENCREST_MENDED_LENGTH])
{
    memset(answer, 0xa5, MITTENCREST_MENDED_LENGTH * sizeof answer[0]);
    struct list *numbers = &trace->numbers, *lost = &trace->lost, *work = &trace->work;
    uint32_t reply = trace->is_job
        ? mittencrest_mend_job_v1(trace->lengths.words, trace->lengths.count, numbers->words, numbers->count, lost->words, lost->count,
                                  work->words, work->count, answer)
        : mittencrest_mend_v1(numbers->words, numbers->count, lost->words, lost->count, work->words, work->count, answer);
    if (answer[MITTENCREST_REPLY] != reply)
        stop(3, "the answer's reply isn't that of the call");
    if (reply != MITTENCREST_MENDED && (answer[MITTENCREST_SECOND] != 0 || answer[MITTENCREST_THIRD] != 0))
        stop(3, "a refusal has a second or a third number");
}

void mode_mend(void)
{
    struct trace trace;
    uint64_t answer[MITTENCREST_MENDED_LENGTH];
    begin_trace(&trace);
    while (read_trace(&trace)) {
        fill_lent(&trace.lost, 0);
        fill_lent(&trace.work, 1);
        mend(&trace, answer);
        printf("%" PRIu64 " %" PRIu64 " %" PRIu64 "\n", answer[MITTENCREST_REPLY], answer[MITTENCREST_SECOND], answer[MITTENCREST_THIRD]);
        if (trace.is_job)
            print_list('c', &trace.lengths);
        print_list('n', &trace.numbers);
        print_list('l', &trace.lost);
        if (trace.shows_work)
            print_list('s', &trace.work);
        printf("done\n");
        flush();
    }
}

/* The shortest of several calls on one trace. */
void mode_mendtime(void)
{
    struct trace trace;
    uint64_t answer[MITTENCREST_MENDED_LENGTH];
    begin_trace(&trace);
    struct list lengths = trace.lengths, numbers = trace.numbers;
    while (read_trace(&trace)) {
        struct stopwatch watch = {0};
        copy_words(&lengths, &trace.lengths);
        copy_words(&numbers, &trace.numbers);
        while (runs_again(&watch)) {
            copy_words(&trace.lengths, &lengths);
            copy_words(&trace.numbers, &numbers);
            start_run(&watch);
            mend(&trace, answer);
            end_run(&watch);
        }
        print_time(answer[MITTENCREST_REPLY], &watch);
    }
}

/* The clock: the shortest of several runs of one call. */
#include "driver.h"

static uint64_t nanoseconds(void)
{
    struct timespec now;
    clock_gettime(CLOCK_MONOTONIC, &now);
    return (uint64_t)now.tv_sec * 1000000000u + (uint64_t)now.tv_nsec;
}

/* Whether another run is due: there are three at least, and more till 10 ms are spent in all; none but the first begins after 5 s. */
bool runs_again(const struct stopwatch *watch)
{
    return watch->runs < 1 || (watch->all < 5000000000u && (watch->runs < 3 || watch->all < 10000000u));
}

void start_run(struct stopwatch *watch)
{
    watch->start = nanoseconds();
}

void end_run(struct stopwatch *watch)
{
    uint64_t spent = nanoseconds() - watch->start;
    watch->least = watch->runs == 0 || spent < watch->least ? spent : watch->least;
    watch->all += spent;
    watch->runs++;
}

void print_time(uint64_t reply, const struct stopwatch *watch)
{
    printf("time %" PRIu64 " %" PRIu64 "\n", reply, watch->least);
    flush();
}

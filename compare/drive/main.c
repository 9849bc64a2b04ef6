/* The driver: one mode, named by its argument. */
#include "driver.h"

int main(int count, char **words)
{
    static const struct {
        const char *name;
        void (*run)(void);
    } modes[] = {{"build", mode_build}, {"buffers", mode_buffers}, {"dist", mode_dist},
                 {"cell", mode_cell},   {"header", mode_header},   {"time", mode_time},
                 {"mend", mode_mend},   {"mendtime", mode_mendtime},
                 {"check", mode_check}, {"checktime", mode_checktime},
                 {"stl", mode_stl},     {"stltime", mode_stltime},
                 {"unstl", mode_unstl}, {"unstltime", mode_unstltime}};
    static char out[1 << 16];
    setvbuf(stdout, out, _IOFBF, sizeof out);
    if (count == 2) {
        for (size_t i = 0; i < sizeof modes / sizeof modes[0]; i++) {
            if (strcmp(words[1], modes[i].name) == 0) {
                modes[i].run();
                return 0;
            }
        }
    }
    stop(2, "one mode is wanted: build, buffers, dist, cell, header, time, mend, mendtime, check, checktime, stl, "
            "stltime, unstl or unstltime");
    return 2;
}

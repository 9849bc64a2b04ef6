/* Distances and cell sizes: modes dist and cell. */
#include "driver.h"

static uint32_t bits_of(float f)
{
    uint32_t bits;
    memcpy(&bits, &f, sizeof bits);
    return bits;
}

void mode_dist(void)
{
    static const char *const names[6] = {"px", "pz", "ax", "az", "bx", "bz"};
    uint16_t at[6];
    while (next_line()) {
        for (int i = 0; i < 6; i++) {
            if (i > 0)
                want_on_line(names[i]);
            at[i] = (uint16_t)number_in(names[i], UINT16_MAX);
        }
        printf("%08" PRIx32 "\n", bits_of(mittencrest_distance_v1(at[0], at[1], at[2], at[3], at[4], at[5])));
        flush();
    }
}

void mode_cell(void)
{
    while (next_line()) {
        bool inches = unit_in();
        want_on_line("the thousandths");
        float size = mittencrest_thousandths_v1((uint32_t)number_in("the thousandths", UINT32_MAX));
        printf("%08" PRIx32 " %08" PRIx32 "\n", bits_of(size), bits_of(mittencrest_millimetres_v1(inches, size)));
        flush();
    }
}

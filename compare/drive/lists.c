/* Lists of numbers: lent, read, filled, copied, summed up and printed. */
#include "driver.h"

uint32_t get(const struct list *list, size_t i)
{
    switch (list->size) {
    case 1: return ((const uint8_t *)list->words)[i];
    case 2: return ((const uint16_t *)list->words)[i];
    default: return ((const uint32_t *)list->words)[i];
    }
}

void set(struct list *list, size_t i, uint32_t value)
{
    switch (list->size) {
    case 1: ((uint8_t *)list->words)[i] = (uint8_t)value; break;
    case 2: ((uint16_t *)list->words)[i] = (uint16_t)value; break;
    default: ((uint32_t *)list->words)[i] = value; break;
    }
}

void push(struct list *list, uint64_t value)
{
    if (list->count == list->room) {
        list->room = list->room ? 2 * list->room : 64;
        list->words = realloc(list->words, list->room * list->size);
        if (list->words == NULL)
            stop(2, "the job is too large for the memory");
    }
    set(list, list->count++, (uint32_t)value);
}

/* A buffer of exactly this many words, so that tools which watch the memory see a word too far; none for an empty one. */
void lend(struct list *list, size_t count)
{
    free(list->words);
    list->words = NULL;
    list->count = count;
    if (count > 0 && (list->words = malloc(count * list->size)) == NULL)
        stop(2, "a buffer of %zu words is too large for the memory", count);
}

void read_list(struct list *list, const char *what, uint64_t most)
{
    uint64_t count = number("a list's count", SIZE_MAX);
    for (uint64_t i = 0; i < count; i++)
        push(list, number(what, most));
}

/* What lent words hold before a call: buffer k, from 0. */
void fill_lent(struct list *list, uint32_t k)
{
    unsigned shift = 8 * (4 - (unsigned)list->size);
    uint32_t value = 40503 * (k + 1);
    for (size_t i = 0; i < list->count; i++, value += 2654435761u)
        set(list, i, value >> shift);
}

/* A copy of a list's words, or the words from a copy. */
void copy_words(struct list *to, const struct list *from)
{
    lend(to, from->count);
    to->room = to->count;
    if (from->count > 0)
        memcpy(to->words, from->words, from->count * from->size);
}

/* FNV-1a, 64 bits, over each word's value as four bytes, lowest first. */
uint64_t checksum(const struct list *list)
{
    uint64_t sum = 14695981039346656037u;
    for (size_t i = 0; i < list->count; i++) {
        uint32_t value = get(list, i);
        for (int b = 0; b < 4; b++, value >>= 8)
            sum = (sum ^ (value & 255)) * 1099511628211u;
    }
    return sum;
}

void print_list(char name, const struct list *list)
{
    printf("%c", name);
    for (size_t i = 0; i < list->count; i++)
        printf(" %" PRIu32, get(list, i));
    printf("\n");
}

/* How the driver ends; and words and numbers that are read. */
#include "driver.h"

/* ------------------------------------------------------------------------------------------------------------------ ends */

void stop(int status, const char *format, ...)
{
    va_list rest;
    fflush(stdout);
    fputs("driver: ", stderr);
    va_start(rest, format);
    vfprintf(stderr, format, rest);
    va_end(rest);
    fputc('\n', stderr);
    exit(status);
}

/* What was answered so far leaves the program. */
void flush(void)
{
    if (fflush(stdout) != 0 || ferror(stdout))
        stop(2, "can't write the answer");
}

/* --------------------------------------------------------------------------------------------------------------- reading */

char word[LONGEST_WORD + 1];
static bool fresh;             /* the word is the first of its line */
static bool line_begins = true;

/* The next word, or false at the end of the input. */
bool next_word(void)
{
    int c = getc_unlocked(stdin);
    while (c != EOF && isspace(c)) {
        line_begins |= c == '\n';
        c = getc_unlocked(stdin);
    }
    if (c == EOF) {
        if (ferror(stdin))
            stop(2, "can't read the input");
        return false;
    }
    size_t n = 0;
    for (; c != EOF && !isspace(c); c = getc_unlocked(stdin)) {
        if (n == LONGEST_WORD)
            stop(2, "malformed input: a word that begins with '%.*s' is too long", LONGEST_WORD, word);
        word[n++] = (char)c;
    }
    word[n] = 0;
    fresh = line_begins;
    line_begins = c == '\n';
    return true;
}

void want_word(const char *what)
{
    if (!next_word())
        stop(2, "malformed input: it ends where %s is due", what);
}

/* A decimal, digits only. */
uint64_t number_in(const char *what, uint64_t most)
{
    uint64_t n = 0;
    for (const char *c = word; *c; c++) {
        uint64_t digit = (uint64_t)(*c - '0');
        if (*c < '0' || *c > '9' || n > (UINT64_MAX - digit) / 10)
            stop(2, "malformed input: '%s' is no number for %s", word, what);
        n = 10 * n + digit;
    }
    if (n > most)
        stop(2, "malformed input: %s is %s, above %" PRIu64, what, word, most);
    return n;
}

uint64_t number(const char *what, uint64_t most)
{
    want_word(what);
    return number_in(what, most);
}

/* A decimal with `-` in front if it is below zero. */
int64_t signed_number(const char *what)
{
    want_word(what);
    bool below = word[0] == '-';
    uint64_t n = 0;
    if (below)
        memmove(word, word + 1, strlen(word));
    if (word[0] == 0)
        stop(2, "malformed input: '-' is no number for %s", what);
    n = number_in(what, below ? (uint64_t)1 << 63 : INT64_MAX);
    return below ? (int64_t)(0 - n) : (int64_t)n;
}

/* The next word of the line that was begun. */
void want_on_line(const char *what)
{
    want_word(what);
    if (fresh)
        stop(2, "malformed input: a line ends where %s is due", what);
}

/* The first word of a line, or false at the end of the input. */
bool next_line(void)
{
    if (!next_word())
        return false;
    if (!fresh)
        stop(2, "malformed input: '%s' is one word too many in its line", word);
    return true;
}

bool unit_in(void)
{
    if (strcmp(word, "mm") != 0 && strcmp(word, "in") != 0)
        stop(2, "malformed input: '%s' is no unit, mm or in", word);
    return word[0] == 'i';
}

/* Eight hex digits. */
uint32_t bits_in(void)
{
    if (strlen(word) != 8 || strspn(word, "0123456789abcdefABCDEF") != 8)
        stop(2, "malformed input: '%s' has not eight hex digits", word);
    return (uint32_t)strtoul(word, NULL, 16);
}

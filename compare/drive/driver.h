/* What the parts of the driver share. It answers jobs, traces, meshes and files as text, over the C entries of include/mittencrest.h.
 * compare/driver builds and runs it; `compare/driver --help` has the formats.
 *
 * Besides answering it holds each call to what the header says of every reply: the result is the answer's first word, the floats and the
 * unit come back as they were given, and each mesh that modes build and buffers have built is accepted by the checker. Where that fails it
 * says so and ends with status 3. */
#ifndef DRIVER_H
#define DRIVER_H

#define _POSIX_C_SOURCE 200809L
#include "mittencrest.h"

#include <ctype.h>
#include <inttypes.h>
#include <stdarg.h>
#include <stdio.h>
#include <stdlib.h>
#include <string.h>
#include <time.h>

enum { LONGEST_WORD = 64 };

/* The most words that a lent buffer may have here: 1 GiB of 32-bit words. */
#define MOST_WORDS ((uint64_t)1 << 28)

/* Numbers of 8, 16 or 32 bits: what is handed in, and what is lent. */
struct list {
    void *words;
    size_t size; /* bytes a word */
    size_t count;
    size_t room;
};

/* A mesh that is checked. */
struct mesh {
    uint32_t nvp;
    uint16_t w, h, border;
    int64_t claim;
    struct list vertices, polygons, links;
};

/* The shortest of several runs, all of them together, how many they are, and when the last began. */
struct stopwatch {
    uint64_t least, all;
    int runs;
    uint64_t start;
};

/* words.c */
extern char word[LONGEST_WORD + 1];
void stop(int status, const char *format, ...);
void flush(void);
bool next_word(void);
void want_word(const char *what);
uint64_t number_in(const char *what, uint64_t most);
uint64_t number(const char *what, uint64_t most);
int64_t signed_number(const char *what);
void want_on_line(const char *what);
bool next_line(void);
bool unit_in(void);
uint32_t bits_in(void);

/* lists.c */
uint32_t get(const struct list *list, size_t i);
void set(struct list *list, size_t i, uint32_t value);
void push(struct list *list, uint64_t value);
void lend(struct list *list, size_t count);
void read_list(struct list *list, const char *what, uint64_t most);
void fill_lent(struct list *list, uint32_t k);
void copy_words(struct list *to, const struct list *from);
uint64_t checksum(const struct list *list);
void print_list(char name, const struct list *list);

/* clock.c */
bool runs_again(const struct stopwatch *watch);
void start_run(struct stopwatch *watch);
void end_run(struct stopwatch *watch);
void print_time(uint64_t reply, const struct stopwatch *watch);

/* checking.c */
uint32_t check(const struct mesh *mesh, uint64_t answer[MITTENCREST_VERDICT_LENGTH]);
int64_t doubled_area(const struct mesh *mesh);

/* the modes */
void mode_build(void);
void mode_buffers(void);
void mode_time(void);
void mode_header(void);
void mode_dist(void);
void mode_cell(void);
void mode_mend(void);
void mode_mendtime(void);
void mode_check(void);
void mode_checktime(void);
void mode_stl(void);
void mode_stltime(void);
void mode_unstl(void);
void mode_unstltime(void);

#endif

/* Two builds of the library in one process, called in turns from one frame on the same buffers: `pair SHEET`, with tables as a sheet has them, of any
 * length. A machine's times drift, and a run's time depends on where its stack lies, so one build is held against another at one moment and at one
 * place, and that at many places. `run` beside this links it. */
#define _POSIX_C_SOURCE 200809L
#include <stdbool.h>
#include <stdint.h>
#include <stdio.h>
#include <stdlib.h>
#include <string.h>
#include <time.h>

typedef bool Run(const uint8_t *text, size_t text_length, const uint32_t *tokens, size_t tokens_length, const uint32_t *shapes, size_t shapes_length,
                 const uint32_t *states, size_t states_length, uint32_t *tree, size_t tree_length, uint32_t *dropped, size_t dropped_length,
                 size_t *first, size_t *second);
Run before_run, after_run;

enum { PLACES = 64, STEP = 64, ROUNDS = 51, WORD = 21, TREE_ROW = 5 };

struct part {
    uint8_t *bytes;
    size_t length;
};

struct numbers {
    uint32_t *at;
    size_t length;
};

/* Any sheet is trusted: `bench tables` makes them. */
static size_t number(const uint8_t *at) {
    return (size_t)at[0] << 24 | (size_t)at[1] << 16 | (size_t)at[2] << 8 | at[3];
}

static struct part section(uint8_t **next) {
    struct part part = {*next + 4, number(*next)};
    *next = part.bytes + part.length;
    return part;
}

static struct numbers row_numbers(struct part part) {
    struct numbers numbers = {malloc(part.length + 4), part.length / 4};
    for (size_t i = 0; i < numbers.length; i++) {
        numbers.at[i] = (uint32_t)number(part.bytes + 4 * i);
    }
    return numbers;
}

static struct part text;
static struct numbers tokens, shapes, states, tree, dropped;

static void read_tables(const char *name) {
    FILE *file = fopen(name, "rb");
    static uint8_t bytes[1 << 20];
    if (file == NULL || fread(bytes, 1, sizeof bytes, file) < 17) {
        fprintf(stderr, "pair: no tables in %s\n", name);
        exit(2);
    }
    fclose(file);
    uint8_t *next = bytes + 1;
    text = section(&next);
    tokens = row_numbers(section(&next));
    shapes = row_numbers(section(&next));
    states = row_numbers(section(&next));
}

/* As many rows as any run may write (document 02, #105), and the dropped rows. */
static void make_room(void) {
    size_t rows = 2;
    for (size_t i = 0; i < tokens.length; i += 4) {
        rows += tokens.at[i] == WORD ? 3 * tokens.at[i + 2] : 7;
    }
    tree = (struct numbers){calloc(TREE_ROW * rows, 4), TREE_ROW * rows};
    dropped = (struct numbers){calloc(tokens.length + 1, 4), tokens.length / 4 * 3};
}

static size_t rows_of(Run *run) {
    size_t rows, dropped_rows;
    bool accepted = run(text.bytes, text.length, tokens.at, tokens.length, shapes.at, shapes.length, states.at, states.length, tree.at, tree.length,
                        dropped.at, dropped.length, &rows, &dropped_rows);
    if (!accepted) {
        fprintf(stderr, "pair: refused %zu %zu\n", rows, dropped_rows);
        exit(1);
    }
    return rows;
}

static double nanoseconds(Run *run) {
    struct timespec begun, ended;
    clock_gettime(CLOCK_MONOTONIC, &begun);
    rows_of(run);
    clock_gettime(CLOCK_MONOTONIC, &ended);
    return (double)(ended.tv_sec - begun.tv_sec) * 1e9 + (double)(ended.tv_nsec - begun.tv_nsec);
}

static int by_size(const void *one, const void *other) {
    double a = *(const double *)one, b = *(const double *)other;
    return (a > b) - (a < b);
}

static double least_before = 1e18, least_after = 1e18;

/* The median of after/before, in turns, `place` steps further down the stack. */
static double ratio_at(size_t place) {
    volatile char further_down[(place + 1) * STEP];
    double ratios[ROUNDS];
    further_down[0] = 0;
    for (int round = 0; round < ROUNDS; round++) {
        double after = round % 2 ? nanoseconds(after_run) : 0;
        double before = nanoseconds(before_run);
        after = round % 2 ? after : nanoseconds(after_run);
        least_before = before < least_before ? before : least_before;
        least_after = after < least_after ? after : least_after;
        ratios[round] = after / before;
    }
    qsort(ratios, ROUNDS, sizeof *ratios, by_size);
    return ratios[ROUNDS / 2] + further_down[0];
}

/* Both builds write the same rows; the room is cut to those. */
static void compare(void) {
    size_t rows = rows_of(before_run);
    uint32_t *written = malloc(4 * tree.length);
    memcpy(written, tree.at, 4 * tree.length);
    if (rows_of(after_run) != rows || memcmp(written, tree.at, 4 * tree.length) != 0) {
        fprintf(stderr, "pair: the two builds write other rows\n");
        exit(1);
    }
    tree.length = TREE_ROW * rows;
    free(written);
}

int main(int count, char **words) {
    if (count != 2) {
        fprintf(stderr, "usage: pair SHEET\n");
        return 2;
    }
    read_tables(words[1]);
    make_room();
    compare();
    double ratios[PLACES];
    for (size_t place = 0; place < PLACES; place++) {
        ratios[place] = ratio_at(place);
    }
    qsort(ratios, PLACES, sizeof *ratios, by_size);
    double token_count = (double)tokens.length / 4;
    printf("%5.0f tokens  before %.2f  after %.2f  least after/before %.3f  median %.3f\n", token_count, least_before / token_count,
           least_after / token_count, least_after / least_before, ratios[PLACES / 2]);
    return 0;
}

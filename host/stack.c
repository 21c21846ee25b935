/*
 * Measures the stack that calls take: each call runs in a thread whose stack is
 * painted before, and the deepest byte that has lost its paint is looked up
 * after. Prints for each function the most bytes that a call took, over all
 * pairs of files. Judge and guide are called with few rounds and with all. Brackets is
 * called for a start file of 256 cells too, in which annotations nest as deep as they
 * can.
 *
 * usage: stack CASE START [CASE START]..
 *
 * For a START of - the start file has one start, control 0 with an empty stack.
 */
#define _XOPEN_SOURCE 700
#include "analyser.h"

#include <pthread.h>
#include <stdio.h>
#include <stdlib.h>
#include <string.h>

#define STACK_BYTES (8u << 20)
#define PAINT 0xa5

/* More than any sound file has: a file that is cut here is still refused for its
   length. */
#define MOST_BYTES 32768

/* The most memory that counts; 64 starts. */
#define MOVES_LENGTH (1024 * ANALYSER_MOVE_WORDS)
#define ENTRIES_LENGTH (64 * ANALYSER_ENTRY_WORDS)
#define STARTS 64
#define CELLS_LENGTH (4096 * ANALYSER_CELL_WORDS)
#define REPLAY_CELLS_LENGTH (4096 * ANALYSER_REPLAY_CELL_BYTES)
#define STEPS 65536

/* Numbers of rounds with which judge and guide are called. */
static const uint64_t rounds[] = {0, 1, 2, ANALYSER_ALL_ROUNDS};
#define NUMBERS (sizeof rounds / sizeof rounds[0])

/* Long enough for a listing and for the deepest stack as brackets. */
#define TEXT_BYTES 65536

static uint8_t case_file[MOST_BYTES], start_file[MOST_BYTES];
static size_t case_length, start_length;

static const uint8_t one_start[] = {
    2, 1, 0, 1, 0, 17, 0, 0, 0, 2, 0, 1, 0, 20, 0, 0, 0, /* contents */
    0, 0, 0,                                             /* control 0, cell 0 */
    3, 0, 0, 0, 0, 0,                                    /* an empty order-2 stack */
};

static uint64_t moves[MOVES_LENGTH], entries[ENTRIES_LENGTH];
static uint8_t text[TEXT_BYTES];
static uint16_t answers[STARTS], cells[CELLS_LENGTH], trace[STEPS];

/* The longest trace that the guide wrote, as bytes. */
static uint8_t recorded[2 * STEPS];
static size_t recorded_length;
static uint8_t replay_cells[REPLAY_CELLS_LENGTH];

/* A start file of the most cells, for brackets: one start, whose stack is cell 255.
   nest_cells writes the cells from 2 on. */
#define CELL_BODY 20
#define CELL_BYTES 6
static uint8_t deep_start[CELL_BODY + 256 * CELL_BYTES] = {
    2, 1, 0, 1, 0, 17, 0, 0, 0, 2, 0, 0, 1, 20, 0, 0, 0, /* contents */
    0, 255, 0,                                           /* control 0, cell 255 */
    3, 0, 0, 0, 0, 0,                                    /* an empty order-2 stack */
    1, 0, 0, 0, 0, 0,                                    /* an empty order-1 stack */
};

static void write_cell(uint8_t number, uint8_t kind, uint8_t first, uint8_t second)
{
    uint8_t *cell = deep_start + CELL_BODY + number * CELL_BYTES;
    cell[0] = kind;
    cell[2] = first;
    cell[4] = second;
}

/* Symbols on cell 1, each annotated by the cell before it; the last one is the
   root's only symbol. */
static void nest_cells(void)
{
    for (uint8_t number = 2; number < 255; number++) {
        write_cell(number, 2, number - 1, 1);
    }
    write_cell(255, 4, 254, 0);
}

static void saturate(void)
{
    uint64_t moves_used, entries_used;
    analyser_saturate(case_file, case_length, moves, MOVES_LENGTH, entries, ENTRIES_LENGTH,
                      &moves_used, &entries_used);
}

static void judge(void)
{
    uint64_t rounds_used;
    for (size_t i = 0; i < NUMBERS; i++) {
        analyser_judge(case_file, case_length, start_file, start_length, rounds[i], moves,
                       MOVES_LENGTH, entries, ENTRIES_LENGTH, answers, STARTS,
                       &rounds_used);
    }
}

static void record(size_t steps)
{
    recorded_length = 2 * steps;
    for (size_t i = 0; i < steps; i++) {
        recorded[2 * i] = trace[i] & 255;
        recorded[2 * i + 1] = trace[i] >> 8;
    }
}

static void guide_from(uint64_t number)
{
    uint64_t steps, cells_used;
    for (size_t i = 0; i < NUMBERS; i++) {
        analyser_guide(case_file, case_length, start_file, start_length, number, rounds[i],
                       moves, MOVES_LENGTH, entries, ENTRIES_LENGTH, cells, CELLS_LENGTH,
                       trace, STEPS, &steps, &cells_used);
        if (2 * steps > recorded_length) {
            record(steps);
        }
    }
}

static void guide(void)
{
    recorded_length = 0;
    for (uint64_t number = 0; number < STARTS; number++) {
        guide_from(number);
    }
}

/* The guide's longest trace from every start; from its own it is a run. */
static void replay(void)
{
    uint64_t step;
    for (uint64_t number = 0; number < STARTS; number++) {
        analyser_replay(case_file, case_length, start_file, start_length, number, recorded,
                        recorded_length, replay_cells, REPLAY_CELLS_LENGTH, &step);
    }
}

static void brackets(void)
{
    size_t length;
    for (uint64_t number = 0; number < STARTS; number++) {
        analyser_brackets(case_file, case_length, start_file, start_length, number, text,
                          TEXT_BYTES, &length);
    }
    analyser_brackets(case_file, case_length, deep_start, sizeof deep_start, 0, text,
                      TEXT_BYTES, &length);
}

static void listing(void)
{
    analyser_listing(case_file, case_length, start_file, start_length, text);
}

/* Guide stands before replay, which takes its trace. */
static struct measured {
    const char *name;
    void (*call)(void);
    size_t most;
} measured[] = {
    {"saturate", saturate, 0}, {"judge", judge, 0},       {"guide", guide, 0},
    {"replay", replay, 0},     {"brackets", brackets, 0}, {"listing", listing, 0},
};

#define FUNCTIONS (sizeof measured / sizeof measured[0])

static void fail(const char *what)
{
    perror(what);
    exit(2);
}

static uint8_t *stack;

/* Makes the call, and notes the bytes between this frame and the deepest one. */
static void *measure(void *one)
{
    struct measured *into = one;
    volatile uint8_t here = 0;
    size_t deepest = 0;
    into->call();
    while (stack[deepest] == PAINT) {
        deepest++;
    }
    size_t taken = (size_t)((uint8_t *)&here - (stack + deepest));
    if (taken > into->most) {
        into->most = taken;
    }
    return NULL;
}

static void measure_on_paint(struct measured *one)
{
    pthread_t thread;
    pthread_attr_t attributes;
    memset(stack, PAINT, STACK_BYTES);
    if (pthread_attr_init(&attributes) != 0
        || pthread_attr_setstack(&attributes, stack, STACK_BYTES) != 0
        || pthread_create(&thread, &attributes, measure, one) != 0
        || pthread_join(thread, NULL) != 0) {
        fail("a thread");
    }
    pthread_attr_destroy(&attributes);
}

static size_t read_file(const char *path, uint8_t *into)
{
    FILE *from = fopen(path, "rb");
    if (from == NULL) {
        fail(path);
    }
    size_t length = fread(into, 1, MOST_BYTES, from);
    if (ferror(from)) {
        fail(path);
    }
    fclose(from);
    return length;
}

static size_t read_start(const char *path, uint8_t *into)
{
    if (strcmp(path, "-") != 0) {
        return read_file(path, into);
    }
    memcpy(into, one_start, sizeof one_start);
    return sizeof one_start;
}

int main(int count, char **words)
{
    if (count < 3 || count % 2 == 0) {
        fprintf(stderr, "usage: stack CASE START [CASE START]..\n");
        return 2;
    }
    nest_cells();
    stack = aligned_alloc(4096, STACK_BYTES);
    if (stack == NULL) {
        fail("memory");
    }
    for (int i = 1; i < count; i += 2) {
        case_length = read_file(words[i], case_file);
        start_length = read_start(words[i + 1], start_file);
        for (size_t j = 0; j < FUNCTIONS; j++) {
            measure_on_paint(&measured[j]);
        }
    }
    for (size_t j = 0; j < FUNCTIONS; j++) {
        printf("%s: %zu bytes\n", measured[j].name, measured[j].most);
    }
    return 0;
}

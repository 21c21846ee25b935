/*
 * A small bench host: reads a case file and a start file, saturates, judges by all
 * rounds and up to each of the first few, prints the stack of each start as brackets,
 * and guides from each that is marked yes: by all rounds, up to the round in which it is
 * won, and up to the one before, where it is open. A run by all rounds that arrived is
 * replayed, as the guide wrote it and with a rule number behind it that no case has.
 * Prints what it gets.
 *
 * usage: bench CASE START
 *
 * Its status is 0, or 2 for wrong use, 3 where saturate or judge refuses, 5 where
 * not all could be written to standard output.
 */
#include "analyser.h"

#include <inttypes.h>
#include <stdio.h>
#include <stdlib.h>

/* More than any sound file has: a file that is cut here is still refused for its
   length. */
#define MOST_BYTES 32768

#define MOVES 1024
#define ENTRIES 64
#define STARTS 64
#define CELLS 512
#define STEPS 1024
#define TEXT_BYTES 65536

/* The last of the first few rounds. */
#define FEW 4

struct file {
    uint8_t bytes[MOST_BYTES];
    size_t length;
};

static struct file case_file, start_file;

/* The memory that calls are lent. */
static uint64_t moves[MOVES * ANALYSER_MOVE_WORDS];
static uint64_t entries[ENTRIES * ANALYSER_ENTRY_WORDS];
static uint16_t answers[STARTS];
static uint16_t cells[CELLS * ANALYSER_CELL_WORDS];
static uint16_t trace[STEPS];
static uint8_t replay_cells[CELLS * ANALYSER_REPLAY_CELL_BYTES];
static uint8_t text[TEXT_BYTES];

/* What the guide wrote, as bytes, with room for one more rule number. */
static uint8_t recorded[2 * (STEPS + 1)];

static void read_file(const char *path, struct file *into)
{
    FILE *from = fopen(path, "rb");
    if (from == NULL) {
        perror(path);
        exit(2);
    }
    into->length = fread(into->bytes, 1, MOST_BYTES, from);
    if (ferror(from)) {
        perror(path);
        exit(2);
    }
    fclose(from);
}

static const char *words_for(uint64_t answer)
{
#define REFUSAL(number, sentence) case number: return "refused " #number ": " sentence;
    switch (answer) {
    ANALYSER_REFUSALS(REFUSAL)
    case ANALYSER_ARRIVED: return "arrived";
    case ANALYSER_TRACE_FULL: return "trace full";
    case ANALYSER_CELLS_SHORT: return "cells short";
    case ANALYSER_NO_RUN: return "no run";
    case ANALYSER_OPEN: return "open";
    default: return "an answer that no service gives";
    }
#undef REFUSAL
}

/* Prints the members of a set. */
static void print_set(uint64_t set)
{
    const char *before = "";
    printf("{");
    for (unsigned state = 0; state < 64; state++) {
        if (set >> state & 1) {
            printf("%s%u", before, state);
            before = ",";
        }
    }
    printf("}");
}

static void print_move(size_t number)
{
    const uint64_t *move = moves + number * ANALYSER_MOVE_WORDS;
    printf("move %zu: state %" PRIu64 ", symbol %" PRIu64 ", order %" PRIu64 " ",
           number, move[0], move[1], move[2]);
    print_set(move[3]);
    printf(", rest ");
    print_set(move[4]);
    printf("\n");
}

static void print_entry(size_t number)
{
    const uint64_t *entry = entries + number * ANALYSER_ENTRY_WORDS;
    printf("entry %zu: [%" PRIu64 ",", number, entry[0]);
    print_set(entry[1]);
    printf("], moves %" PRIu64 "\n", entry[2]);
}

static uint64_t saturate(void)
{
    uint64_t moves_used, entries_used;
    uint64_t answer = analyser_saturate(
        case_file.bytes, case_file.length,
        moves, MOVES * ANALYSER_MOVE_WORDS,
        entries, ENTRIES * ANALYSER_ENTRY_WORDS,
        &moves_used, &entries_used);
    if (answer != 0) {
        printf("saturate: %s\n", words_for(answer));
        return answer;
    }
    printf("saturate: %" PRIu64 " moves, %" PRIu64 " entries\n", moves_used, entries_used);
    for (size_t i = 0; i < moves_used; i++) {
        print_move(i);
    }
    for (size_t i = 0; i < entries_used; i++) {
        print_entry(i);
    }
    return answer;
}

/* The number of starts of a start file that judge has not refused. */
static size_t starts(void)
{
    return start_file.bytes[3] + 256 * (size_t)start_file.bytes[4];
}

static uint64_t judge(uint64_t rounds, uint64_t *rounds_used)
{
    return analyser_judge(
        case_file.bytes, case_file.length,
        start_file.bytes, start_file.length,
        rounds,
        moves, MOVES * ANALYSER_MOVE_WORDS,
        entries, ENTRIES * ANALYSER_ENTRY_WORDS,
        answers, STARTS,
        rounds_used);
}

static void print_mark(uint16_t word)
{
    switch (word) {
    case 0: printf("no"); break;
    case ANALYSER_OPEN_WORD: printf("open"); break;
    default: printf("yes, round %d", word - 1);
    }
}

/* Judges by the rounds up to this one, and prints the marks. */
static void judge_up_to(uint64_t round)
{
    uint64_t rounds_used;
    uint64_t answer = judge(round, &rounds_used);
    printf("judge up to round %" PRIu64 ":", round);
    if (answer != 0) {
        printf(" %s", words_for(answer));
    } else {
        for (size_t i = 0; i < starts(); i++) {
            printf("%s ", i == 0 ? "" : ";");
            print_mark(answers[i]);
        }
    }
    printf("\n");
}

/* Judges by all rounds, last, so that answers holds their marks. */
static uint64_t judge_all(void)
{
    uint64_t rounds_used;
    uint64_t answer = judge(ANALYSER_ALL_ROUNDS, &rounds_used);
    if (answer != 0) {
        printf("judge: %s\n", words_for(answer));
        return answer;
    }
    printf("judge: %" PRIu64 " rounds added moves\n", rounds_used);
    for (uint64_t round = 0; round <= rounds_used && round <= FEW; round++) {
        judge_up_to(round);
    }
    return judge(ANALYSER_ALL_ROUNDS, &rounds_used);
}

static void brackets(uint64_t number)
{
    size_t length;
    uint64_t answer = analyser_brackets(
        case_file.bytes, case_file.length,
        start_file.bytes, start_file.length,
        number,
        text, TEXT_BYTES,
        &length);
    if (answer != 0) {
        printf("brackets: %s\n", words_for(answer));
        return;
    }
    printf("brackets: %.*s\n", (int)length, (const char *)text);
}

/* Replays the first rule numbers of what is recorded, with as many cells as the
   guide used. */
static void replay(const char *what, uint64_t number, size_t rules, uint64_t cells_used)
{
    uint64_t step;
    uint64_t answer = analyser_replay(
        case_file.bytes, case_file.length,
        start_file.bytes, start_file.length,
        number,
        recorded, 2 * rules,
        replay_cells, cells_used * ANALYSER_REPLAY_CELL_BYTES,
        &step);
    switch (answer) {
    case ANALYSER_ACCEPTED: printf("%s: accepted\n", what); break;
    case ANALYSER_FAILS: printf("%s: fails at step %" PRIu64 "\n", what, step); break;
    default: printf("%s: %s\n", what, words_for(answer));
    }
}

/* Replays the run that the guide wrote, and a damaged copy of it. */
static void replay_run(uint64_t number, size_t steps, uint64_t cells_used)
{
    for (size_t i = 0; i < steps; i++) {
        recorded[2 * i] = trace[i] & 255;
        recorded[2 * i + 1] = trace[i] >> 8;
    }
    recorded[2 * steps] = recorded[2 * steps + 1] = 255;
    replay("replay", number, steps, cells_used);
    replay("replay with rule 65535 behind it", number, steps + 1, cells_used);
}

/* Guides by at most so many rounds, and prints the steps. */
static uint64_t guide(uint64_t number, uint64_t rounds, uint64_t *steps, uint64_t *cells_used)
{
    uint64_t answer = analyser_guide(
        case_file.bytes, case_file.length,
        start_file.bytes, start_file.length,
        number, rounds,
        moves, MOVES * ANALYSER_MOVE_WORDS,
        entries, ENTRIES * ANALYSER_ENTRY_WORDS,
        cells, CELLS * ANALYSER_CELL_WORDS,
        trace, STEPS,
        steps, cells_used);
    printf(": %s, %" PRIu64 " steps, %" PRIu64 " cells, rules",
           words_for(answer), *steps, *cells_used);
    for (size_t i = 0; i < *steps; i++) {
        printf(" %u", (unsigned)trace[i]);
    }
    printf("\n");
    return answer;
}

static void guide_up_to(uint64_t number, uint64_t round)
{
    uint64_t steps, cells_used;
    printf("guide up to round %" PRIu64, round);
    guide(number, round, &steps, &cells_used);
}

static void guide_all(uint64_t number)
{
    uint64_t steps, cells_used;
    printf("guide");
    if (guide(number, ANALYSER_ALL_ROUNDS, &steps, &cells_used) == ANALYSER_ARRIVED) {
        replay_run(number, steps, cells_used);
    }
}

static int bench(void)
{
    if (saturate() != 0 || judge_all() != 0) {
        return 3;
    }
    for (size_t i = 0; i < starts(); i++) {
        printf("start %zu: ", i);
        print_mark(answers[i]);
        printf("\n");
        brackets(i);
        if (answers[i] > 0) {
            guide_all(i);
            guide_up_to(i, answers[i] - 1);
        }
        if (answers[i] > 1) {
            guide_up_to(i, answers[i] - 2);
        }
    }
    return 0;
}

int main(int count, char **words)
{
    if (count != 3) {
        fprintf(stderr, "usage: bench CASE START\n");
        return 2;
    }
    read_file(words[1], &case_file);
    read_file(words[2], &start_file);
    int status = bench();
    if (ferror(stdout) || fclose(stdout) != 0) {
        fprintf(stderr, "bench: not all could be written to standard output\n");
        return 5;
    }
    return status;
}

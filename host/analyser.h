/*
 * The script analyser for the bench host: crates/exports/out/libexports.a,
 * which `scripts/library.sh` builds. Documents 01 and 02 (requests 1 to 8) say what
 * the five services do; this page says the same for a caller in C. crates/exports
 * proves each call equal to its definition; what this page says of numbers, words,
 * counts, rounds, runs and texts are the theorems of crates/demands about these definitions
 * (docs/PROMISES.md).
 *
 * What is asked of the caller: each pointer points to as many elements as the
 * length beside it says, aligned for their type, and is not null even if that
 * length is 0; what a call writes overlaps nothing else that it is lent.
 * Nothing else is asked of files and memory: files may hold any bytes, lengths
 * may be any, and lent memory may hold anything before a call. No call keeps a
 * pointer or allocates, as the language has neither, and each returns, as the
 * checker asks of every loop and recursion.
 *
 * A call runs on the caller's stack and takes up to 1.24 MB of it, the listing 1.35
 * MB. This is measured (host/stack.c) and not proved: call from a thread that has
 * 2 MB.
 *
 * What is lent. Lengths count elements, not bytes. Only whole records count; what
 * is lent after the last whole record is written too, with zero.
 *
 *   moves    5 words a move: order-1 state, symbol, annotation order, annotation
 *            set, rest set. A table with more than 1,024 moves is refused with 9
 *            whatever is lent; every other fits 5,120 words.
 *   entries  3 words an entry: control, set of order-2 states, and the number of
 *            the table's moves whose order-1 state is that entry. A table with more
 *            than 64 order-1 states is refused with 9; every other fits 192 words.
 *   answers  a word of 16 bits a start. At most 64 starts.
 *   cells    for guide 68 words of 16 bits a cell, for replay 6 bytes a cell. At
 *            most 4,096 cells count.
 *   trace    for guide a word of 16 bits a step.
 *   text     for brackets any number of bytes, for the listing as many as
 *            ANALYSER_LISTING_BYTES.
 *
 * Files, and the trace that replay reads, are only read. A set is a word with bit n
 * for state n. A missing file is one of length 0.
 *
 * Rounds. Round 0 is the case's own table; each round adds moves to it, until one adds
 * none. Judge and guide take a number of rounds and work on the table after at most as
 * many; saturate and the listing run all. 1,025 rounds and more are all rounds, since a
 * table of at most 1,024 moves has at most 1,024 rounds that add one; where the case
 * has a move of its own, 1,024 are all too. Refusal 9 is about the table of the rounds
 * run: whether a round after them would fit is not asked.
 *
 * A case whose first byte is 5 carries a record of eight bytes, its tool's codes
 * for our operations 1 to 8; its rules are read by these codes alone. Unless it is
 * refused with 1, 2 or 12, every call answers it as the case of first byte 4 with
 * the same other bodies and our codes.
 *
 * A refusal is a number from 1 to 255 (ANALYSER_REFUSALS says what each means);
 * no other answer is. The first of a service's numbers that applies is returned,
 * in this order: 1, 2, 12, 3, 4, 5, 6, 7, 8, 10, 11, 13, 9; no service has all of
 * them. After a refusal every lent word and byte is zero, and so are the counts,
 * the step and the length.
 */
#ifndef ANALYSER_H
#define ANALYSER_H

#include <stddef.h>
#include <stdint.h>

#ifdef __cplusplus
extern "C" {
#endif

/* Words of a move and of an entry, 16-bit words of a cell of guide, bytes of a
   cell of replay. */
#define ANALYSER_MOVE_WORDS 5
#define ANALYSER_ENTRY_WORDS 3
#define ANALYSER_CELL_WORDS 68
#define ANALYSER_REPLAY_CELL_BYTES 6

/* Bytes of a listing. */
#define ANALYSER_LISTING_BYTES 4306

/* A number of rounds by which all are run. */
#define ANALYSER_ALL_ROUNDS UINT64_MAX

/* The word that judge writes for an open start. */
#define ANALYSER_OPEN_WORD 65535

/* The documents' sentence for each refusal; 3 is for a code that is not in the
   record too, 4 for a second entry, 7 for replay and brackets, 8 counts words, and 9
   is about the rounds run, as document 02 asks: REFUSAL(number, sentence). */
#define ANALYSER_REFUSALS(REFUSAL) \
    REFUSAL(1, "the case's first byte, contents table, a count or the length is wrong") \
    REFUSAL(2, "a field of case body 1 is out of range") \
    REFUSAL(3, "a rule, edge or move breaks a bound of its body (b, or B against its order, included), a code is not in the record, or entries are too many") \
    REFUSAL(4, "edges or moves are not strictly increasing, or an entry is a second one for its state and S") \
    REFUSAL(5, "the start file's first byte, contents table, a count or the length is wrong") \
    REFUSAL(6, "a start or cell is out of range, refers to a cell of the wrong order, or fills an unused field") \
    REFUSAL(7, "guide, replay, brackets: the start named is not in the file") \
    REFUSAL(8, "judge: fewer answer words than starts") \
    REFUSAL(9, "the saturated table, or the table of the rounds run, has more moves than lent or than 1,024, more entries than lent, or more than 64 order-1 states") \
    REFUSAL(10, "the trace has an odd number of bytes") \
    REFUSAL(11, "the replay needs more cells than lent or than 4,096") \
    REFUSAL(12, "the eight bytes of the record of operation codes are not all different, or one is zero") \
    REFUSAL(13, "the text is longer than the bytes lent")

/* Answers of the guide that are no refusals. */
#define ANALYSER_ARRIVED 0
#define ANALYSER_TRACE_FULL 256
#define ANALYSER_CELLS_SHORT 257
#define ANALYSER_NO_RUN 258
#define ANALYSER_OPEN 259

/* Answers of replay that are no refusals. */
#define ANALYSER_ACCEPTED 0
#define ANALYSER_FAILS 260

/*
 * Saturate: computes the saturated table of a case.
 *
 * Returns 0, or the refusal 1, 2, 3, 4, 9 or 12. After 0, moves begins with the
 * *moves_used moves of the table and entries with its *entries_used entries, in
 * the order in which the rounds add them, and all words after them are zero.
 * Order-1 state J + n is entry n, where J is the case's number of inner order-1
 * states: the third word of entry n is the number of moves whose first word is
 * J + n, those of the case among them. Moves of inner states count for no entry.
 * After a refusal both tables are zero, and *moves_used and *entries_used are 0.
 */
uint64_t analyser_saturate(
    const uint8_t *case_file, size_t case_length,
    uint64_t *moves, size_t moves_length,
    uint64_t *entries, size_t entries_length,
    uint64_t *moves_used, uint64_t *entries_used);

/*
 * Judge: marks each start of the start file by the table after at most so many rounds.
 *
 * Returns 0, or the refusal 1 to 6, 8, 9 or 12. After 0, answers begins with a word
 * for each start, in file order; the words after them are zero.
 *
 *   1 to 1,025          yes: one more than the least round whose table accepts the
 *                       start, which is at most rounds. A finite run of the case's
 *                       rules leads from the start into the target.
 *   0                   no: not accepted, and nothing is left to add. No finite run
 *                       leads from the start into the target.
 *   ANALYSER_OPEN_WORD  open: not accepted, while one round more would add a move,
 *                       whichever. There may be a run or none.
 *
 * *rounds_used is the number of the rounds run that added something; a last one that
 * added nothing does not count. Raising rounds never changes a word other than
 * ANALYSER_OPEN_WORD while the call is not refused. The word of a start whose stack is
 * empty, or whose top order-1 stack is, is 1 if it lies in the target and otherwise 0
 * or ANALYSER_OPEN_WORD.
 *
 * After a refusal answers is zero, and *rounds_used is 0. moves and entries are working
 * memory, zero after every call.
 */
uint64_t analyser_judge(
    const uint8_t *case_file, size_t case_length,
    const uint8_t *start_file, size_t start_length,
    uint64_t rounds,
    uint64_t *moves, size_t moves_length,
    uint64_t *entries, size_t entries_length,
    uint16_t *answers, size_t answers_length,
    uint64_t *rounds_used);

/*
 * Guide: writes the rules of a run from one start into the target, by the table after
 * at most so many rounds. Starts are numbered from 0 in file order, rules likewise.
 *
 * Returns the refusal 1 to 7, 9 or 12, or one of these:
 *
 *   ANALYSER_ARRIVED      the run is whole: its end is in the target
 *   ANALYSER_TRACE_FULL   the next step needs one more trace word than lent
 *   ANALYSER_CELLS_SHORT  the start file's cells, or those used and the next
 *                         step's together, are more than lent
 *   ANALYSER_NO_RUN       no run leads from the start into the target: judge,
 *                         with the same files, rounds and tables, marks it 0
 *   ANALYSER_OPEN         the start is open: judge, with the same, marks it
 *                         ANALYSER_OPEN_WORD. This and no run are tested before the
 *                         cells lent
 *
 * After the first three, trace begins with the numbers of the *steps rules that
 * the run applies first, one a step, and *cells_used is the number of the start
 * file's cells and of the new cells of those steps; if not even the start file's
 * cells are lent, both counts are 0. After ANALYSER_NO_RUN, ANALYSER_OPEN and a
 * refusal both counts are 0. All trace words from *steps on are zero. moves, entries
 * and cells are working memory, zero after every call.
 *
 * No step leaves an empty stack or an empty top order-1 stack: a run that comes
 * there has arrived, and a start that is there and marked yes has a run of no step.
 *
 * The run is a function of the case, the start file, the start's number and rounds,
 * whatever tables, cells and trace are lent: with more cells or a longer trace the guide
 * writes no fewer of its steps, and it arrives exactly when they suffice. With another
 * number of rounds it may be another run.
 */
uint64_t analyser_guide(
    const uint8_t *case_file, size_t case_length,
    const uint8_t *start_file, size_t start_length,
    uint64_t number, uint64_t rounds,
    uint64_t *moves, size_t moves_length,
    uint64_t *entries, size_t entries_length,
    uint16_t *cells, size_t cells_length,
    uint16_t *trace, size_t trace_length,
    uint64_t *steps, uint64_t *cells_used);

/*
 * Replay: says whether recorded rules lead from one start into the target,
 * whoever recorded them. trace holds rule numbers of two bytes each, low byte
 * first.
 *
 * Returns the refusal 1 to 7, 10, 11 or 12, or one of these:
 *
 *   ANALYSER_ACCEPTED  the trace is a run: its rules exist, apply one after
 *                      another, and lead into the target
 *   ANALYSER_FAILS     it is none. *step is the first step, counted from 0, whose
 *                      rule does not exist or does not apply, or the number of
 *                      rule numbers in the trace if only the end of the run is
 *                      not in the target
 *
 * After every other answer *step is 0. cells is working memory, zero after every
 * call.
 *
 * The start file's cells are needed before the first step, and each step needs the
 * new cells that document 01 lists for its operation. 11 means that the start
 * file's cells, or those used and the new ones of a step whose rule exists and
 * applies, are more than lent or than 4,096. The steps are taken in order: the
 * first one that fails, or that needs more cells than there are, decides.
 *
 * A trace is accepted exactly if none of 1 to 7, 10 and 12 applies, it is a run of
 * the case's rules from the start that ends in the target, and its cells fit. An odd
 * number of bytes is refused with 10 even where its whole words are a run. What the
 * guide wrote for the same files and start, if it arrived, after whichever number of
 * rounds, is accepted if at least as many cells are lent as the guide says it used.
 */
uint64_t analyser_replay(
    const uint8_t *case_file, size_t case_length,
    const uint8_t *start_file, size_t start_length,
    uint64_t number,
    const uint8_t *trace, size_t trace_length,
    uint8_t *cells, size_t cells_length,
    uint64_t *step);

/*
 * Brackets: prints the stack of one start as nested square brackets. Starts are
 * numbered from 0 in file order.
 *
 * Returns 0, or the refusal 1 to 7, 12 or 13. After 0, text begins with the *length
 * bytes that stand for the stack in the start's root cell, and the bytes after them
 * are zero. 13 means that these bytes are more than lent. After a refusal text is
 * zero, and *length is 0.
 *
 *   order-2 stack  its order-1 stacks, top first, nothing between them, in [ ]
 *   order-1 stack  its symbols, top first, a space between them, in [ ]
 *   symbol         its number, a space, the order of its annotation, 1 or 2, and
 *                  the annotation in { }
 *
 * Numbers are decimal, without zeros before them; no line end is printed. Cell 3 of
 * document 01's model A is [[1 1{[]}]].
 *
 * No two different order-2 stacks print alike. What is printed of a start depends
 * neither on the case nor on the bytes lent, and it is printed exactly if the bytes
 * lent suffice and none of 1 to 7 and 12 applies.
 *
 * A cell is written out each time that it is met, so few cells can stand for more
 * bytes than any memory has: 243 for about 2 to the power 243. The call stops where
 * the bytes lent are passed, so they and the lengths of the files bound its work;
 * this bound is not proved.
 */
uint64_t analyser_brackets(
    const uint8_t *case_file, size_t case_length,
    const uint8_t *start_file, size_t start_length,
    uint64_t number,
    uint8_t *text, size_t text_length,
    size_t *length);

/*
 * Listing: the text that the printing program prints for two files, with the
 * memory that document 01 lends to it. text points to ANALYSER_LISTING_BYTES
 * bytes; no listing is longer. All rounds are run. The second line is `most` and the
 * largest third word of the table's entries, 0 without entries; a refusal is one line.
 *
 * Returns the length of the text. The bytes after it are zero.
 */
size_t analyser_listing(
    const uint8_t *case_file, size_t case_length,
    const uint8_t *start_file, size_t start_length,
    uint8_t *text);

#ifdef __cplusplus
}
#endif

#endif

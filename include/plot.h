/*
 * plot.h: plot registers and their rules, for programs in C and C++.
 *
 * Link with target/staticlib/libc_api.a (x86-64 Linux); nothing else is needed.
 * docs/MANUAL.md says what a register, a chain and a rules text are. The mark of a
 * cell in a register file is 0 unfilled, 1 measured, 2 worked out by a rule; a cell
 * with mark 1 or 2 is filled.
 *
 * Every function takes every input: any bytes, any numbers, any lengths. The
 * result is 0, or the number of a refusal (enum plot_refusal).
 *
 * What a caller keeps to:
 * - A pointer and its length belong together. The length counts elements, not
 *   bytes, and all of them are there. The pointer is not null, also where the
 *   length is 0, and is aligned for its elements.
 * - What a function writes to (all that is not const) overlaps nothing else that
 *   the call is lent. What is const may overlap what is const.
 * - Nobody else writes what is lent, or reads what is written, during the call.
 *   The library keeps no pointer and no state: calls on different memory may run
 *   at the same time.
 * - A call needs up to about 750 KB of stack. A thread that makes one has 1 MiB left.
 */
#ifndef PLOT_H
#define PLOT_H

#include <stddef.h>
#include <stdint.h>

#ifdef __cplusplus
extern "C" {
#endif

/* Lengths of arrays that have a fixed one. */
enum plot_length {
    PLOT_ANSWER_LENGTH = 8,    /* answer */
    PLOT_HOPS_LENGTH = 16,     /* the four arrays of a path: the most hops of a chain */
    PLOT_LINES_LENGTH = 64,    /* kinds and rounds: the most lines of a plan */
    PLOT_CHAINS_LENGTH = 1024, /* chains: 16 bytes for each line */
    PLOT_CHAIN_BYTES = 16      /* the bytes of a line in chains */
};

/* The places of answer. Every call fills all of it; a place that has no meaning
 * for it is 0. */
enum plot_answer {
    PLOT_ANSWER_LINE = 0,       /* the line, counted from 1, for the refusals 7 to 15, 24 and 25 */
    PLOT_ANSWER_FINISHED = 1,   /* runs: the finished steps, for 20 and 21 too */
    PLOT_ANSWER_EXCHANGES = 2,  /* plot_run_messages: the exchanges of these steps */
    PLOT_ANSWER_MESSAGES = 3,   /* plot_run_messages: the messages of these steps */
    PLOT_ANSWER_RECORD = 4,     /* runs, for 21: the record of the first overflow, from 0 */
    PLOT_ANSWER_FIELD = 5,      /* runs, for 21: its field, counted from 0, references first */
    PLOT_ANSWER_FILLED = 6,     /* plot_read: 1 filled, 0 unfilled */
    PLOT_ANSWER_HOPS = 6,       /* plot_path: the number of hops */
    PLOT_ANSWER_STEPS = 6,      /* plot_check: the number of steps */
    PLOT_ANSWER_LINES = 6,      /* plot_plan, plot_inspect: the lines of the step's plan */
    PLOT_ANSWER_MOST_LINES = 7, /* plot_check: the most lines of any step */
    PLOT_ANSWER_REMOTE = 7      /* plot_plan: 1 if an exchange of remote writes follows */
};

/* The kinds of plan lines. */
enum plot_kind {
    PLOT_BACK = 0, /* the record at the chain gets to know u */
    PLOT_READ = 1  /* u gets to know the value of the chain */
};

/* The numbers of refusals. They are asked in this order, but 24 and 25 behind 12, and
 * the first that holds is the answer; within a register cell by cell, within a text
 * line by line. */
enum plot_refusal {
    PLOT_REFUSAL_FILE_LENGTH = 1,    /* the register file has the wrong length */
    PLOT_REFUSAL_SIZE = 2,           /* a size of the register is over its limit */
    PLOT_REFUSAL_MARK = 3,           /* a mark is none of 0, 1 and 2 */
    PLOT_REFUSAL_UNFILLED_VALUE = 4, /* an unfilled cell has a value other than 0 */
    PLOT_REFUSAL_REFERENCE = 5,      /* a reference leads to no record */
    PLOT_REFUSAL_TEXT_LENGTH = 6,    /* the rules text is too long */
    PLOT_REFUSAL_FORM = 7,           /* this does not have the right form */
    PLOT_REFUSAL_PLACE = 8,          /* a line is out of place, or the text ends too early */
    PLOT_REFUSAL_FIELD = 9,          /* a letter names no field of this register */
    PLOT_REFUSAL_FIELD_KIND = 10,    /* references and measures are mixed */
    PLOT_REFUSAL_HOPS = 11,          /* a chain has more than 16 hops */
    PLOT_REFUSAL_NUMBER = 12,        /* a number is out of range */
    PLOT_REFUSAL_COUNT = 13,         /* there are too many steps or rules */
    PLOT_REFUSAL_REMOTE_SORTS = 14,  /* a field takes two sorts of remote write in one step */
    PLOT_REFUSAL_PLAN_LINES = 15,    /* the plan of this step has more than 64 lines */
    PLOT_REFUSAL_RECORD = 16,        /* there is no such record */
    PLOT_REFUSAL_STEP = 17,          /* there is no such step */
    PLOT_REFUSAL_OUTPUT = 18,        /* the output is not as long as the register file */
    PLOT_REFUSAL_SCRATCH = 19,       /* a working array is too short */
    PLOT_REFUSAL_BUDGET = 20,        /* the budget is spent, and there is a step to do */
    PLOT_REFUSAL_RANGE = 21,         /* a sum or total is out of range */
    PLOT_REFUSAL_GROUPS = 24,        /* groups stand more than 8 deep */
    PLOT_REFUSAL_OPERATORS = 25      /* an expression has more than 64 operators */
};

/*
 * Reads the chain text, as "M[A[u]]" without a line break, at record u.
 *
 * Refusals 1 to 5; 7, 9, 10, 11; 16. Otherwise answer[PLOT_ANSWER_FILLED] says
 * whether the reading is filled, and *value is its value, 0 where it is unfilled.
 * On a refusal *value stays as it was.
 */
uint32_t plot_read(const uint8_t *file, size_t file_length, const uint8_t *text, size_t text_length, uint64_t u,
                   int64_t *value, uint64_t answer[8]);

/*
 * Lists the path behind the reading of the chain text at record u: the cells that it
 * looks at, hop by hop from the inside out, up to the value or the first gap.
 *
 * Refused as plot_read is. Otherwise answer[PLOT_ANSWER_HOPS] is the number of hops, 0
 * for the chain u, and for each hop i: records[i] is its record, fields[i] the letter of
 * its field, values[i] the value of that cell, 0 where it is unfilled, and marks[i] its
 * mark as the file has it: 0 unfilled, 1 measured, 2 worked out. Places behind the last
 * hop become 0. On a refusal the four arrays stay as they were.
 *
 * The list is the whole reason: every register of the same sizes that agrees on these
 * cells, on their values and on which are filled, has the same path, but for marks 1
 * against 2, and the same reading.
 */
uint32_t plot_path(const uint8_t *file, size_t file_length, const uint8_t *text, size_t text_length, uint64_t u,
                   uint64_t records[16], uint8_t fields[16], int64_t values[16], uint8_t marks[16],
                   uint64_t answer[8]);

/*
 * Checks a rules text for a register.
 *
 * Refusals 1 to 5; 6 to 15, 24, 25. Otherwise answer has the number of steps and the most
 * plan lines of any step, by which the working arrays of a run are measured.
 */
uint32_t plot_check(const uint8_t *file, size_t file_length, const uint8_t *text, size_t text_length,
                    uint64_t answer[8]);

/*
 * Makes the plan of a step, counted from 1.
 *
 * Refusals 1 to 5; 6 to 15, 24, 25; 17. Otherwise, for each line i: kinds[i] is its kind,
 * rounds[i] its round, and chains[16 * i] to chains[16 * i + 15] have the letters of
 * its hops from the inside out, "AAM" for M[A[A[u]]], with 0 behind the last. Places
 * behind the last line become 0. On a refusal the three arrays stay as they were.
 */
uint32_t plot_plan(const uint8_t *file, size_t file_length, const uint8_t *text, size_t text_length, uint64_t step,
                   uint8_t kinds[64], uint8_t chains[1024], uint8_t rounds[64], uint64_t answer[8]);

/*
 * Inspects a step, counted from 1, over the register as it is, after its round t.
 *
 * Refusals 1 to 5; 6 to 15, 24, 25; 17; 19. Otherwise, for each line i and record u, place
 * i * n + u: marks has 1 if the message of that line for that record was sent in the
 * rounds 1 to t, and values then has what was read (Read) or the record that it went
 * to (Back); else both are 0. Places behind the step's last line stay. On a refusal
 * both arrays stay as they were.
 *
 * values and marks are as long as for a run, see below.
 */
uint32_t plot_inspect(const uint8_t *file, size_t file_length, const uint8_t *text, size_t text_length, uint64_t step,
                      uint16_t t, int64_t *values, size_t values_length, uint8_t *marks, size_t marks_length,
                      uint64_t answer[8]);

/*
 * Runs a rules text over a register, at most budget steps, by following references.
 *
 * Lengths: out is exactly as long as file. values and marks are working arrays of at
 * least n * (L + r + m + 1) places each, n, r and m being the sizes of the register and
 * L the most plan lines of any step (plot_check); n * (64 + r + m + 1) always do.
 *
 * Refusals 1 to 5; 6 to 15, 24, 25; 18; 19: nothing is written but answer. Otherwise out
 * is the register at the end and the result 0; or the run was stopped, 20 or 21, and out
 * is a copy of file. What the working arrays hold afterwards means nothing.
 *
 * 21 names the first overflow: the lowest record at which a rule forms a sum out of range,
 * in its test, in what it stores or in the amount that it writes, and the field that the
 * earliest such rule writes; only where no record has one, the lowest record and in it the
 * first field with a remote total out of range.
 */
uint32_t plot_run_direct(const uint8_t *file, size_t file_length, const uint8_t *text, size_t text_length,
                         uint16_t budget, uint8_t *out, size_t out_length, int64_t *values, size_t values_length,
                         uint8_t *marks, size_t marks_length, uint64_t answer[8]);

/*
 * The same by messages between the records: the same register, finished steps, refusal
 * and place, and answer has the exchanges and the messages too.
 */
uint32_t plot_run_messages(const uint8_t *file, size_t file_length, const uint8_t *text, size_t text_length,
                           uint16_t budget, uint8_t *out, size_t out_length, int64_t *values, size_t values_length,
                           uint8_t *marks, size_t marks_length, uint64_t answer[8]);

#ifdef __cplusplus
}
#endif

#endif

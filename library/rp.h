/*
 * rp.h - revealed preference, as calls over files in memory, two that tell which files they need, and the version.
 *
 * `rp_answer` answers as the command `rp` does, to the same words over files of the same bytes, `rp_answer_wide` as
 * `rp-wide`, and `rp_panel` as `rp-panel`. No call reads a file, prints, starts a thread or keeps anything between
 * calls. docs/reference says what each command takes and writes; `rp` below is the command's name in its own
 * texts.
 *
 *   cc program.c -lrp                 with the shared library
 *   cc program.c librp.a              with the static one: it needs nothing but the C library
 */
#ifndef RP_H
#define RP_H

#include <stddef.h>
#include <stdint.h>

#ifdef __cplusplus
extern "C" {
#endif

/* The statuses. 0 to 6 are those of the command. */
enum rp_status {
    RP_DONE = 0,         /* the answer is in the output */
    RP_REJECTED = 1,     /* so is a certificate's rejection */
    RP_USAGE = 2,        /* the words are no command line; the usage is told */
    RP_READ_FAULT = 3,   /* a file that the words name was not given; a line tells which */
    RP_REFUSED = 4,      /* a file is refused; a line tells what is wrong with it, and where */
    RP_WRITE_FAULT = 5,  /* never comes: what has no room is counted */
    RP_NO_MEMORY = 6,    /* memory ran out; the output is empty */
    RP_NO_TEXT = 7,      /* a word, or a name of a file, is not UTF-8; nothing is told */
    RP_MALFORMED = 8,    /* the arguments do not fit together, or more files are given than the words name */
    RP_STOPPED = 70      /* of rp.c alone: the call stopped in the middle, which no input is known to do; nothing is told */
};

/*
 * Answers the words of a command line.
 *
 * Framing. `words` are the words after the program's name, each ended by a zero byte: "analyse\0t.csv\0" are two, and
 * `words_length` counts the zero bytes too. `names` are the names of the files, as the words have them, in the same
 * form. `sizes` has one number for each name, in their order: how many bytes the file has. `files` is how many sizes
 * there are. `bytes` are the bytes of the files, one after the other, with nothing between them; `bytes_length` is
 * their sum. All files that the words name are given, and no more than they name. One that is not given is told first
 * (RP_READ_FAULT), before any other is looked at. A name that is given twice counts as it is given first.
 *
 * The texts. What the command would write to standard output goes to `output`, and what it would tell on standard error
 * to `told`, each as far as there is room; the rest of the room stays as it was. No zero byte is added. `output_length`
 * and `told_length` take how long the texts are, also where they did not fit: where one is greater than the room, call
 * again with that much, and take that answer whole: of several cycles that would do no clause says which is printed, so
 * none says that the text of the next call is the same.
 *
 * Ownership. All memory is the caller's. The call only reads the first five, and writes only within the room and the
 * two numbers. No pointer is null, not even where its length is 0, and no memory that is written overlaps another
 * argument. Of its own the call takes memory by malloc and gives all of it back before it returns.
 *
 * Threads. Any number of threads may call at once, each with rooms of its own; they share nothing. Do not call from a
 * signal handler, nor in the child of a fork of a process that has threads.
 *
 * Returns the status.
 */
int32_t rp_answer(
    const uint8_t *words, size_t words_length,
    const uint8_t *names, size_t names_length,
    const uint64_t *sizes, size_t files,
    const uint8_t *bytes, size_t bytes_length,
    uint8_t *output, size_t output_room,
    uint8_t *told, size_t told_room,
    uint64_t *output_length, uint64_t *told_length);

/*
 * Answers the words of a command line as `rp-wide` does: what `rp_answer` would withhold is given wherever evidence of
 * it is found past the numbers that it keeps, and choices from budgets are taken that it refuses for their patches or
 * types, up to 256 patches. It also answers words that `rp_answer` does not take: fit TABLE [--json] and
 * checkfit TABLE CERT, as docs/reference/rp-fit.md describes, and random with --steps N, as docs/reference/rp-random.md
 * does. All else is the same.
 * Arguments, ownership, threads and statuses are those of `rp_answer`.
 */
int32_t rp_answer_wide(
    const uint8_t *words, size_t words_length,
    const uint8_t *names, size_t names_length,
    const uint64_t *sizes, size_t files,
    const uint8_t *bytes, size_t bytes_length,
    uint8_t *output, size_t output_room,
    uint8_t *told, size_t told_room,
    uint64_t *output_length, uint64_t *told_length);

/*
 * Answers the words of `rp-panel`: a row of verdicts for each household of a long file, or its bounds at new prices.
 *
 * The words are LONG [--id NAME] [--keep NAME].. [--pump] [--power DRAWS SEED] [--intercepts] [--wide], or with bounds
 * LONG [--id NAME] [--keep NAME].. (--demand | --welfare) NEW [--wide], as docs/reference/rp-panel.md describes, and the files are LONG
 * and NEW, where it is named, under these names. The output is the table as comma-separated values. With RP_DONE there
 * may be told lines too, one for each column of the long file that is left out. Arguments, ownership, threads and
 * statuses are those of `rp_answer`; RP_REJECTED never comes.
 */
int32_t rp_panel(
    const uint8_t *words, size_t words_length,
    const uint8_t *names, size_t names_length,
    const uint64_t *sizes, size_t files,
    const uint8_t *bytes, size_t bytes_length,
    uint8_t *output, size_t output_room,
    uint8_t *told, size_t told_room,
    uint64_t *output_length, uint64_t *told_length);

/*
 * Tells which files the words of a command line name, so that they can be read and given to `rp_answer` or
 * `rp_answer_wide`, which take the same words; those of `fit`, `checkfit` and `--steps` are for `rp_answer_wide` alone.
 *
 * `words` are framed as above. The names go to `names` in the order of the words, each ended by a zero byte, as far as
 * there is room; a name that the words have twice is told twice. `names_length` takes how long all of them are, also
 * where they did not fit: where it is greater than the room, call again with that much. Ownership and threads are as
 * above.
 *
 * Returns RP_DONE with the names; RP_USAGE where the words are no command line, RP_NO_TEXT where one is not UTF-8,
 * RP_MALFORMED where the last is not ended, and RP_NO_MEMORY: of these no name is told.
 */
int32_t rp_files(
    const uint8_t *words, size_t words_length,
    uint8_t *names, size_t names_room,
    uint64_t *names_length);

/*
 * Tells which files the words of `rp-panel` name, so that they can be read and given to `rp_panel`, which takes the same
 * words: LONG, and after it NEW where it is named. All else is as of `rp_files`.
 */
int32_t rp_panel_files(
    const uint8_t *words, size_t words_length,
    uint8_t *names, size_t names_room,
    uint64_t *names_length);

/*
 * Returns the version of the library, such as "0.17.0". The text ends with a zero byte, stays for as long as the library is loaded, and is
 * not to be freed. Compare it with the version of what calls the library. Libraries up to 0.17.0 do not have this call.
 */
const char *rp_version(void);

#ifdef __cplusplus
}
#endif

#endif

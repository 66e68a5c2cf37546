/*
 * Reading a script file, or a day of up to 16 scripts, for one of its labels, and the quote of a script file, on x86-64.
 * Link with libmonitor.a, which `rt lib` in crates/monitor writes.
 *
 * docs/SCRIPTS.md describes script files (there: plain files), days, faults and refusals, and under "A view" what is
 * written to the buffer.
 */
#ifndef NECHWALU_H
#define NECHWALU_H

#include <stddef.h>
#include <stdint.h>

/*
 * Refusals. Of a script file the lowest number that applies is answered, of a quote the lowest of 1 to 7 and 11; of a day
 * the first that applies in the order 1 2 3 4 10 6 7 8 9.
 */
#define NECHWALU_REFUSED_SIZE 1    /* the file has under 16 bytes (a day: under 20) or over 65535 */
#define NECHWALU_REFUSED_COUNT 2   /* a count in the header is outside its limits (a day's jobs: 10) */
#define NECHWALU_REFUSED_OFFSET 3  /* an offset is wrong, or the file's length */
#define NECHWALU_REFUSED_LABELS 4  /* a label entry is malformed or cut, or the labels don't end at the records */
#define NECHWALU_REFUSED_START 5   /* label 0, the start, doesn't flow to label 1, the clearance (a day: 10) */
#define NECHWALU_REFUSED_RECORDS 6 /* an input record's kind or label index is out of range */
#define NECHWALU_REFUSED_CODE 7    /* the code is malformed (a day: that of a job) */
#define NECHWALU_REFUSED_READER 8  /* the file has no label with the index `reader` */
#define NECHWALU_REFUSED_BUFFER 9  /* the buffer is shorter than the view (a day: than all views together) */
#define NECHWALU_REFUSED_JOBS 10   /* days only: no job or over 16, a job's field is out of range, or its starting label
                                      doesn't flow to its clearance */
#define NECHWALU_REFUSED_AHEAD 11  /* quotes only: a target is not ahead of its instruction, or there is a TRY */

/*
 * Sizes in bytes. An answer below the shortest view is a refusal. A buffer of the longest view is enough for every
 * script file, one of the longest day for every day.
 *
 * With six principals a view had 62 to 9278 bytes, and the views of a day at most 148448. A caller that still passes a
 * buffer of such a length gets NECHWALU_REFUSED_BUFFER, 9, where the view is longer now, and never a cut view; where the
 * view fits, it is written whole. The offsets below have changed with the widths.
 */
#define NECHWALU_LARGEST_FILE 65535
#define NECHWALU_SHORTEST_VIEW 206
#define NECHWALU_LONGEST_VIEW 33998
#define NECHWALU_LONGEST_DAY 543968 /* 16 views */
#define NECHWALU_NUMBER_SIZE 2
#define NECHWALU_TABLE_SIZE 32 /* a table, and each word of a value */
#define NECHWALU_LABEL_SIZE 64
#define NECHWALU_VALUE_SIZE 66
#define NECHWALU_RECORD_SIZE 132

/*
 * Where the fields of a view start. All numbers, words and tables are little-endian, and they are not aligned: take them
 * from their bytes. Those up to NECHWALU_AT_LENGTH are numbers of 2 bytes. Each view of a day is laid out so, from its
 * own start; the next one starts as many bytes on as NECHWALU_AT_LENGTH says.
 */
#define NECHWALU_AT_ENDING 0
#define NECHWALU_AT_STEPS 2
#define NECHWALU_AT_NEXT_PLACE 4
#define NECHWALU_AT_RECORDS_SHOWN 6
#define NECHWALU_AT_RECORDS_START 8 /* always holds 206 */
#define NECHWALU_AT_LENGTH 10       /* 206, and 132 for each record shown */
#define NECHWALU_AT_RESULT 12       /* a value */
#define NECHWALU_AT_LABEL 78        /* a label */
#define NECHWALU_AT_CLEARANCE 142   /* a label */
#define NECHWALU_AT_RECORDS 206     /* the records shown, one behind the other */

/* Within a record. */
#define NECHWALU_RECORD_AT_PLACE 0 /* 1 byte */
#define NECHWALU_RECORD_AT_KIND 1  /* 1 byte */
#define NECHWALU_RECORD_AT_LABEL 2
#define NECHWALU_RECORD_AT_VALUE 66

/* Within a value: its kind, a byte that is 0, and two words of 32 bytes. Above a number, place or code there are zeros. */
#define NECHWALU_VALUE_AT_KIND 0 /* 1 byte */
#define NECHWALU_VALUE_AT_FIRST 2
#define NECHWALU_VALUE_AT_SECOND 34

/*
 * Within a label: the tables of its two formulas, 256 bits each, as four 64-bit words, the lowest first. So bit i of a
 * table is bit i % 8 of its byte i / 8.
 */
#define NECHWALU_LABEL_AT_SECRECY 0
#define NECHWALU_LABEL_AT_INTEGRITY 32

/* A quote's answer: below this it is a refusal; else it has the steps above 32 bits, and the places in them. */
#define NECHWALU_LEAST_QUOTE ((uint64_t)1 << 32)
#define NECHWALU_QUOTED_STEPS(answer) ((uint32_t)((answer) >> 32))
#define NECHWALU_QUOTED_PLACES(answer) ((uint32_t)(answer))

/* Endings. */
#define NECHWALU_ENDING_HIDDEN 0 /* the final label doesn't flow to the reader */
#define NECHWALU_ENDING_RESULT 1
#define NECHWALU_ENDING_FAULT 2
#define NECHWALU_ENDING_SPENT 3
#define NECHWALU_ENDING_SKIPPED 4 /* days only: the job declares more steps than its caller has left */

/* Kinds of values, and what their words hold. */
#define NECHWALU_VALUE_NONE 0      /* 0 and 0 */
#define NECHWALU_VALUE_NUMBER 1    /* the number and 0 */
#define NECHWALU_VALUE_LABEL 2     /* the secrecy and the integrity table */
#define NECHWALU_VALUE_SEALED 3    /* the place of a sealed record and 0 */
#define NECHWALU_VALUE_REFERENCE 4 /* the place of a reference and 0 */
#define NECHWALU_VALUE_FAULT 5     /* the fault's code and its number */

/* Kinds of records. */
#define NECHWALU_RECORD_SEALED 0
#define NECHWALU_RECORD_REFERENCE 1

#ifdef __cplusplus
extern "C" {
#endif

/*
 * Runs the script in `file` and writes what its label with index `reader` may see of the outcome, the view, to the start
 * of `buffer`.
 *
 * Answers the number of a refusal, 1 to 9, and leaves `buffer` as it was; or the view's length, which is 206 or more, and
 * leaves `buffer` behind the view as it was. A view has at most 33998 bytes.
 *
 * Any bytes, any index and any buffer, also an empty one, are allowed; a pointer may be NULL where its length is 0.
 * `file` and `buffer` must not overlap. There is no heap and no global state; a call takes less than 512 KiB of stack.
 */
size_t nechwalu_read(const uint8_t *file, size_t file_length, size_t reader, uint8_t *buffer, size_t buffer_length);

/*
 * Runs the jobs of the day in `file`, one after another, and writes what its label with index `reader` may see of each
 * to the start of `buffer`: a view for each job, in their order, end to end.
 *
 * Answers the number of a refusal, 1 to 4 or 6 to 10, and leaves `buffer` as it was; or the length of all views
 * together, which is 206 or more, and leaves `buffer` behind them as it was. The views of a day have at most
 * 16 * 33998 = 543968 bytes.
 *
 * Each caller has the day's steps for its own jobs. A job that declares more than its caller has left is skipped,
 * whatever other callers' jobs do. It has a view too, the same for every reader: NECHWALU_SHORTEST_VIEW bytes with
 * NECHWALU_ENDING_SKIPPED, 206 at NECHWALU_AT_RECORDS_START and at NECHWALU_AT_LENGTH, and 0 elsewhere.
 *
 * No file is both a script file and a day: what one of the two calls reads, the other refuses. What is allowed is as for
 * nechwalu_read. There is no heap and no global state here either; a call takes less than 512 KiB of stack.
 */
size_t nechwalu_read_day(const uint8_t *file, size_t file_length, size_t reader, uint8_t *buffer, size_t buffer_length);

/*
 * What the script in `file` may cost, without running it: the largest steps and the largest places along any path through
 * its code, each by itself. No run of a file with that code uses more steps, or takes more places beyond its input records,
 * whatever its labels, records and limits are; a path reaches each figure, a run need not.
 *
 * Answers the number of a refusal, 1 to 7 or 11; or a number of NECHWALU_LEAST_QUOTE or more, which holds the figures:
 * NECHWALU_QUOTED_STEPS, which is 1 or more, and NECHWALU_QUOTED_PLACES.
 *
 * Any bytes are allowed; `file` may be NULL where its length is 0. There is no heap and no global state; a call takes less
 * than 512 KiB of stack.
 */
uint64_t nechwalu_quote(const uint8_t *file, size_t file_length);

#ifdef __cplusplus
}
#endif

#endif

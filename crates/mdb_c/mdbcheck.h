/*
 * mdbcheck.h - checks a recording of an MDB/ICP bus that lies in memory as text.
 *
 * The call is compiled from the proved code of the program mdbcheck, and answers what
 * `mdbcheck check` answers. crates/mdb_c/CALLING.md explains how to build it, what is promised, and
 * what isn't.
 *
 * Lengths are numbers of bytes. The call keeps nothing: after it the caller may change or free
 * everything that it passed. The call has no state of its own, so several threads may call it at
 * once. Each thread needs its own report and its own `told`. Threads may share the text, as long as
 * nobody changes it. The call uses malloc: don't call it where malloc isn't allowed, for example in
 * a signal handler.
 *
 * The call allocates memory with malloc and realloc, and frees all of it before it returns. It
 * needs some ten kilobytes, no matter how many rows there are, and up to 23 times the bytes of the
 * longest line. It needs 512 KB of the caller's stack. Some C libraries give a thread less by
 * default.
 */
#ifndef MDBCHECK_H
#define MDBCHECK_H

#include <stddef.h>
#include <stdint.h>

#ifdef __cplusplus
extern "C" {
#endif

/* The options: 0, or a sum of these. Without MDBCHECK_JOINED the recording begins at power-on or at
 * a break. A device that is left out isn't checked: all words to it and from it are passed over. */
#define MDBCHECK_JOINED 1u             /* the machine was running already (check --joined) */
#define MDBCHECK_WITHOUT_CHANGER 2u    /* check --without changer */
#define MDBCHECK_WITHOUT_BILL 4u       /* check --without bill: the validator */
#define MDBCHECK_WITHOUT_CASHLESS 8u   /* check --without cashless: the reader at 10H */
#define MDBCHECK_WITHOUT_CASHLESS_2 16u /* check --without cashless-2: the reader at 60H */
#define MDBCHECK_EXTENDED 32u          /* check --extended: also card readers of levels 2 and 3, the
                                        * options that readers have, and what a bill recycler
                                        * reports */

/* The codes that are returned. The report is written for YES and NO only. With any other code its
 * bytes stay as they were. */
#define MDBCHECK_YES 0u         /* all rows are possible */
#define MDBCHECK_NO 1u          /* a row is impossible */
#define MDBCHECK_BAD_ROW 2u     /* a record of the text is no row */
#define MDBCHECK_TOO_LONG 3u    /* more than 100,000,000 rows */
#define MDBCHECK_UNREAD 4u      /* more than 6,400,000,000 bytes */
#define MDBCHECK_NO_MEMORY 5u   /* memory was refused */
#define MDBCHECK_NO_ROOM 6u     /* there is a verdict, and its report is longer than `room` */
#define MDBCHECK_BAD_OPTIONS 7u /* a bit is set that is no option */

/* Why a record is no row: TIME,LINE,VALUE is expected (docs/bench/rows-and-command-line.md). */
#define MDBCHECK_FIELD_COUNT 1u /* it hasn't three fields */
#define MDBCHECK_BAD_TIME 2u    /* TIME isn't 1 to 18 decimal digits */
#define MDBCHECK_BAD_LINE 3u    /* LINE isn't M, S or B */
#define MDBCHECK_BAD_VALUE 4u   /* VALUE isn't three hexadecimal digits, or 1 to 9 decimal ones */

/* Every report that this version writes is shorter. */
#define MDBCHECK_ROOM 2048

typedef struct mdbcheck_told {
    uint64_t row;    /* YES: the number of rows; NO, BAD_ROW: the row, from 1; NO_ROOM: that of the
                        verdict; else 0 */
    uint64_t length; /* YES, NO, NO_ROOM: the number of bytes of the report; else 0 */
    uint64_t fault;  /* BAD_ROW: why the record is no row; else 0 */
} mdbcheck_told;

/*
 * Checks `length` bytes at `text`, and returns one of the codes above. `report` points to `room`
 * bytes. The report, which is what `mdbcheck check` prints, goes to the first of them:
 * `told->length` bytes, with no byte 0 after them. The bytes after the report stay as they were.
 *
 * No pointer may be null, even if a length is 0. `report`, `told` and the text must not overlap.
 * All three members of `told` are written for every code, and needn't be set before.
 */
uint32_t mdbcheck_check(uint32_t options, const uint8_t *text, size_t length, uint8_t *report,
                        size_t room, mdbcheck_told *told);

#ifdef __cplusplus
}
#endif

#endif

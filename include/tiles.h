/*
 * tiles.h: reversible ternary logic, from tables to cascades of gates.
 *
 * The functions are those of target/staticlib/libexports.a (x86-64), which
 * `tools/archive` builds from the proved library. Link that archive.
 *
 * Words
 *   lines    1 to 6 lines, x0 to x(n-1), each holding 0, 1 or 2.
 *   pattern  a number below 3^n; the digit of xk has weight 3^k.
 *   table    3^n patterns; entry i is the output for input i.
 *   record   a gate in 8 bytes: the operator (C1 C2 N D E are 1 to 5), the
 *            target, then a byte for each of x0 to x5: 0, 1 or 2 for a control
 *            of that value, 3 for none. The target's own byte and those of
 *            lines that the board doesn't have are 3.
 *   cascade  at most 8,000 records; gates apply first to last.
 *   file     a note of 0 to 1,024 bytes, the records, a trailer of 8 bytes.
 *   room     memory lent to be written to.
 *   value    the global control value, 0, 1 or 2: a control of any other value
 *            costs 2 more.
 *   text     of a table: its entries in decimal without leading zeros, a space or
 *            a newline behind each and a newline at the end, "1 2 0\n", at most
 *            65,535 bytes.
 *   fitted   which of D, E and N the board has, at least one: 1 for D, 2 for E
 *            and 4 for N, added, so 7 if it has all. A gate whose operator it
 *            lacks costs 1 more. C1 and C2 are on every board.
 *
 * Answers
 *   Every call answers a struct tiles_answer. `number` is 0 if the call was
 *   accepted, and then `place` is 0 and `first`, `second`, `third` are the
 *   values that the call's comment names; values that it doesn't name are 0.
 *   Otherwise `number` says what was refused, `place` says where, and the three
 *   values are 0. Refusals are looked for in the order of the call's comment.
 *
 *     number  given when                                       place
 *        1    lines not 1 to 6                                 0
 *        2    the table's length isn't 3^n                     0
 *        3    an entry is 3^n or more                          first such entry
 *        4    an entry equals an earlier one                   first such entry
 *        5    the room is too small                            the size needed
 *        6    the cascade's length is no multiple of 8, or
 *             it, or a text, has more than 8,000 gates         0
 *        7    a record isn't a gate on these lines             first such gate
 *        8    the pattern is 3^n or more                       0
 *        9    the file's frame is wrong, or the note is too
 *             long                                             0
 *       10    the global control value is above 2              0
 *       11    two cascades compute different tables            first input on
 *                                                              which they differ
 *       12    a line of a text isn't that of a gate on these
 *             lines                                            first such line
 *       13    the fitted set is 0 or above 7                   0
 *       14    a byte of a table's text can't stand there, or
 *             it has the offset 65,535                         its offset
 *             it shows a number above 65,535                   the offset of
 *                                                              that number
 *             the text ends not straight after a newline       its length
 *
 *   Entries, gates, inputs and lines count from 0. The size needed counts whole
 *   records in a room for records, entries in a room for a table, and bytes in
 *   a room for a file, a note or a text.
 *
 * Lent memory
 *   A slice is a pointer and then its length, counted in elements (bytes, or
 *   entries of 16 bits). Any lengths and any contents are taken: each call
 *   checks for itself. The caller sees to it that so many elements are there
 *   and are initialized, that pointers to entries are aligned, and that a room
 *   (or the cascade that tidying changes) shares no byte with anything else
 *   lent to the same call. Where a length is 0 the pointer isn't followed and
 *   may be null.
 *
 *   - Memory lent as const is never written.
 *   - A refused call changes no lent byte, but that the reader of a table's text
 *     keeps the refusal.
 *   - An accepted call writes what its comment says, at the start of the room.
 *     All bytes beyond keep their old content, also the odd ones of a room for
 *     records whose length is no multiple of 8.
 *   - Nothing is kept: after the call the memory is the caller's again. The
 *     calls have no state but what the caller lends, allocate nothing and may run
 *     in several threads.
 */
#ifndef TILES_H
#define TILES_H

#include <stddef.h>
#include <stdint.h>

#ifdef __cplusplus
extern "C" {
#endif

#define TILES_RECORD 8           /* bytes of a gate record */
#define TILES_MOST_GATES 8000    /* gates of the longest cascade */
#define TILES_MOST_ENTRIES 729   /* entries of a table on six lines */
#define TILES_MOST_FOUND 4010    /* records that tiles_synthesize asks on six lines */
#define TILES_MOST_NOTE 1024     /* bytes of the longest note */
#define TILES_MOST_FILE 65032    /* bytes of the longest file */
#define TILES_MOST_TEXT 65535    /* bytes of the longest text of a table */
#define TILES_MOST_LISTING 248031 /* bytes of the longest listing */
#define TILES_MOST_NAMES 248000  /* bytes of the longest text that tiles_write_names writes */

struct tiles_answer {
    uint64_t number; /* 0: accepted; otherwise the refusal */
    uint64_t place;  /* of the refusal */
    uint64_t first, second, third;
};

/* Is the table a permutation of the patterns?
 * Refusals 1, 2, 3, 4. No values. */
struct tiles_answer tiles_check_table(uint8_t lines, const uint16_t *table, size_t table_len);

/* Writes the records of the cascade that computes the table. The room asked is
 * n * 3^n - (3^n - 1) / 2 records (2, 14, 68, 284, 1,094, 4,010), whatever this
 * table needs.
 * Refusals 1, 2, 3, 4, 5 (records). first: the gates written. */
struct tiles_answer tiles_synthesize(uint8_t lines, const uint16_t *table, size_t table_len,
                                     uint8_t *room, size_t room_len);

/* Is this a cascade on these lines?
 * Refusals 1, 6, 7. first: its gates. */
struct tiles_answer tiles_check_cascade(uint8_t lines, const uint8_t *cascade, size_t len);

/* Runs the cascade on a pattern.
 * Refusals 1, 6, 7, 8. first: the pattern afterwards. */
struct tiles_answer tiles_run(uint8_t lines, const uint8_t *cascade, size_t len, uint16_t pattern);

/* Writes the table that the cascade computes.
 * Refusals 1, 6, 7, 5 (entries). first: the entries written, 3^n. */
struct tiles_answer tiles_tabulate(uint8_t lines, const uint8_t *cascade, size_t len,
                                   uint16_t *room, size_t room_len);

/* Writes the cascade that undoes this one: reversed, each gate its inverse.
 * Refusals 1, 6, 7, 5 (records). first: the gates written. */
struct tiles_answer tiles_invert(uint8_t lines, const uint8_t *cascade, size_t len,
                                 uint8_t *room, size_t room_len);

/* What the cascade costs under a global control value on a board with such
 * operators fitted.
 * Refusals 1, 10, 13, 6, 7. first: the cost. */
struct tiles_answer tiles_price(uint8_t lines, uint8_t value, uint8_t fitted,
                                const uint8_t *cascade, size_t len);

/* Tidies the cascade where it lies: the gates left stand first, in order, and
 * the records freed at the end become zero bytes (which are no gates: cut them
 * off before the next call).
 * Refusals 1, 6, 7. first: the gates left, second: the steps taken. */
struct tiles_answer tiles_tidy(uint8_t lines, uint8_t *cascade, size_t len);

/* Which of two cascades that compute the same table costs less on such a board;
 * then the one with fewer gates; then the first.
 * Refusals 1, 10, 13, 6 and 7 of the first, 6 and 7 of the second, 11.
 * first: 1 for the first, 2 for the second. */
struct tiles_answer tiles_choose(uint8_t lines, uint8_t value, uint8_t fitted,
                                 const uint8_t *a, size_t a_len,
                                 const uint8_t *b, size_t b_len);

/* Writes a cascade file: the note, the records, the trailer.
 * Refusals 1, 6, 7, 9 (the note is over 1,024 bytes), 5 (bytes).
 * first: the bytes written. */
struct tiles_answer tiles_write_file(uint8_t lines, const uint8_t *cascade, size_t len,
                                     const uint8_t *note, size_t note_len,
                                     uint8_t *room, size_t room_len);

/* Copies a file's records and its note into two rooms.
 * Refusals 9, 1, 6, 7, 5 (the records' room, in records), 5 (the note's room,
 * in bytes). first: the lines, second: the gates, third: the note's bytes. */
struct tiles_answer tiles_read_file(const uint8_t *file, size_t len,
                                    uint8_t *records, size_t records_len,
                                    uint8_t *note, size_t note_len);

/* Where a reader of this file starts, for tiles_next. All records are checked.
 * Refusals 9, 1, 6, 7. first: the lines, second: the place of the first record
 * and third: the end of the records, both byte offsets in the file. */
struct tiles_answer tiles_opening(const uint8_t *file, size_t len);

/* The gate whose record stands at a byte offset of the file. The end is told
 * if no whole record stands from there on before `end` and before the file's
 * end. Any lines, place and end may be given.
 * Refusals 1, 7 (here the place is the byte offset given).
 * first: 1 for a gate, 0 for the end. second: the next place, which at the end
 * is the place given. third: operator + 256 * target + 65,536 * controls (0 at
 * the end), where controls has the six control bytes as digits in base 4, that
 * of x0 lowest. */
struct tiles_answer tiles_next(const uint8_t *file, size_t len, uint8_t lines, size_t place,
                               size_t end);

/* Writes the listing: a head line with lines, gates and the cost at value 2 with
 * all operators fitted, then a line for each gate. Each line ends with a newline;
 * no zero byte is added.
 * Refusals 1, 6, 7, 5 (bytes). first: the bytes written. */
struct tiles_answer tiles_listing(uint8_t lines, const uint8_t *cascade, size_t len,
                                  uint8_t *room, size_t room_len);

/* Writes what the program prints for a table file (one byte n, then the entries
 * of 16 bits, low byte first): the listing of the table's cascade, or a line
 * such as "refused 4 at 2". That too is an accepted call.
 * Refusal 5 (bytes). first: the bytes written. */
struct tiles_answer tiles_sheet(const uint8_t *file, size_t len, uint8_t *room, size_t room_len);

/* Reads a list of gates in document 003's names, where C1, C2, N, D, E are +1,
 * +2, 02, 12, 01. A line is the name, a space, the target as x and a digit, a
 * space and xk=v for each control in rising k, and a newline: "12 x0 x1=2\n".
 * There is nothing else in a text, so that each accepted text is what
 * tiles_write_names writes for its gates. The empty text has no gates.
 * Refusals 1, 12, 6, 5 (records). first: the gates. */
struct tiles_answer tiles_read_names(uint8_t lines, const uint8_t *text, size_t len, uint8_t *room,
                                     size_t room_len);

/* Writes the gates as such a list. No zero byte is added.
 * Refusals 1, 6, 7, 5 (bytes). first: the bytes written. */
struct tiles_answer tiles_write_names(uint8_t lines, const uint8_t *cascade, size_t len,
                                      uint8_t *room, size_t room_len);

/* The reader of a table's text, which comes in parts. The caller keeps it and
 * lends it to each call, which changes it where it lies. Any content is taken,
 * but tiles_serial_start makes one that is right. It has 1,472 bytes, and none
 * of them is padding. */
struct tiles_serial {
    uint8_t lines;
    uint8_t last;           /* the byte that came last; a space at the start */
    uint8_t over;           /* 0 while the text goes on; then the answer stands */
    uint8_t number;         /* the refusal that stands, 0 for acceptance */
    uint16_t place;         /* of the refusal */
    uint16_t at;            /* the offset of the next byte */
    uint16_t first;         /* where the number under way begins, or the next one */
    uint16_t value;         /* the number under way, 0 if there is none */
    uint16_t count;         /* the numbers so far, up to 730 */
    uint16_t entries[TILES_MOST_ENTRIES]; /* the first of them */
};

/* Makes a reader for a table on so many lines, whatever stood there.
 * Refusal 1, which then stands in the reader. first: 0. */
struct tiles_answer tiles_serial_start(struct tiles_serial *reader, uint8_t lines);

/* Feeds it the next bytes of the text, or none. However a text is cut, the
 * answers and the table are those of the whole text in one part. A refusal
 * stands: each further part, and the end, gets it again.
 * Refusals 1, 14. first: 0. After the end, what the end answered. */
struct tiles_answer tiles_serial_part(struct tiles_serial *reader, const uint8_t *part, size_t len);

/* Tells it that the text has ended, and writes the table. Each later call
 * repeats this answer, whatever it is lent, and changes no table.
 * Refusals 1, 14, 2, 3, 4, 5 (entries). first: the entries written, 3^n. */
struct tiles_answer tiles_serial_end(struct tiles_serial *reader, uint16_t *table,
                                     size_t table_len);

#ifdef __cplusplus
}
#endif

#endif

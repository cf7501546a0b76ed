/* Limedarts unit configurator, for C.
 *
 * Every call answers 0 where it was accepted, else the number of the refusal:
 *
 *    1  a count outside its range (1 to 4 functions, 1 to 16 segments, 1 to 32 columns)
 *    2  tag not in the unit         3  segment          4  column
 *    5  fewer than 16,000 working words
 *    6  output too short
 *    7  more than 256 states        8  read without a plan
 *    9  a cycle that is empty, has more than 256 latencies, or has a latency 0
 *   10  start not granted
 *   11  a unit file of fewer than 4 bytes, or of a wrong length
 *   12  byte 3 or an offset of the file wrong
 *   13  a mark beyond the columns
 *
 * The lowest number that applies is given; a unit file is tried first, in the order 11 (under 4 bytes), 1, 11, 12, 13.
 * A refused call changes nothing that was lent, but for working words at 7.
 *
 * A unit is lent as its unit file: `file` and its exact length in bytes. Tags, segments and columns count from 1; a number too
 * large for a byte is refused like any other outside the range. Every pointer must be valid for its length; a length may be 0.
 * What is lent as output must not overlap what is lent as input.
 */
#ifndef LIMEDARTS_H
#define LIMEDARTS_H

#include <stddef.h>
#include <stdint.h>

#ifdef __cplusplus
extern "C" {
#endif

#define LIMEDARTS_FILE 268    /* bytes that hold every unit file */
#define LIMEDARTS_WORK 16000  /* working words for greedy and search */
#define LIMEDARTS_STATES 256  /* words for the states */
#define LIMEDARTS_CYCLE 256   /* bytes for a cycle */
#define LIMEDARTS_BANK 4      /* registers of an issue controller */
#define LIMEDARTS_AREA 8888   /* bytes that hold every listing */

/* Writes the file of a unit without marks to the front of `out`, and its length to `*length`. Refusals: 1 6. */
uint32_t limedarts_fresh(uint32_t functions, uint32_t segments, uint32_t columns, uint8_t *out, size_t out_length, uint32_t *length);

/* Sets or clears one mark in the file. Refusals: the file's, 2 3 4. */
uint32_t limedarts_mark(uint8_t *file, size_t file_length, uint32_t tag, uint32_t segment, uint32_t column);
uint32_t limedarts_unmark(uint8_t *file, size_t file_length, uint32_t tag, uint32_t segment, uint32_t column);

/* The collision vector of a tag, column t in bit t - 1. Refusals: the file's, 2. */
uint32_t limedarts_vector(const uint8_t *file, size_t file_length, uint32_t tag, uint32_t *word);

/* Row `tag` of the matrix of `other`: a 1 in column t where `tag` started t after `other` would collide. Refusals: the file's, 2. */
uint32_t limedarts_matrix_row(const uint8_t *file, size_t file_length, uint32_t tag, uint32_t other, uint32_t *word);

/* Bound: the size of the largest set of whole numbers in which every two differ by a forbidden latency, 1 for a function without marks.
 * Upper: the number of 1s in the collision vector, plus 1. The average latency of the best and of the greedy cycle lies between them.
 * Constant: the least latency of which no multiple is forbidden. Refusals: the file's, 2. */
uint32_t limedarts_bound(const uint8_t *file, size_t file_length, uint32_t tag, uint32_t *value);
uint32_t limedarts_upper(const uint8_t *file, size_t file_length, uint32_t tag, uint32_t *value);
uint32_t limedarts_constant(const uint8_t *file, size_t file_length, uint32_t tag, uint32_t *value);

/* Writes 1 to `*yes` if the cycle, repeated without end, never collides, else 0. Refusals: the file's, 2 9. */
uint32_t limedarts_judge(const uint8_t *file, size_t file_length, uint32_t tag, const uint8_t *cycle, size_t cycle_length, uint32_t *yes);

/* The states of the diagram in the order in which they are found, and their number. Needs 256 words. Refusals: the file's, 2 6 7. */
uint32_t limedarts_states(const uint8_t *file, size_t file_length, uint32_t tag, uint32_t *out, size_t out_length, uint32_t *count);

/* The greedy cycle, its number of latencies and their sum. Needs 16,000 working words and 256 bytes; the latencies fill the front of
 * `out`, and bytes after them stay as before. Refusals: the file's, 2 5 6 7. */
uint32_t limedarts_greedy(const uint8_t *file, size_t file_length, uint32_t tag, uint32_t *work, size_t work_length, uint8_t *out,
                          size_t out_length, uint32_t *count, uint32_t *sum);

/* The cycle of least average latency, in the rotation that comes first: its latencies at the front of `out`, their number and their
 * sum. Memory and refusals as for the greedy cycle. */
uint32_t limedarts_search(const uint8_t *file, size_t file_length, uint32_t tag, uint32_t *work, size_t work_length, uint8_t *out,
                          size_t out_length, uint32_t *count, uint32_t *sum);

/* One time unit of the issue controller: its four registers are lent, and all zero at the beginning. A tick lets a time unit pass;
 * a start of a tag takes a time unit if it is granted. Refusals: the file's, 2 (start), 6 (fewer than 4 words), 10 (start). */
uint32_t limedarts_tick(const uint8_t *file, size_t file_length, uint32_t *bank, size_t bank_length);
uint32_t limedarts_start(const uint8_t *file, size_t file_length, uint32_t *bank, size_t bank_length, uint32_t tag);

/* The listing of a unit file as text, and its length. A refused file is listed as one line, `refused` and its number, and the call
 * is accepted. 8,888 bytes always suffice. Refusals: 6. */
uint32_t limedarts_listing(const uint8_t *file, size_t file_length, uint8_t *out, size_t out_length, uint32_t *length);

/* Plays a list of mark, unmark, search and read calls, each on the unit as the one before left it, from a fresh unit of the three counts,
 * and hands out how many were played: as many as there are whole calls and room for their replies. A call is four bytes: kind (0 mark,
 * 1 unmark, 2 search, any other a read), tag, segment and column. A reply is 262 bytes: the number of the refusal or 0, and for a read
 * that is accepted the plan (tag, number of latencies and sum in two bytes each with the low byte first, 256 bytes of latencies); zeros
 * otherwise. A read after an edit answers 8: the plan was dropped. Where the counts are refused every call answers 1. Answers 0 always. */
uint32_t limedarts_play(uint32_t functions, uint32_t segments, uint32_t columns, const uint8_t *calls, size_t calls_length,
                        uint32_t *work, size_t work_length, uint8_t *out, size_t out_length, size_t *count);

#ifdef __cplusplus
}
#endif

#endif

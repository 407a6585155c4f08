/* The planner's functions for other languages. A slice is a pointer and then a length, counted in elements; what is lent stays
 * the caller's. No two slices of one call may overlap, and each must be aligned for its elements. A slice of length 0 may be NULL.
 * A refusal hands back the number and place of documents 01 and 02, and leaves lent memory as it was. Rows count from 0. Where
 * several fit a plan, the first in this order is given: 1, 2, 3, 11, 4, 5, 10, 6.
 *
 * n is the number of streams, 1 to 256, and 1 to 64 in a file of edition 1 or 2; m is the number of gaps, 0 to 8. So a file has at
 * most 7,284 bytes. P is from one pulse of the master node to the next, and 0 in a plan without one.
 * Files of three editions are read. Edition 1 has no P, which is then 0, and in edition 2 P is above 0; neither has acknowledgements,
 * which are then 0. Edition 3 has both, and is the one that is written. A LAG, in a file of any edition or lent, is added to ETG, and
 * 0 is written in its place: of a file of edition 3 whose LAG is 0 the same bytes are written, of any other the file of edition 3 of
 * the same plan, which is longer than an older one. The place of a wrong field is its byte in the file that was given, and for values
 * lent without a file its byte in their file of edition 3. Where ETG and LAG, each within its limits, are above 65,535 together, 11 is
 * given, and its place is the byte of ETG, 68.
 *
 * Every call returns, but livnakesh_answers and livnakesh_screen can take minutes: most plans take well under a millisecond, nearly
 * full ones of 256 streams a few, and the slowest that are known more than three minutes. All other calls look at what they are lent
 * once or a few times over. */
#ifndef LIVNAKESH_H
#define LIVNAKESH_H

#include <stddef.h>
#include <stdint.h>

#ifdef __cplusplus
extern "C" {
#endif

/* refusal 0: done, and value is what was asked for. Otherwise the refusal's number, and value is its place. */
struct livnakesh_said {
    uint64_t refusal;
    uint64_t value;
};

/* answer 0: the second plan is lighter; number and value are 0.
 * answer 1: the first file is refused; answer 2: the second is. number and value are the refusal's number and place.
 * answer 3: run it again; number is a condition that is broken, and value what breaks it. 9 is looked at first, then 1, then 2 to 6
 * and 10 of each stream in turn, then 7 and 8:
 *   9 one plan has a master node and the other has none       0
 *   1 a timing constant is greater            its place, 0 to 9 for F, E, TFCS, SWX, H, G, ETG, LAG, NB, P
 *                                             (never 7: a greater LAG is a greater ETG)
 *   2 a stream is not in the first plan       its label
 *   3 its period is shorter                   its label
 *   4 its jitter is longer                    its label
 *   5 its payload is longer                   its label
 *   6 its deadline is shorter                 its label
 *  10 its acknowledgement is longer           its label
 *   7 it comes after a stream that it came before: one of the second plan's streams is more urgent than this one,
 *     and was not in the first plan         its label
 *   8 more gaps of the second plan than of the first are this long or less      the gap */
struct livnakesh_weighed {
    uint64_t answer;
    uint64_t number;
    uint64_t value;
};

/* A stream's seven words, in the file's order. acknowledgement is 0 to 65,535, and 0 where none is waited for. */
struct livnakesh_stream {
    uint32_t label;
    uint32_t priority;
    uint32_t period;
    uint32_t jitter;
    uint32_t payload;
    uint32_t deadline;
    uint32_t acknowledgement;
};

/* A tournament after a call. refusal 0: done, and place is 0. Otherwise the refusal's number and place.
 * phase 0: at a bit, and at is its number, counted from 1 at the top.
 * phase 1: finished, and at is the winner's row.
 * phase 2: finished with no winner, and at is 0. */
struct livnakesh_stepped {
    uint64_t refusal;
    uint64_t place;
    uint64_t phase;
    uint64_t at;
};

/* The answers of a plan file: four words a row in file order, verdict (0 met, 1 missed, 2 none), the bound (0 for none), the
 * instance q that gives it, counted from 0: the first of those with the largest term (0 for none), and then the evaluations in the
 * search for L. The evaluations are the steps from 1 on, by the right side of L, to a value that repeats or to the first beyond
 * 4,294,967,295, the last one included, and at most floor(X / c) + 1, where c is the smallest C'' among the stream and the more urgent
 * ones, or P with a master node, and X is L, or 4,294,967,295 for none. Words after 4n stay as found; n is the word at byte 28 of the
 * file, divided by 24 in editions 1 and 2 and by 28 in edition 3.
 * Refusals 1 to 6, 10 and 11; 6 if fewer than 4n words are lent. value is 0. */
struct livnakesh_said livnakesh_answers(const uint8_t *file, size_t file_length, uint64_t *words, size_t word_count);

/* Reads a plan file of any edition and writes its plan's file of edition 3 at the start of the lent buffer; the rest of the buffer is
 * kept. value is the number of bytes written, 84 + 28n + 4m. Refusals 1 to 6, 10 and 11; 6 if fewer bytes than that are lent. */
struct livnakesh_said livnakesh_rewrite(const uint8_t *file, size_t file_length, uint8_t *buffer, size_t buffer_length);

/* Writes the file, of edition 3, of so many streams (n) and gaps (m) at the start of the lent buffer; the rest of the buffer is kept.
 * values are ten timing words, F to NB and P, then seven words a stream and then the gaps. A word that is not lent is 0, and words
 * after 10 + 7n + m are not looked at. value is the number of bytes written, 84 + 28n + 4m.
 * Refusals 2 to 6, 10 and 11, with the places that the file would have; 6 if fewer bytes than that are lent. */
struct livnakesh_said livnakesh_write(size_t streams, size_t gaps, const uint32_t *values, size_t value_count,
                                      uint8_t *buffer, size_t buffer_length);

/* The answers of the screen's values, four words a row, as livnakesh_answers gives them for their file; the fourth is the evaluations,
 * with the same limit. timing is ten words, F to NB and P: one that is not lent is 0, so a caller who lends nine has no master node,
 * and words after them are not looked at. The lists' own lengths are n and m. Refusals 2 to 6, 10 and 11, with the places that the
 * file would have; 6 if fewer than 4n words are lent. value is 0. */
struct livnakesh_said livnakesh_screen(const struct livnakesh_stream *streams, size_t stream_count,
                                       const uint32_t *timing, size_t timing_count, const uint32_t *gaps, size_t gap_count,
                                       uint64_t *words, size_t word_count);

/* The bit at which two priorities part: the first from the top, counted from 1, at which they differ.
 * Refusal 8 if the bit count is not 1 to 32 (place 0) or a priority does not fit in it (its row, 0 or 1);
 * refusal 9 if both are one priority (row 1). */
struct livnakesh_said livnakesh_parting(uint32_t bits, uint32_t first, uint32_t second);

/* Whether the plan in the second file is lighter than that in the first: every stream of it that has a bound in the first
 * then has one in the second, no larger, and what was met is met. A file is refused by 1 to 5, 10 and 11. */
struct livnakesh_weighed livnakesh_lighter(const uint8_t *first, size_t first_length, const uint8_t *second, size_t second_length);

/* A tournament's state is its bit count, its phase, its priorities and its marks. Each lent priority is a contender's, row by row,
 * and its mark is the byte in the same row, in if it is not 0. Refusals 6 to 9: 6 exactly when fewer marks than priorities are
 * lent, before all others, with place 0; 7 if no priority or more than 128 are lent. */

/* The start of a tournament, at bit 1 with all contenders in; what stands in the marks is not looked at. Unless it is refused,
 * each contender's mark becomes 1, and those after them become 0 up to the 128th, as far as they are lent; the bytes after the
 * 128th stay as found. A refused start has phase 2, at 0. */
struct livnakesh_stepped livnakesh_start(uint32_t bits, const uint32_t *priorities, size_t priority_count,
                                         uint8_t *marks, size_t mark_count);

/* One step, from a state of the caller's own making; phase and at are as in livnakesh_stepped, and a phase above 2 is as 2, beside
 * which at is not looked at. The mark of a contender that goes out becomes 0; every other byte stays as found, those of a finished
 * tournament and those after the contenders' too. A refused step hands back the phase and the at that were lent, right or wrong,
 * if the phase was 0 or 1, and phase 2, at 0, if it was above. */
struct livnakesh_stepped livnakesh_step(uint32_t bits, uint32_t phase, uint32_t at,
                                        const uint32_t *priorities, size_t priority_count, uint8_t *marks, size_t mark_count);

#ifdef __cplusplus
}
#endif

#endif

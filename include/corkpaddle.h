/* Corkpaddle: stripes, share files and pass books, by product-matrix MBR and MSR codes.
 *
 * Every function takes any input and ends with an answer. It refuses exactly for the reasons of document 01, and a refusal
 * leaves every lent run as it was. What the library cannot see is the caller's part: a pointer is valid for its length and aligned for its type, and
 * a run lent to be written overlaps no other run of the call. A null pointer with length 0 is an empty run.
 *
 * A code is the 36 bytes of a C record's body: kind, n, k, d and 32 points, the unused ones zero. A code run of another
 * length is refusal 5; or 3, the smaller, where the call has a stripe total that is not from 1 to 1,024.
 *
 * A share file of t stripes has 45 + 34 t bytes: a C record, an N record and t D records of 34 bytes. An H record has 10
 * bytes, and a batch is d of them, one after the other.
 */
#ifndef CORKPADDLE_H
#define CORKPADDLE_H

#include <stddef.h>
#include <stdint.h>

#ifdef __cplusplus
extern "C" {
#endif

/* number: 0 for done, else the refusal: 1 RECORD, 2 KIND, 3 SIZE, 4 POINTS, 5 LENGTH, 6 NODE, 7 REPEAT, 8 MIXED, 9 ORDER,
 * 10 PLACE. first and second: the pair of places of refusal 4, else 0. count: the slip count that goes with a done answer
 * of a rebuild, a collection, a judged file or a taken slip, else 0. */
typedef struct {
    uint32_t number, first, second, count;
} corkpaddle_answer;

/* Whether the code is accepted: 2, 3 or 4 with its pair. */
corkpaddle_answer corkpaddle_judge(const uint8_t *code, size_t code_len);

/* The share of a node, alpha bytes, of a message stripe of B bytes. */
corkpaddle_answer corkpaddle_encode(const uint8_t *code, size_t code_len, uint8_t node, const uint8_t *message,
                                    size_t message_len, uint8_t *output, size_t output_len);

/* What a helper with this share sends for a failed node: one byte, into an output run of 1. */
corkpaddle_answer corkpaddle_help(const uint8_t *code, size_t code_len, uint8_t helper, uint8_t failed,
                                  const uint8_t *share, size_t share_len, uint8_t *output, size_t output_len);

/* The share of a failed node from d helpers: their nodes, symbols and slip counts, in one order. */
corkpaddle_answer corkpaddle_rebuild(const uint8_t *code, size_t code_len, uint8_t failed, const uint8_t *nodes,
                                     size_t nodes_len, const uint8_t *symbols, size_t symbols_len,
                                     const uint32_t *counts, size_t counts_len, uint8_t *output, size_t output_len);

/* The message stripe from k shares, one after the other in one run, with their nodes and slip counts in the same order. */
corkpaddle_answer corkpaddle_collect(const uint8_t *code, size_t code_len, const uint8_t *nodes, size_t nodes_len,
                                     const uint32_t *counts, size_t counts_len, const uint8_t *shares,
                                     size_t shares_len, uint8_t *output, size_t output_len);

/* Whether the share file is accepted: 1, 2, 3, 4 with its pair, or 6, by the first faulty record. count: the file's count.
 * A share file holds its own code, so this function and the next two take none. */
corkpaddle_answer corkpaddle_judge_file(const uint8_t *file, size_t file_len);

/* Judges the share file, then takes the slip, one P record of 10 bytes, into it: the slip's change is added to the share of
 * its stripe, and the file's count goes up by one. After the file's faults 1, 9 and 10. count: the new count. */
corkpaddle_answer corkpaddle_take_slip(uint8_t *file, size_t file_len, const uint8_t *slip, size_t slip_len);

/* What the share file's station sends for a failed node: one H record for each stripe, 10 bytes each, into an output run of
 * just that length. After the file's faults 5, 6 and, for the file's own node, 7. */
corkpaddle_answer corkpaddle_answer_for(const uint8_t *file, size_t file_len, uint8_t failed, uint8_t *output,
                                        size_t output_len);

/* What stands at a place of a file. number: 0 for a whole record of a known kind, else 1. start and end: the body is
 * the bytes from start on, up to but without end. next: the place after the record. On a refusal start and end are 0, and
 * next is the place that was asked. */
typedef struct {
    uint64_t number, start, end, next;
} corkpaddle_record;

/* Reads the record at a place, counted from 0. Any place may be asked. */
corkpaddle_record corkpaddle_read(const uint8_t *file, size_t file_len, uint64_t place);

/* The asked node's D record of one stripe from a batch of H records, into an output run of 34. */
corkpaddle_answer corkpaddle_rebuild_batch(const uint8_t *code, size_t code_len, uint8_t asked, const uint8_t *batch,
                                           size_t batch_len, uint8_t *output, size_t output_len);

/* The asked node's whole share file from a batch for each stripe, in the order of the stripes, in one run. */
corkpaddle_answer corkpaddle_rebuild_file(const uint8_t *code, size_t code_len, uint8_t asked, uint32_t stripes,
                                          const uint8_t *batches, size_t batches_len, uint8_t *output,
                                          size_t output_len);

/* A node's fresh share file, at count 0, of a book of B bytes for each stripe. */
corkpaddle_answer corkpaddle_cut(const uint8_t *code, size_t code_len, uint8_t node, uint32_t stripes,
                                 const uint8_t *book, size_t book_len, uint8_t *output, size_t output_len);

#ifdef __cplusplus
}
#endif

#endif

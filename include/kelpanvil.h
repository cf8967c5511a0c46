/* Kelpanvil's operations on stored jobs and on assertion texts, for C and C++. docs/BOUNDARY.md is the page that goes with it.
 *
 * Numbers and bytes pass, nothing else. A slice is a pointer and its length in bytes. No pointer may be null, not
 * even where the length is 0. What an operation may write (not const) may not overlap anything else passed to it.
 *
 * Each operation returns its answer's word and writes the answer as ten numbers of four bytes, low byte first: the
 * word again, then the numbers that belong to it, then zeros. If `answer` is shorter than KELPANVIL_ANSWER_BYTES,
 * the result is 0, and nothing is tried or changed. Bytes past those written stay; a refusal changes the answer only. */
#ifndef KELPANVIL_H
#define KELPANVIL_H

#include <stddef.h>
#include <stdint.h>

#define KELPANVIL_ANSWER_BYTES 40

enum kelpanvil_word {
    KELPANVIL_DONE = 1,
    KELPANVIL_REFUSED = 2, /* number, block, record; of a text: number, and the byte's low and high four bytes */
    KELPANVIL_PASSES = 3,
    KELPANVIL_EMPTY = 4,
    KELPANVIL_FAILS = 5,
    KELPANVIL_HOLDS = 6,
    KELPANVIL_VACANT = 7
};

#ifdef __cplusplus
extern "C" {
#endif

/* The sizes of a job. DONE: k, nodes, expressions, clauses. */
size_t kelpanvil_sizes(const uint8_t *job, size_t job_length, uint8_t *answer, size_t answer_length);

/* The records of a job, eight bytes each, at the start of three lists. DONE: k, nodes, expressions, clauses. */
size_t kelpanvil_unpack(const uint8_t *job, size_t job_length,
                        uint8_t *nodes, size_t nodes_length,
                        uint8_t *expressions, size_t expressions_length,
                        uint8_t *clauses, size_t clauses_length,
                        uint8_t *answer, size_t answer_length);

/* Records stored as a job, at the start of `out`. DONE: bytes written. */
size_t kelpanvil_pack(size_t k,
                      const uint8_t *nodes, size_t nodes_length,
                      const uint8_t *expressions, size_t expressions_length,
                      const uint8_t *clauses, size_t clauses_length,
                      uint8_t *out, size_t out_length,
                      uint8_t *answer, size_t answer_length);

/* The row of a case at a time, at the start of `out`: a byte for each node, 0, 1, or 2 for X. DONE: bytes written. */
size_t kelpanvil_row(const uint8_t *job, size_t job_length, size_t case_number, size_t time,
                     uint8_t *out, size_t out_length, uint8_t *answer, size_t answer_length);

/* One case. PASSES. EMPTY: time, node. FAILS: time, node, wanted, found (0, 1, or 2 for X). */
size_t kelpanvil_one_case(const uint8_t *job, size_t job_length, size_t case_number,
                          uint8_t *answer, size_t answer_length);

/* The whole job. HOLDS, VACANT and FAILS: cases, passing, failing, empty. Then VACANT: case, time, node; and FAILS:
 * case, time, node, wanted, found. */
size_t kelpanvil_check(const uint8_t *job, size_t job_length, uint8_t *answer, size_t answer_length);

/* An assertion's text (docs/ASSERTIONS.md) for k variables and n nodes: its records, eight bytes each, at the start of
 * two lists. DONE: expressions, clauses. 504 records always suffice. */
size_t kelpanvil_text(size_t k, size_t n,
                      const uint8_t *text, size_t text_length,
                      uint8_t *expressions, size_t expressions_length,
                      uint8_t *clauses, size_t clauses_length,
                      uint8_t *answer, size_t answer_length);

#ifdef __cplusplus
}
#endif

#endif

/* The proved calls, as target/staticlib/libexports.a exports them (`bash build.sh`, x86-64 Linux).
 *
 * A sheet is an array of 16-bit words and its length. Each call takes any words, empty arrays too, always ends, and writes only where
 * it says. The result is the number of the question that refuses, or 0; then *sheet is 1 or 2 for questions 1 to 6, else 0.
 * A pointer must be valid for its length; NULL is allowed with length 0. Arrays that are written must not overlap others, and the places
 * for numbers (sheet, kept, count, percent, length, back, unequal) must be valid and distinct, from each other and from the arrays.
 * Calls keep no state: they are reentrant, and threads may call at once with places of their own. No call uses
 * the heap. Stack: the sheet checks and labelling 17 KiB, a path 112 KiB, comparison 80 KiB (docs/BENCHMARKS.md). */
#ifndef TOQSHENAY_H
#define TOQSHENAY_H

#include <stddef.h>
#include <stdint.h>

#ifdef __cplusplus
extern "C" {
#endif

/* Questions 1 to 6 of a machine sheet. */
uint16_t toqshenay_check_machine(const uint16_t *machine, size_t machine_length);

/* Questions 7 to 15 of a rule sheet. */
uint16_t toqshenay_check_rules(const uint16_t *rules, size_t rules_length);

/* Labelling: two words of 64 bits a line go to rows; *kept is 1 or 0, *count the number of true nodes of the last line, *percent its
 * whole percent among the nodes, a half rounded to the even number. Refused: rows are unchanged, and the numbers are 0. */
uint16_t toqshenay_label(const uint16_t *machine, size_t machine_length, const uint16_t *rules, size_t rules_length,
                         uint64_t *rows, size_t rows_length, uint16_t *sheet, uint16_t *kept, uint32_t *count, uint32_t *percent);

/* A path for a path line (0: the last line) at a node: the nodes and states of its pairs go to two lists. *length is the number of
 * pairs, 0 where the line is false and there is no path; the last pair goes to the pair at place *back, places from 1. */
uint16_t toqshenay_path(const uint16_t *machine, size_t machine_length, const uint16_t *rules, size_t rules_length,
                        uint16_t line, uint16_t node, uint16_t *nodes, size_t nodes_length, uint16_t *states, size_t states_length,
                        uint16_t *sheet, uint16_t *length, uint16_t *back);

/* A place of a path: a node, and a state by its record number. */
struct toqshenay_pair {
    uint16_t node, state;
};

/* The same with one list, of pairs. */
uint16_t toqshenay_path_pairs(const uint16_t *machine, size_t machine_length, const uint16_t *rules, size_t rules_length,
                              uint16_t line, uint16_t node, struct toqshenay_pair *list, size_t list_length,
                              uint16_t *sheet, uint16_t *length, uint16_t *back);

/* Comparison: *unequal is 0 where both machines keep the same rules, and the space is unchanged; it is 1 where they do not, and a rule
 * sheet that exactly one of them keeps stands at the head of the space. */
uint16_t toqshenay_compare(const uint16_t *first, size_t first_length, const uint16_t *second, size_t second_length,
                           uint16_t *space, size_t space_length, uint16_t *sheet, uint16_t *unequal);

#ifdef __cplusplus
}
#endif

#endif

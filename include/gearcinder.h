/* The proved judge, for C. Link libembed.a, which `rt lib` in crates/embed writes to
 * crates/embed/out.
 *
 * A slice is a pointer and a length, counted in its numbers. The pointer is
 * aligned and not null, also for a length of 0. A slice that is lent to be written
 * shares no memory with any other slice of the call, and the answer with none. No
 * function allocates, and none keeps anything between calls.
 *
 * Each function writes its answer, five numbers, whatever it is given. The first is
 * 0 if all is well and 1 for a refusal; then the other four are the refusal's
 * number, W, A and B. W says what the refusal speaks of: 0 the book, 1 the
 * certificate, 2 a line, 3 the closing, 4 neither, 5 the call.
 *
 * What an accepted certificate means. For every number of steps, every call of the
 * family (the named line's left, at an index from alpha on, its variables filled by
 * any terms) has a derivation of that length by some choice of rules, in which each
 * step replaces the first call by the calls of a rule so filled that its head is
 * exactly that call. It does not mean that every choice of rules goes on: with the
 * book `a. a :- b. a :- a.` a certificate for `a` is accepted, although `a` also
 * succeeds at once by the first rule and gets stuck by the second.
 */
#ifndef GEARCINDER_H
#define GEARCINDER_H

#include <stddef.h>
#include <stdint.h>

#ifdef __cplusplus
extern "C" {
#endif

/* The judge refuses a shorter work table. */
#define GEARCINDER_WORK_NUMBERS 8192
/* The most bytes of a rule book and of a certificate. */
#define GEARCINDER_BOOK_BYTES 16384
#define GEARCINDER_CERTIFICATE_BYTES 32768
/* How many numbers tell an answer. */
#define GEARCINDER_ANSWER_NUMBERS 5

/* Judges a certificate over its rule book: 0, line, k, alpha, 0 if it is accepted.
 * The work table may hold anything; it is all zeros afterwards, or untouched if it
 * is too short. */
void gearcinder_judge(const uint8_t *book, size_t book_length,
                      const uint8_t *certificate, size_t certificate_length,
                      uint64_t *work, size_t work_length,
                      uint64_t answer[GEARCINDER_ANSWER_NUMBERS]);

/* Asks whether a call is in the family that an accepted certificate names: 0, index,
 * 0, 0, 0 if it is the named line's left at this index, its variables filled by some
 * terms; the index is the smallest such one from alpha on. The certificate is judged
 * first: if it is refused, that is the answer. Then the call is read, one term packed
 * as a file, of any length; 3 to 7 with W = 5 speak of it. A call that is not in the
 * family is refused with 17. The work table is as above. */
void gearcinder_covers(const uint8_t *book, size_t book_length,
                       const uint8_t *certificate, size_t certificate_length,
                       const uint8_t *call, size_t call_length,
                       uint64_t *work, size_t work_length,
                       uint64_t answer[GEARCINDER_ANSWER_NUMBERS]);

/* The next four answer 0, the number of places filled, 0, 0, 0. The rest of the
 * output is kept; a refusal keeps it whole. */

/* Reads a book's bytes into a list of its fields. */
void gearcinder_read_book(const uint8_t *book, size_t book_length,
                          uint16_t *out, size_t out_length,
                          uint64_t answer[GEARCINDER_ANSWER_NUMBERS]);

/* Reads a certificate's bytes, with its book's, into a list of its fields. */
void gearcinder_read_certificate(const uint8_t *book, size_t book_length,
                                 const uint8_t *certificate, size_t certificate_length,
                                 uint16_t *out, size_t out_length,
                                 uint64_t answer[GEARCINDER_ANSWER_NUMBERS]);

/* Writes a list of a book's fields into its bytes. */
void gearcinder_write_book(const uint16_t *fields, size_t fields_length,
                           uint8_t *out, size_t out_length,
                           uint64_t answer[GEARCINDER_ANSWER_NUMBERS]);

/* Writes a list of a certificate's fields, with its book's bytes, into its bytes. */
void gearcinder_write_certificate(const uint8_t *book, size_t book_length,
                                  const uint16_t *fields, size_t fields_length,
                                  uint8_t *out, size_t out_length,
                                  uint64_t answer[GEARCINDER_ANSWER_NUMBERS]);

#ifdef __cplusplus
}
#endif

#endif

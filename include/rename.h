/* The rename pass for Chialisp forms, as a static library. docs/FORMAT.md describes the records, and says exactly what each call answers.
 *
 * Buffers
 *   A buffer is a pointer and, behind it, its length in bytes. No pointer may be NULL, also where the length is 0. No two of the buffers of
 *   one call may overlap, and none may overlap `told` or `place`. `name` and `input` are only read.
 *
 * What a call answers
 *   It returns 0 if it accepts, or the number of its refusal (below), and fills `told`:
 *     told[RENAME_PLACE]    0; of a refusal 2, 3 or 4 the offset in the input, of 5 the location of the assign
 *     told[RENAME_COUNTER]  the counter for the next call; of a refusal the counter given
 *     told[RENAME_ROUNDS]   in rename_order the rounds of the order; else 0
 *     told[RENAME_LENGTH]   how many bytes were written, at the front of `result`; of a refusal 0
 *   Only refusal 5 of rename_order writes something too.
 *   No byte of `result` behind those written is changed. What stood in `result` and `told` before the call does not matter.
 *
 * Memory
 *   Work memory has at least RENAME_WORK_FACTOR times `f` bytes. What it holds does not matter before a call, and means nothing afterwards.
 *   A call takes no heap. Of stack no call that was measured took more than 170,000 bytes (docs/TESTING.md says which were); it is no
 *   proved bound, so give a thread 256 KB. Nothing is kept between calls, so calls may run at the same time, each on its own buffers.
 */
#ifndef RENAME_H
#define RENAME_H

#include <stddef.h>
#include <stdint.h>

#ifdef __cplusplus
extern "C" {
#endif

/* The limits of what a call is given: f, the longest record in bytes; how many times f work memory holds; the counter. */
#define RENAME_LEAST_F 64
#define RENAME_MOST_F 16384
#define RENAME_WORK_FACTOR 256
#define RENAME_MOST_COUNTER 4294967295u

/* The limits of the format: the bytes of a name; a count, so also the bindings of an assign; how deep B, H and CF records nest, where a
 * sequential let counts once for each binding; SC in SC; BF in BF. */
#define RENAME_NAME_LIMIT 255
#define RENAME_COUNT_LIMIT 64
#define RENAME_LEVEL_LIMIT 32
#define RENAME_CONS_LIMIT 64
#define RENAME_LAMBDA_LIMIT 6

/* What a call returns. */
enum rename_number {
    RENAME_ACCEPTED = 0,
    RENAME_OUT_OF_LIMITS = 1,   /* f, the length of work memory or the counter is outside its limits, or there is no such kind */
    RENAME_MALFORMED = 2,       /* the input is not exactly one record of the kind asked for */
    RENAME_OVER_LIMIT = 3,      /* the input is longer than f (place 0), or passes a limit of the format */
    RENAME_MOD_IN_BINDING = 4,  /* a BM stands in a binding body of an assign */
    RENAME_DEADLOCK = 5,        /* the bindings of an assign have no order */
    RENAME_NAME_TOO_LONG = 6,   /* a made name has more than RENAME_NAME_LIMIT bytes */
    RENAME_RESULT_TOO_LONG = 7, /* a result on its way passes f */
    RENAME_BUFFER_TOO_SHORT = 8, /* the result does not fit into `result` */
    RENAME_PAGE_TOO_SHORT = 9   /* the lines of a page do not fit into `result` */
};

/* The places in `told`, and how many there are. */
enum rename_told { RENAME_PLACE = 0, RENAME_COUNTER = 1, RENAME_ROUNDS = 2, RENAME_LENGTH = 3, RENAME_TOLD = 4 };

/* The kinds of input that rename_read knows. */
enum rename_kind { RENAME_FORM = 0, RENAME_HELPER = 1, RENAME_ASSIGN = 2 };

/* Makes one name: the bytes of `name`, `_$_`, and the counter plus 1 in decimal. The new counter is one more. RENAME_NAME_LIMIT bytes of
 * result are always enough. Refuses with 1, 6 or 8. */
uint32_t rename_name(const uint8_t *name, size_t name_len, uint64_t counter, uint8_t *result, size_t result_len, uint64_t told[4]);

/* Orders the bindings of one assign (a BL of kind 2): writes one byte for each, its index from 0, in the order in which they can be worked
 * out. RENAME_COUNT_LIMIT bytes of result are always enough. The counter stays. Refuses with 1, 2, 3, 4, 8 or 5; with 5 it writes the
 * indices of the bindings that can never be placed, in any sequence, and tells their number. */
uint32_t rename_order(size_t f, uint8_t *work, size_t work_len, uint64_t counter, const uint8_t *input, size_t input_len, uint8_t *result,
                      size_t result_len, uint64_t told[4]);

/* Renames a form (a CF): its args, and what binds names in its helpers and its body. Writes the form with its new names, as one record; f
 * bytes of result are always enough. The new counter may be above RENAME_MOST_COUNTER, and the next call then refuses it. Refuses with 1
 * to 8. */
uint32_t rename_whole_form(size_t f, uint8_t *work, size_t work_len, uint64_t counter, const uint8_t *input, size_t input_len,
                           uint8_t *result, size_t result_len, uint64_t told[4]);

/* As rename_whole_form, but the args of the form stay as they are, and so do the uses of their names. */
uint32_t rename_children_only(size_t f, uint8_t *work, size_t work_len, uint64_t counter, const uint8_t *input, size_t input_len,
                              uint8_t *result, size_t result_len, uint64_t told[4]);

/* As rename_whole_form, of one helper (an H record) in place of a form. */
uint32_t rename_single_helper(size_t f, uint8_t *work, size_t work_len, uint64_t counter, const uint8_t *input, size_t input_len,
                              uint8_t *result, size_t result_len, uint64_t told[4]);

/* The bytes of a line of a page, the newline at its end among them. */
#define RENAME_LINE 73

/* Lays a form (a CF) out as a page: one line for each record, in the sequence of their marks, of 72 characters and a newline. Two spaces
 * stand for each record around it, then its mark, a space, and its name or `-`. A BM may stand anywhere. RENAME_LINE times the records of
 * the form are written, and RENAME_LINE times f bytes of result are always enough. There is no counter, and 0 is told for it. Refuses with
 * 1, 2, 3 or 9. */
uint32_t rename_page(size_t f, uint8_t *work, size_t work_len, const uint8_t *input, size_t input_len, uint8_t *result, size_t result_len,
                     uint64_t told[4]);

/* Reads an input and changes nothing but `place`: returns 0, place 0, if it is exactly one record of the kind (enum rename_kind) within all
 * limits, or the refusal 1, 2, 3 or 4 with its place that a call with enough work memory would give. Any other kind is 1, place 0. */
uint32_t rename_read(uint8_t kind, const uint8_t *input, size_t input_len, size_t f, uint64_t *place);

#ifdef __cplusplus
}
#endif

#endif

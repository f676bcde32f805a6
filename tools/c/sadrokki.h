/* The exported functions of crates/sadrokki, for C. What each answers is stated and proved in crates/sadrokki/src.
 *
 * A slice is two arguments, a pointer and a length in elements, in that order. The pointer isn't NULL, also for length 0;
 * a slice that isn't const overlaps none of the call's others. Nothing else is asked of an argument.
 *
 * State: sections * 2^32 + stored bytes; sadrokki_new() is the empty one.
 * Answer: number * 2^56 + mid * 2^32 + low.
 *   number 0, accepted: a building call's answer is the next state; assemble, settle, write: mid = passes (0 for write),
 *     low = code length; write_asm: the whole answer is the text's length; op_name, size_for, least_size: low = bytes.
 *   number 1 to 14, a refusal of document 01, or 16 to 18, of document 02: mid = passes (0 for write), low = section.
 *     8, 17 and 18, of the first reference to a mark that is nowhere placed: 8, it is direct; 17, the start of a delta isn't
 *     placed, be its end placed or not; 18, the end of a delta isn't, and its start is. SADROKKI_MISSING is the mark's number.
 *     16, of write: an entry of the table differs from the sum of sizes before its mark.
 *   number 255: an argument names nothing; nothing changed.
 *   An empty run of op bytes is accepted and answers its state, whatever number that has.
 *   leading_zeros is never refused: its whole answer is two counts added, which SADROKKI_ZEROS and SADROKKI_LOOKED take out.
 * A building call's refusal or 255, given on as a state, has a section count above the limit. sadrokki_clear takes it, as any
 * state, and answers the empty one; an empty run of op bytes answers it as it was; every other call refuses again: for its own
 * arguments (1, 2, 3, 255), else with 6 at section 0. So where the first building call was given a state with number 0 and each
 * other one the answer before it, without a clear, number 0 in the last answer says that all were accepted; another number says
 * that one wasn't, and neither which nor why. Other calls' answers are no states.
 * Form of a reference: set size (0 unsized, else 1 to 4) plus 8 if pushed. */
#ifndef SADROKKI_H
#define SADROKKI_H

#include <stddef.h>
#include <stdint.h>

#define SADROKKI_NUMBER(answer) ((uint32_t)((answer) >> 56))
#define SADROKKI_MID(answer) ((uint32_t)((answer) >> 32 & 0xffffff))
#define SADROKKI_LOW(answer) ((uint32_t)(answer))
#define SADROKKI_ZEROS(answer) ((answer) / 2)
#define SADROKKI_LOOKED(answer) (((answer) + 1) / 2)
#define SADROKKI_PUSHED 8

#define SADROKKI_UNPLACED 8
#define SADROKKI_START_UNPLACED 17
#define SADROKKI_END_UNPLACED 18
/* Of an answer with one of these numbers, and the words of its store: a section's second word is a direct reference's mark or a
 * delta's start, its third a delta's end. The answer is evaluated twice. */
#define SADROKKI_MISSING(answer, words) ((words)[3 * (size_t)SADROKKI_LOW(answer) + (SADROKKI_NUMBER(answer) == SADROKKI_END_UNPLACED ? 2 : 1)])

#ifdef __cplusplus
extern "C" {
#endif

uint64_t sadrokki_new(void);
uint64_t sadrokki_clear(uint64_t state);

uint64_t sadrokki_push_mark(uint64_t state, const uint8_t *bytes, size_t bytes_len, uint32_t *words, size_t words_len, uint32_t mark);
uint64_t sadrokki_push_op_byte(uint64_t state, uint8_t *bytes, size_t bytes_len, uint32_t *words, size_t words_len, uint8_t byte);
/* A run of op bytes, all or nothing: as sadrokki_push_op_byte of each in turn, but if some byte would be refused, nothing is
 * stored and the first such byte's refusal is the answer. So: 6; 4, no room for one byte; 5, a section needed and none left;
 * 4, no room for all. An empty run tests nothing, adds no section and is never refused: its answer is the state it was given,
 * whatever that is. So a state that is itself a refusal comes back as it was, and so do 2^24 sections and more, whose number
 * isn't 0 either. */
uint64_t sadrokki_push_op_bytes(uint64_t state, uint8_t *bytes, size_t bytes_len, uint32_t *words, size_t words_len, const uint8_t *run, size_t run_len);
uint64_t sadrokki_push_swap(uint64_t state, uint8_t *bytes, size_t bytes_len, uint32_t *words, size_t words_len, uint8_t depth);
uint64_t sadrokki_push_dup(uint64_t state, uint8_t *bytes, size_t bytes_len, uint32_t *words, size_t words_len, uint8_t depth);
uint64_t sadrokki_push_exchange(uint64_t state, uint8_t *bytes, size_t bytes_len, uint32_t *words, size_t words_len, uint8_t n, uint8_t m);
uint64_t sadrokki_push_minimal_u256(uint64_t state, uint8_t *bytes, size_t bytes_len, uint32_t *words, size_t words_len, const uint8_t *word, size_t word_len);
uint64_t sadrokki_push_minimal_u64(uint64_t state, uint8_t *bytes, size_t bytes_len, uint32_t *words, size_t words_len, uint64_t value);
uint64_t sadrokki_push_minimal_u32(uint64_t state, uint8_t *bytes, size_t bytes_len, uint32_t *words, size_t words_len, uint32_t value);
uint64_t sadrokki_push_data(uint64_t state, uint8_t *bytes, size_t bytes_len, uint32_t *words, size_t words_len, const uint8_t *data, size_t data_len);
uint64_t sadrokki_push_direct(uint64_t state, const uint8_t *bytes, size_t bytes_len, uint32_t *words, size_t words_len, uint32_t mark, uint32_t form);
uint64_t sadrokki_push_delta(uint64_t state, const uint8_t *bytes, size_t bytes_len, uint32_t *words, size_t words_len, uint32_t start, uint32_t end, uint32_t form);

/* The code into result from position on, the marks' offsets into table: entry m is mark m's. Refusals: 6, 7 (a mark placed or
 * named isn't below table_len), 8 (or 17, 18), 9 to 13, each leaving table all 0 and result as it was. */
uint64_t sadrokki_assemble(uint64_t state, const uint8_t *bytes, size_t bytes_len, const uint32_t *words, size_t words_len, uint32_t *table, size_t table_len, uint8_t *result, size_t result_len, size_t position);
/* The same in two calls. Settling is assembly without its code: refusals 6, 7, 8 (or 17, 18), 9 to 12, each leaving table
 * all 0. Accepted, table holds the offsets (0 for marks that aren't placed), and the answer's low half is the length that the
 * code will have. */
uint64_t sadrokki_settle(uint64_t state, const uint8_t *bytes, size_t bytes_len, const uint32_t *words, size_t words_len, uint32_t *table, size_t table_len);
/* The code into result from position on, by a table that is only read: settling's, or any in which each placed mark's entry is
 * the sum of sizes, by that table, of the sections before it. From settling's, the store being as it was, it is assemble's
 * code; from another it need not be the shortest. Refusals: 6; 7; 8, 17 or 18; 9; 16, such an entry differs, or 10, a
 * reference is too narrow for its value by the table, whichever section comes first; 12; 13. Refused, nothing has changed. It
 * takes about 130 KiB of the caller's stack. */
uint64_t sadrokki_write(uint64_t state, const uint8_t *bytes, size_t bytes_len, const uint32_t *words, size_t words_len, const uint32_t *table, size_t table_len, uint8_t *result, size_t result_len, size_t position);
/* The listing to the start of text. */
uint64_t sadrokki_write_asm(uint64_t state, const uint8_t *bytes, size_t bytes_len, const uint32_t *words, size_t words_len, uint8_t *text, size_t text_len);

/* 1 if a jump may land at offset, else 0. */
uint32_t sadrokki_lands(const uint8_t *code, size_t code_len, size_t offset);
/* The name of an opcode into the first bytes of name; 14 hold every name. */
uint64_t sadrokki_op_name(uint8_t byte, uint8_t *name, size_t name_len);
/* The immediate's bytes of PUSH1 to PUSH32, 0 for every other byte. */
uint32_t sadrokki_push_size(uint8_t byte);
/* The bytes that hold a value, 1 to 4. */
uint32_t sadrokki_bytes_to_hold(uint32_t value);
/* The size of a reference of this form for a value (10 if it is too narrow), and its least size. */
uint64_t sadrokki_size_for(uint32_t form, uint32_t value);
uint64_t sadrokki_least_size(uint32_t form);
/* The scan for the first byte that isn't 0: SADROKKI_ZEROS of the answer is how many zeros are before it (all the bytes, if
 * there is none), SADROKKI_LOOKED how many bytes were looked at, one more if there is such a byte. */
uint64_t sadrokki_leading_zeros(const uint8_t *bytes, size_t bytes_len);

#ifdef __cplusplus
}
#endif

#endif

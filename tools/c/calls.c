/* Calls every function of sadrokki.h once or more and compares the answers: the header's types and order of arguments are
 * those of the archive. Exit status 0, or 1 after the first line that differs. */
#include "sadrokki.h"
#include <stdio.h>
#include <stdlib.h>
#include <string.h>

#define SAME(a, b) same(__LINE__, (uint64_t)(a), (uint64_t)(b))
#define ANSWER(number, mid, low) ((uint64_t)(number) << 56 | (uint64_t)(mid) << 32 | (low))
#define STORE state, bytes, sizeof bytes, words, sizeof words / sizeof *words

static void same(int line, uint64_t a, uint64_t b) {
    if (a == b) return;
    fprintf(stderr, "calls.c:%d: %016llx is not %016llx\n", line, (unsigned long long)a, (unsigned long long)b);
    exit(1);
}

static void runs(void) {
    uint8_t bytes[64], bytes_then[64];
    uint32_t words[3 * 16], words_then[3 * 16];
    const uint8_t ops[] = {0x60, 0x07, 0x5b, 0x00};
    uint64_t state = 0;

    /* After a mark, four op bytes and then two, singly and as two runs: the same bytes and words. */
    memset(bytes, 0xee, sizeof bytes);
    memset(words, 0xee, sizeof words);
    state = sadrokki_push_mark(STORE, 0);
    for (int i = 0; i < 6; i++) state = sadrokki_push_op_byte(STORE, ops[i % 4]);
    SAME(state, ANSWER(0, 2, 6));
    memcpy(bytes_then, bytes, sizeof bytes);
    memcpy(words_then, words, sizeof words);
    memset(bytes, 0xee, sizeof bytes);
    memset(words, 0xee, sizeof words);
    state = sadrokki_push_mark(0, bytes, 64, words, 48, 0);
    state = sadrokki_push_op_bytes(STORE, ops, 4);
    SAME(state, ANSWER(0, 2, 4));
    state = sadrokki_push_op_bytes(STORE, ops, 2);
    SAME(state, ANSWER(0, 2, 6));
    SAME(memcmp(bytes, "\x60\x07\x5b\x00\x60\x07\xee", 7), 0);
    SAME(memcmp(bytes, bytes_then, sizeof bytes), 0);
    SAME(memcmp(words, words_then, sizeof words), 0);

    /* An empty run answers the state: the empty one, one with bad counts, a refusal's number. One byte is refused there. */
    SAME(sadrokki_push_op_bytes(STORE, ops, 0), state);
    SAME(sadrokki_push_op_bytes(0, bytes, 0, words, 0, ops, 0), 0);
    SAME(sadrokki_push_op_bytes(65, bytes, 64, words, 48, ops, 0), 65);
    SAME(sadrokki_push_op_bytes(ANSWER(4, 0, 0), bytes, 64, words, 48, ops, 0), ANSWER(4, 0, 0));
    SAME(sadrokki_push_op_bytes(ANSWER(255, 0, 0), bytes, 64, words, 48, ops, 0), ANSWER(255, 0, 0));
    SAME(sadrokki_push_op_bytes(65, bytes, 64, words, 48, ops, 1), ANSWER(6, 0, 0));
    SAME(sadrokki_push_op_bytes(ANSWER(4, 0, 0), bytes, 64, words, 48, ops, 1), ANSWER(6, 0, 0));

    /* Too long by one and by all: 4. No section left after the mark: 5 if one byte fits, else 4. A damaged last section: 6 at
     * its index. None of them writes; then a run that fills the bytes, and needs no section. */
    SAME(sadrokki_push_op_bytes(state, bytes, 9, words, 48, ops, 4), ANSWER(4, 0, 0));
    SAME(sadrokki_push_op_bytes(state, bytes, 6, words, 48, ops, 4), ANSWER(4, 0, 0));
    SAME(sadrokki_push_op_bytes(ANSWER(0, 1, 0), bytes, 1, words, 5, ops, 4), ANSWER(5, 0, 0));
    SAME(sadrokki_push_op_bytes(ANSWER(0, 1, 0), bytes, 1, words, 6, ops, 4), ANSWER(4, 0, 0));
    SAME(sadrokki_push_op_bytes(ANSWER(0, 1, 0), bytes, 0, words, 5, ops, 4), ANSWER(4, 0, 0));
    SAME(sadrokki_push_op_bytes(ANSWER(0, 2, 5), bytes, 64, words, 48, ops, 4), ANSWER(6, 0, 1));
    SAME(memcmp(bytes, bytes_then, sizeof bytes), 0);
    SAME(memcmp(words, words_then, sizeof words), 0);
    SAME(sadrokki_push_op_bytes(state, bytes, 10, words, 6, ops, 4), ANSWER(0, 2, 10));
    SAME(memcmp(bytes, "\x60\x07\x5b\x00\x60\x07\x60\x07\x5b\x00\xee", 11), 0);
    SAME(words[5], 10);
}

static void pairs(void) {
    uint8_t bytes[512], code[300], code_then[300];
    uint32_t words[3 * 8], words_then[3 * 8], table[3];
    uint8_t data[256];
    uint64_t state = 0;

    /* A pushed reference to mark 0, 253 data bytes, mark 0: settled at 255 in 2 passes, entries that aren't placed 0. */
    for (int i = 0; i < 256; i++) data[i] = (uint8_t)(i + 1);
    state = sadrokki_push_direct(STORE, 0, 8);
    state = sadrokki_push_data(STORE, data, 253);
    state = sadrokki_push_mark(STORE, 0);
    SAME(state, ANSWER(0, 3, 253));
    memcpy(words_then, words, sizeof words);
    memset(table, 0xee, sizeof table);
    SAME(sadrokki_settle(STORE, table, 3), ANSWER(0, 2, 255));
    SAME(table[0], 255);
    SAME(table[1] | table[2], 0);

    /* Written from it: the bytes of an assembly. No pass is made, and the other entries are free. */
    memset(code, 0xee, sizeof code);
    memset(code_then, 0xee, sizeof code_then);
    SAME(sadrokki_assemble(STORE, table, 3, code_then, 300, 2), ANSWER(0, 2, 255));
    table[1] = 7;
    SAME(sadrokki_write(STORE, table, 3, code, 300, 2), ANSWER(0, 0, 255));
    SAME(memcmp(code, code_then, 300), 0);
    SAME(memcmp(code, "\xee\xee\x60\xff\x01\x02", 6), 0);

    /* 256 serves too, with a byte more of code; 254 and 257 don't: 16, and nothing changed. */
    table[0] = 256;
    SAME(sadrokki_write(STORE, table, 1, code, 256, 0), ANSWER(0, 0, 256));
    SAME(memcmp(code, "\x61\x01\x00\x01\x02", 5), 0);
    memcpy(code_then, code, sizeof code);
    table[0] = 254;
    SAME(sadrokki_write(STORE, table, 3, code, 300, 0), ANSWER(16, 0, 2));
    table[0] = 257;
    SAME(sadrokki_write(STORE, table, 3, code, 300, 0), ANSWER(16, 0, 2));
    table[0] = 255;
    SAME(sadrokki_write(STORE, table, 0, code, 300, 0), ANSWER(7, 0, 0));
    SAME(sadrokki_write(STORE, table, 3, code, 254, 0), ANSWER(13, 0, 0));
    SAME(sadrokki_write(STORE, table, 3, code, 300, 301), ANSWER(13, 0, 0));
    SAME(sadrokki_write(STORE, table, 3, code, 300, (size_t)-1), ANSWER(13, 0, 0));
    SAME(sadrokki_write(ANSWER(0, 3, 252), bytes, 512, words, 24, table, 3, code, 300, 0), ANSWER(6, 0, 1));
    SAME(sadrokki_write(ANSWER(13, 0, 0), bytes, 512, words, 24, table, 3, code, 300, 0), ANSWER(6, 0, 0));
    SAME(memcmp(code, code_then, 300), 0);
    SAME(memcmp(words, words_then, sizeof words), 0);
    SAME(memcmp(bytes, data, 253), 0);
    SAME(table[0], 255);
    SAME(table[1], 7);

    /* A set size of 1 after the mark: too narrow by the table, found where it stands, an entry that differs before it first. */
    state = sadrokki_push_mark(STORE, 2);
    state = sadrokki_push_direct(STORE, 0, 9);
    table[2] = 255;
    SAME(sadrokki_write(STORE, table, 3, code, 300, 0), ANSWER(0, 0, 257));
    table[0] = table[2] = 256;
    SAME(sadrokki_write(STORE, table, 3, code, 300, 0), ANSWER(10, 0, 4));
    table[2] = 255;
    SAME(sadrokki_write(STORE, table, 3, code, 300, 0), ANSWER(16, 0, 3));

    /* A delta with its end below its start: 12 in both calls, with settling's pass; the table is 0 after settling alone. */
    state = 0;
    state = sadrokki_push_mark(STORE, 0);
    state = sadrokki_push_op_byte(STORE, 0x5b);
    state = sadrokki_push_mark(STORE, 1);
    state = sadrokki_push_delta(STORE, 1, 0, 8);
    table[0] = 0;
    table[1] = 1;
    SAME(sadrokki_write(STORE, table, 3, code, 0, 1), ANSWER(12, 0, 3));
    SAME(table[1] << 16 | table[2], 1 << 16 | 255);
    SAME(sadrokki_settle(STORE, table, 3), ANSWER(12, 1, 3));
    SAME(table[0] | table[1] | table[2], 0);
    SAME(sadrokki_settle(STORE, table, 1), ANSWER(7, 0, 2));
    SAME(sadrokki_settle(1, bytes, 512, words, 24, table, 3), ANSWER(6, 0, 0));
    SAME(sadrokki_settle(0, bytes, 0, words, 0, table, 0), ANSWER(0, 1, 0));
    SAME(sadrokki_write(0, bytes, 0, words, 0, table, 0, code, 0, 0), 0);
}

static void missing(void) {
    uint8_t bytes[1] = {0}, code[16];
    uint32_t words[3 * 3], table[8];
    /* Two references after mark 0, the first refused: start and end of it, of the other, the number and the mark; start and end are
     * the same in a direct one. */
    const struct { uint32_t start, end, then_start, then_end, number, mark; } cases[] = {
        {5, 0, 6, 6, SADROKKI_START_UNPLACED, 5}, {0, 5, 6, 6, SADROKKI_END_UNPLACED, 5}, {6, 6, 5, 0, SADROKKI_UNPLACED, 6},
        {6, 6, 0, 5, SADROKKI_UNPLACED, 6}, {6, 5, 7, 7, SADROKKI_START_UNPLACED, 6}, {5, 6, 0, 7, SADROKKI_START_UNPLACED, 5},
    };
    for (size_t i = 0; i < sizeof cases / sizeof *cases; i++) {
        uint64_t state = 0;
        state = sadrokki_push_mark(STORE, 0);
        for (int j = 0; j < 2; j++) {
            uint32_t start = j ? cases[i].then_start : cases[i].start, end = j ? cases[i].then_end : cases[i].end;
            state = start == end ? sadrokki_push_direct(STORE, start, SADROKKI_PUSHED) : sadrokki_push_delta(STORE, start, end, SADROKKI_PUSHED);
        }
        SAME(state, ANSWER(0, 3, 0));
        uint64_t answer = sadrokki_assemble(STORE, table, 8, code, 16, 0);
        SAME(answer, ANSWER(cases[i].number, 0, 1));
        SAME(SADROKKI_MISSING(answer, words), cases[i].mark);
        SAME(sadrokki_settle(STORE, table, 8), answer);
        SAME(sadrokki_write(STORE, table, 8, code, 16, 0), answer);
    }

    /* One mark as both ends of a delta. */
    uint64_t state = 0;
    state = sadrokki_push_delta(STORE, 7, 7, 2);
    SAME(sadrokki_settle(STORE, table, 8), ANSWER(17, 0, 0));
    SAME(SADROKKI_MISSING(ANSWER(17, 0, 0), words), 7);
}

static void scans(void) {
    uint8_t word[32] = {0};
    const uint8_t three[] = {0, 0, 7};

    /* A zero word, 12 zeros before a byte, a byte at either end; another length; no byte at all. */
    uint64_t answer = sadrokki_leading_zeros(word, 32);
    SAME(SADROKKI_ZEROS(answer), 32);
    SAME(SADROKKI_LOOKED(answer), 32);
    memset(word + 12, 0xff, 20);
    answer = sadrokki_leading_zeros(word, 32);
    SAME(SADROKKI_ZEROS(answer), 12);
    SAME(SADROKKI_LOOKED(answer), 13);
    answer = sadrokki_leading_zeros(word + 12, 20);
    SAME(SADROKKI_ZEROS(answer), 0);
    SAME(SADROKKI_LOOKED(answer), 1);
    memset(word, 0, 31);
    answer = sadrokki_leading_zeros(word, 32);
    SAME(SADROKKI_ZEROS(answer), 31);
    SAME(SADROKKI_LOOKED(answer), 32);
    answer = sadrokki_leading_zeros(three, 3);
    SAME(SADROKKI_ZEROS(answer), 2);
    SAME(SADROKKI_LOOKED(answer), 3);
    answer = sadrokki_leading_zeros(three, 0);
    SAME(SADROKKI_ZEROS(answer), 0);
    SAME(SADROKKI_LOOKED(answer), 0);
}

int main(void) {
    uint8_t bytes[64], code[64], text[256], name[14];
    uint32_t words[3 * 16], table[2];
    const uint8_t data[] = {0xaa, 0xbb};
    uint8_t word[32] = {0};
    word[30] = 0x12;
    word[31] = 0x34;

    /* Document 01's line 12, after a clear. */
    uint64_t state = sadrokki_push_data(sadrokki_new(), bytes, 64, words, 48, data, 2);
    SAME(state, ANSWER(0, 1, 2));
    state = sadrokki_clear(state);
    SAME(state, 0);
    state = sadrokki_push_mark(STORE, 0);
    state = sadrokki_push_op_byte(STORE, 0x5b);
    state = sadrokki_push_direct(STORE, 1, 8);
    state = sadrokki_push_op_byte(STORE, 0x56);
    state = sadrokki_push_mark(STORE, 1);
    state = sadrokki_push_op_byte(STORE, 0x5b);
    state = sadrokki_push_data(STORE, data, 2);
    state = sadrokki_push_delta(STORE, 0, 1, 2);
    SAME(state, ANSWER(0, 8, 5));
    memset(code, 0xee, sizeof code);
    SAME(sadrokki_assemble(STORE, table, 2, code, 64, 1), ANSWER(0, 2, 9));
    SAME(memcmp(code, "\xee\x5b\x60\x04\x56\x5b\xaa\xbb\x00\x04\xee", 11), 0);
    SAME(table[0], 0);
    SAME(table[1], 4);
    SAME(sadrokki_lands(code, 64, 1), 1);
    SAME(sadrokki_lands(code, 64, 2), 0);
    SAME(sadrokki_assemble(STORE, table, 1, code, 64, 0), ANSWER(7, 0, 2));
    SAME(sadrokki_assemble(STORE, table, 2, code, 8, 0), ANSWER(13, 2, 0));
    const char *listing = ".mark0:\n  JUMPDEST\n  PUSH .mark1\n  JUMP\n.mark1:\n  JUMPDEST\n  data 0xaabb (2 bytes)\n  RAW (.mark1 - .mark0):2\n";
    SAME(sadrokki_write_asm(STORE, text, sizeof text), strlen(listing));
    SAME(memcmp(text, listing, strlen(listing)), 0);
    SAME(sadrokki_write_asm(STORE, text, 3), ANSWER(14, 0, 0));

    /* Op bytes in one section: SWAP3, DUP3, SWAP1 SWAP2 SWAP1, PUSH2 1234, PUSH5, PUSH1. */
    state = 0;
    state = sadrokki_push_swap(STORE, 3);
    state = sadrokki_push_dup(STORE, 2);
    state = sadrokki_push_exchange(STORE, 1, 2);
    state = sadrokki_push_minimal_u256(STORE, word, 32);
    state = sadrokki_push_minimal_u64(STORE, 0x100000000);
    state = sadrokki_push_minimal_u32(STORE, 7);
    SAME(state, ANSWER(0, 1, 16));
    SAME(memcmp(bytes, "\x92\x82\x90\x91\x90\x61\x12\x34\x64\x01\x00\x00\x00\x00\x60\x07", 16), 0);

    runs();
    pairs();
    missing();
    scans();

    /* Refusals, and arguments that name nothing. */
    SAME(sadrokki_push_swap(STORE, 0), ANSWER(1, 0, 0));
    SAME(sadrokki_push_minimal_u256(STORE, word, 31), ANSWER(2, 0, 0));
    SAME(sadrokki_push_mark(STORE, 1048576), ANSWER(3, 0, 0));
    SAME(sadrokki_push_direct(STORE, 0, 7), ANSWER(255, 0, 0));
    SAME(sadrokki_push_delta(STORE, 0, 0, 13), ANSWER(255, 0, 0));
    state = ANSWER(1, 0, 0);
    SAME(sadrokki_push_mark(STORE, 0), ANSWER(6, 0, 0));

    SAME(sadrokki_op_name(0x5b, name, 14), 8);
    SAME(memcmp(name, "JUMPDEST", 8), 0);
    SAME(sadrokki_op_name(0x5b, name, 7), ANSWER(255, 0, 0));
    SAME(sadrokki_push_size(0x7f), 32);
    SAME(sadrokki_push_size(0x5f), 0);
    SAME(sadrokki_bytes_to_hold(256), 2);
    SAME(sadrokki_size_for(8, 0), 1);
    SAME(sadrokki_size_for(9, 256), ANSWER(10, 0, 0));
    SAME(sadrokki_size_for(7, 0), ANSWER(255, 0, 0));
    SAME(sadrokki_least_size(10), 3);
    SAME(sadrokki_least_size(5), ANSWER(255, 0, 0));
    return 0;
}

/* PUSH .mark0, JUMP, .mark0: JUMPDEST; settled, so that the length is known, then written and printed in hex. Three words hold
 * a section. */
#include "sadrokki.h"
#include <stdio.h>
#include <stdlib.h>

int main(void) {
    uint8_t bytes[64];
    uint32_t words[3 * 16], table[1];
    uint64_t store = sadrokki_new();
    store = sadrokki_push_direct(store, bytes, 64, words, 48, 0, SADROKKI_PUSHED);
    store = sadrokki_push_op_byte(store, bytes, 64, words, 48, 0x56);
    store = sadrokki_push_mark(store, bytes, 64, words, 48, 0);
    store = sadrokki_push_op_byte(store, bytes, 64, words, 48, 0x5b);
    uint64_t answer = sadrokki_settle(store, bytes, 64, words, 48, table, 1);
    if (SADROKKI_NUMBER(answer) != 0) return SADROKKI_NUMBER(answer);
    uint32_t length = SADROKKI_LOW(answer);
    uint8_t *code = malloc(length + 1); /* not NULL for an empty code either */
    if (!code) return 255;
    answer = sadrokki_write(store, bytes, 64, words, 48, table, 1, code, length, 0);
    for (uint32_t i = 0; SADROKKI_NUMBER(answer) == 0 && i < length; i++) printf("%02x", code[i]);
    puts("");
    free(code);
    return SADROKKI_NUMBER(answer);
}

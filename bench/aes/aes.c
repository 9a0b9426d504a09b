/* AES-128 in the same form as crates/aes_block: one table of 256 bytes, bytes and not words, no unrolled rounds. */
#include <stdint.h>
#include <stdio.h>
#include <string.h>

#include "table.h" /* static const uint8_t SUBSTITUTION[256], written by run.sh from crates/aes_block */

enum { ROUNDS = 10, BLOCKS = 4000000 };

static uint8_t doubled(uint8_t a) { return (uint8_t)(a < 128 ? 2 * a : (2 * (a - 128)) ^ 0x1B); }

static void sub_bytes(uint8_t s[16]) {
    for (int i = 0; i < 16; i++) s[i] = SUBSTITUTION[s[i]];
}

static void shift_rows(uint8_t s[16]) {
    uint8_t t[16];
    for (int i = 0; i < 16; i++) t[i] = s[(i + 4 * (i % 4)) % 16];
    memcpy(s, t, 16);
}

static void mix_columns(uint8_t s[16]) {
    for (int c = 0; c < 16; c += 4) {
        uint8_t t[4];
        for (int r = 0; r < 4; r++) {
            uint8_t a = s[c + r], b = s[c + (r + 1) % 4];
            t[r] = (uint8_t)(doubled(a) ^ (doubled(b) ^ b) ^ s[c + (r + 2) % 4] ^ s[c + (r + 3) % 4]);
        }
        memcpy(s + c, t, 4);
    }
}

static void add_round_key(uint8_t s[16], const uint8_t k[16]) {
    for (int i = 0; i < 16; i++) s[i] ^= k[i];
}

static void expand(uint8_t keys[ROUNDS + 1][16], const uint8_t key[16]) {
    memcpy(keys[0], key, 16);
    uint8_t power = 1;
    for (int n = 0; n < ROUNDS; n++) {
        const uint8_t *k = keys[n];
        uint8_t *next = keys[n + 1];
        for (int r = 0; r < 4; r++) next[r] = (uint8_t)(k[r] ^ SUBSTITUTION[k[12 + (r + 1) % 4]] ^ (r == 0 ? power : 0));
        for (int i = 4; i < 16; i++) next[i] = (uint8_t)(k[i] ^ next[i - 4]);
        power = doubled(power);
    }
}

__attribute__((noinline)) static void encrypt(const uint8_t keys[ROUNDS + 1][16], uint8_t s[16]) {
    add_round_key(s, keys[0]);
    for (int n = 1; n < ROUNDS; n++) {
        sub_bytes(s);
        shift_rows(s);
        mix_columns(s);
        add_round_key(s, keys[n]);
    }
    sub_bytes(s);
    shift_rows(s);
    add_round_key(s, keys[ROUNDS]);
}

int main(void) {
    uint8_t key[16], block[16] = {0}, keys[ROUNDS + 1][16];
    for (int i = 0; i < 16; i++) key[i] = (uint8_t)i;
    expand(keys, key);
    for (int i = 0; i < BLOCKS; i++) encrypt((const uint8_t(*)[16])keys, block);
    printf("[");
    for (int i = 0; i < 16; i++) printf(i ? ", %d" : "%d", block[i]);
    printf("]\n");
    return 0;
}

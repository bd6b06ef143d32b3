/* What bench/targets counts: hashes of blocks, and appends to a register, through the header.
 * usage: firmware hash BLOCKS | firmware append CHUNKS MORE LENGTH        a register of CHUNKS pieces of 64 bytes, each signed, and MORE pieces of LENGTH bytes */
#include <stdio.h>
#include <stdlib.h>
#include <string.h>

#include "sleep_register.h"

enum { MOST = 2048, DATA = 64 * MOST + SLEEP_LONGEST_CHUNK };

static uint8_t tree[32 + 40 * (2 * MOST - 1)], signatures[32 + 64 * MOST], bitfield[32 + 3328], data[DATA], bytes[128 * 1024], root[32], digest[64];
static uint64_t n, s, size;
#define REGISTER tree, sizeof tree, signatures, sizeof signatures, bitfield, sizeof bitfield, data, sizeof data, n, s, size

static void expect_done(uint64_t number) {
    if (number != 0) exit((printf("refused: %u\n", (unsigned)number), 1));
}

static void append(uint64_t length) {
    expect_done(sleep_append(REGISTER, bytes, length, root).number);
    n += 1;
    size += length;
}

int main(int words, char **word) {
    for (size_t k = 0; k < sizeof bytes; k++) bytes[k] = (uint8_t)(k * 7);
    if (words == 3 && strcmp(word[1], "hash") == 0) {
        expect_done(sleep_hash(32, NULL, 0, bytes, 128 * strtoul(word[2], NULL, 10), digest));
    } else if (words == 5 && strcmp(word[1], "append") == 0) {
        expect_done(sleep_start(tree, sizeof tree, signatures, sizeof signatures, bitfield, sizeof bitfield, data, sizeof data).number);
        for (uint64_t more = strtoul(word[2], NULL, 10); more > 0; more--) {
            append(64);
            expect_done(sleep_store_signature(REGISTER, digest).number);
            s += 1;
        }
        for (uint64_t more = strtoul(word[3], NULL, 10); more > 0; more--) append(strtoul(word[4], NULL, 10));
    } else {
        return 2;
    }
    return 0;
}

/* Office and cutting room: the office has an archive of 5,000 pieces, the cutting room a partial copy of it with three of them. The office makes a
 * packet of each; the cutting room, which has n, the data size and the signed root hash, takes them in, audits its copy and reads the pieces.
 * It passes one on, makes room by releasing another, and gets it back by its packet. Build and run: make -C examples */
#include <inttypes.h>
#include <stdio.h>
#include <stdlib.h>
#include <string.h>

#include "sleep_register.h"

enum { PIECES = 5000, LONGEST = 24, BYTES = PIECES * LONGEST, TREE = 32 + 40 * (2 * PIECES - 1), BITFIELD = 32 + 3328 };

static uint8_t tree[TREE], signatures[32 + 64 * PIECES], bitfield[BITFIELD], data[BYTES];
static uint64_t n, s, size;
#define OFFICE tree, sizeof tree, signatures, sizeof signatures, bitfield, sizeof bitfield, data, sizeof data, n, s, size

/* As long as the office's images, and without signatures. */
typedef struct {
    uint8_t tree[TREE], bitfield[BITFIELD], data[BYTES];
} copy;
#define LENT(c) (c)->tree, sizeof (c)->tree, (c)->bitfield, sizeof (c)->bitfield, (c)->data, sizeof (c)->data, n, size

/* What the office hands to the cutting room. */
typedef struct {
    uint64_t chunk, length;
    uint8_t bytes[LONGEST + SLEEP_PACKET_EXTRA];
} parcel;

static void expect(const char *what, uint64_t answered, uint64_t expected) {
    if (answered != expected) {
        fprintf(stderr, "%s: answered %" PRIu64 ", expected %" PRIu64 "\n", what, answered, expected);
        exit(1);
    }
}

static size_t piece(char out[LONGEST + 1], uint64_t number) {
    return (size_t)snprintf(out, LONGEST + 1, "piece %" PRIu64 ", twill %" PRIu64, number, 1 + number % 7);
}

/* The archive, which only its maker writes; the last root hash is the one that is signed. */
static void fill(uint8_t root[32]) {
    static const uint8_t signature[64];
    char bytes[LONGEST + 1];
    expect("start", sleep_start(tree, sizeof tree, signatures, sizeof signatures, bitfield, sizeof bitfield, data, sizeof data).number, 0);
    while (n < PIECES) {
        size_t length = piece(bytes, n);
        expect("append", sleep_append(OFFICE, (const uint8_t *)bytes, length, root).number, 0);
        n += 1;
        size += length;
        expect("signature", sleep_store_signature(OFFICE, signature).number, 0);
        s += 1;
    }
}

static void pack(parcel *p, uint64_t chunk) {
    p->chunk = chunk;
    expect("a packet", sleep_make_packet(OFFICE, chunk, p->bytes, sizeof p->bytes, &p->length).number, 0);
}

static sleep_answer take_in(copy *c, const parcel *p, const uint8_t root[32]) {
    return sleep_take_in(LENT(c), p->bytes, p->length, p->chunk, root);
}

static void read_back(const copy *c, uint64_t chunk) {
    char bytes[LONGEST + 1];
    uint64_t part[2];
    expect("a read", sleep_copy_read(LENT(c), chunk, part).number, 0);
    expect("its length", part[1], piece(bytes, chunk));
    expect("its bytes", (uint64_t)memcmp(c->data + part[0], bytes, part[1]), 0);
    printf("chunk %" PRIu64 ": %" PRIu64 " bytes from %" PRIu64 ": %.*s\n", chunk, part[1], part[0], (int)part[1], c->data + part[0]);
}

/* The first chunk from a number on that the cutting room doesn't hold. */
static uint64_t missing(const copy *c, uint64_t from) {
    uint64_t out[2];
    expect("search", sleep_copy_search(LENT(c), from, out).number, 0);
    expect("one is missing", out[0], 1);
    return out[1];
}

/* What the copy can't answer, it refuses at the first entry that it doesn't know. */
static void ask_for_more(const copy *c, uint64_t chunk) {
    uint64_t part[2];
    sleep_answer answer = sleep_copy_read(LENT(c), chunk, part);
    expect("a piece that was never sent", answer.number, 18);
    answer = sleep_copy_place(LENT(c), chunk, part);
    expect("its place", answer.number, 20);
    expect("the kind of its place", answer.place_kind, SLEEP_PLACE_TREE_INDEX);
    printf("chunk %" PRIu64 ": tree index %" PRIu64 " is not known\n", chunk, answer.place);
}

int main(void) {
    static const uint64_t wanted[3] = {4, 2999, 4999};
    static parcel parcels[3], onward;
    static copy room;
    uint8_t root[32], again[32];

    fill(root);
    for (int k = 0; k < 3; k++) pack(&parcels[k], wanted[k]);

    expect("a copy", sleep_make_copy(LENT(&room)).number, 0);
    expect("its audit", sleep_copy_audit(LENT(&room)).number, 0);
    expect("nothing is known", sleep_copy_root_hash(LENT(&room), again).number, 20);
    parcels[1].bytes[4] ^= 1;
    expect("a changed packet", take_in(&room, &parcels[1], root).number, 13);
    parcels[1].bytes[4] ^= 1;
    for (int k = 0; k < 3; k++) {
        expect("taking in", take_in(&room, &parcels[k], root).number, 0);
        expect("audit", sleep_copy_audit(LENT(&room)).number, 0);
    }
    expect("the root hash", sleep_copy_root_hash(LENT(&room), again).number, 0);
    expect("is the signed one", (uint64_t)memcmp(root, again, 32), 0);
    for (int k = 0; k < 3; k++) read_back(&room, wanted[k]);
    ask_for_more(&room, 1000);

    onward.chunk = 2999;
    expect("a packet passed on", sleep_copy_make_packet(LENT(&room), onward.chunk, onward.bytes, sizeof onward.bytes, &onward.length).number, 0);
    expect("is the office's", onward.length == parcels[1].length && memcmp(onward.bytes, parcels[1].bytes, onward.length) == 0, 1);

    expect("release", sleep_copy_release(LENT(&room), 4).number, 0);
    expect("audit", sleep_copy_audit(LENT(&room)).number, 0);
    expect("the first missing", missing(&room, 4), 4);
    expect("it comes back", take_in(&room, &parcels[0], root).number, 0);
    expect("the first missing", missing(&room, 4), 5);
    read_back(&room, 4);

    room.data[0] ^= 1; /* no byte of a known leaf */
    expect("bytes that nothing is known of", sleep_copy_audit(LENT(&room)).number, 0);
    room.tree[32 + 40 * 8] ^= 1; /* chunk 4's leaf */
    expect("a damaged leaf", take_in(&room, &parcels[0], root).number, 19);
    sleep_answer answer = sleep_copy_audit(LENT(&room));
    expect("its audit", answer.number, 10);
    printf("damaged copy: refusal %" PRIu64 " at tree index %" PRIu64 "\n", answer.number, answer.place);
    return 0;
}

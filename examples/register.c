/* A register in fixed buffers: three pieces, each previewed, signed, appended and stored with its signature, an audit, a verified read, a packet
 * made and checked, a label, two registers compared, a coat of 40 pieces stored wholly or left out, stations whose reads take turns, three pieces
 * stored by name in a pair of registers, one of them found and read, and a piece released to make room. Build and run: make -C examples */
#include <inttypes.h>
#include <stdio.h>
#include <stdlib.h>
#include <string.h>

#include "sleep_register.h"

enum { MOST = 8, LONGEST = 64 };

/* Room for MOST chunks of up to LONGEST bytes. */
typedef struct {
    uint8_t tree[32 + 40 * (2 * MOST - 1)], signatures[32 + 64 * MOST], bitfield[32 + 3328], data[LONGEST * MOST];
    uint64_t n, s, size;
} store;

#define LENT(r)                                                                                                                 \
    (r)->tree, sizeof (r)->tree, (r)->signatures, sizeof (r)->signatures, (r)->bitfield, sizeof (r)->bitfield, (r)->data,       \
        sizeof (r)->data
#define COUNTS(r) (r)->n, (r)->s, (r)->size

static void expect(const char *what, uint64_t answered, uint64_t expected) {
    if (answered != expected) {
        fprintf(stderr, "%s: answered %" PRIu64 ", expected %" PRIu64 "\n", what, answered, expected);
        exit(1);
    }
}

/* Stands for a signing device. */
static void sign(const uint8_t root[32], uint8_t signature[64]) {
    memcpy(signature, root, 32);
    memcpy(signature + 32, root, 32);
}

/* The signature is ready before the piece is stored: preview, sign, append, store. */
static void add_bytes(store *r, const uint8_t *piece, size_t length, uint8_t root[32]) {
    uint8_t signature[64], seen[32];
    expect("preview", sleep_preview(LENT(r), COUNTS(r), piece, length, seen).number, 0);
    sign(seen, signature);
    expect("append", sleep_append(LENT(r), COUNTS(r), piece, length, root).number, 0);
    expect("the root hash that was previewed", (uint64_t)memcmp(root, seen, 32), 0);
    r->n += 1;
    r->size += length;
    expect("signature", sleep_store_signature(LENT(r), COUNTS(r), signature).number, 0);
    r->s += 1;
}

static void add(store *r, const char *piece, uint8_t root[32]) {
    add_bytes(r, (const uint8_t *)piece, strlen(piece), root);
}

static void read_back(const store *r, uint64_t chunk) {
    uint64_t part[2];
    expect("read", sleep_read(LENT(r), COUNTS(r), chunk, part).number, 0);
    printf("chunk %" PRIu64 ": %" PRIu64 " bytes from %" PRIu64 ": %.*s\n", chunk, part[1], part[0], (int)part[1], r->data + part[0]);
    expect("byte", sleep_byte(LENT(r), COUNTS(r), 9, part).number, 0);
    printf("byte 9: chunk %" PRIu64 ", its byte %" PRIu64 "\n", part[0], part[1]);
    expect("the end of the data", sleep_byte(LENT(r), COUNTS(r), r->size, part).number, 0);
    expect("the chunk behind the last", part[0], r->n);
    expect("a chunk that isn't there", sleep_read(LENT(r), COUNTS(r), r->n, part).number, 9);
}

/* A machine that knows n and the root hash alone takes a chunk from someone it does not trust. */
static void pass_on(const store *r, uint64_t chunk, const uint8_t root[32]) {
    static uint8_t packet[LONGEST + SLEEP_PACKET_EXTRA];
    uint64_t length, part[2];
    expect("packet", sleep_make_packet(LENT(r), COUNTS(r), chunk, packet, sizeof packet, &length).number, 0);
    expect("check", sleep_check_packet(packet, length, r->n, chunk, root, part).number, 0);
    printf("packet of %" PRIu64 " bytes shows chunk %" PRIu64 ": %.*s\n", length, chunk, (int)part[1], packet + part[0]);
    packet[part[0]] ^= 1;
    expect("a changed packet", sleep_check_packet(packet, length, r->n, chunk, root, part).number, 13);
    expect("a cut packet", sleep_check_packet(packet, length - 1, r->n, chunk, root, part).number, 12);
}

static sleep_comparison compared(const store *first, const store *second) {
    return sleep_compare(LENT(first), COUNTS(first), LENT(second), COUNTS(second));
}

enum { PIECES = 40 };

/* Room for a coat and a few pieces more. */
typedef struct {
    uint8_t tree[32 + 40 * (2 * (PIECES + MOST) - 1)], signatures[32 + 64 * (PIECES + MOST)], bitfield[32 + 3328], data[LONGEST * (PIECES + MOST)];
    uint64_t n, s, size;
} list_store;

/* A coat is stored wholly or left out, and carries one signature, for its last piece. */
static void add_list(void) {
    static list_store w;
    static uint8_t bytes[LONGEST * PIECES];
    static const uint8_t zeros[64];
    uint64_t lengths[PIECES], total = 0;
    uint8_t root[32], signature[64];
    for (uint64_t k = 0; k < PIECES; k++) {
        lengths[k] = 1 + 7 * k % LONGEST;
        memset(bytes + total, (int)('a' + k % 26), lengths[k]);
        total += lengths[k];
    }
    expect("start", sleep_start(LENT(&w)).number, 0);
    expect("a coat with a byte lacking", sleep_append_list(LENT(&w), COUNTS(&w), lengths, PIECES, bytes, total - 1, root).number, 16);
    expect("a coat", sleep_append_list(LENT(&w), COUNTS(&w), lengths, PIECES, bytes, total, root).number, 0);
    w.n += PIECES;
    w.s += PIECES - 1;
    w.size += total;
    expect("a coat while a signature is owed", sleep_append_list(LENT(&w), COUNTS(&w), lengths, PIECES, bytes, total, root).number, 8);
    sign(root, signature);
    expect("its signature", sleep_store_signature(LENT(&w), COUNTS(&w), signature).number, 0);
    w.s += 1;
    expect("its audit", sleep_audit(LENT(&w), COUNTS(&w)).number, 0);
    expect("the first piece's signature", (uint64_t)memcmp(w.signatures + 32, zeros, 64), 0);
    expect("the last piece's signature", (uint64_t)memcmp(w.signatures + 32 + 64 * (PIECES - 1), signature, 64), 0);
    printf("a coat of %d pieces, %" PRIu64 " bytes, one signature\n", PIECES, w.size);
}

/* Station 7 has a large job; stations 2 and 9 wait for one piece each, and are served between its reads. */
static void take_turns(const store *r) {
    static const uint64_t turns[6][2] = {{2, 0}, {7, 0}, {9, 2}, {7, 1}, {7, 2}, {7, 3}};
    uint64_t table[SLEEP_TABLE_NUMBERS], part[2];
    sleep_serving served;
    expect("fresh", sleep_fresh(table).number, 0);
    for (uint64_t chunk = 0; chunk < SLEEP_MOST_WAITING; chunk++) expect("enter", sleep_enter(table, 7, SLEEP_CONTENT, chunk).number, 0);
    expect("a fifth read", sleep_enter(table, 7, SLEEP_CONTENT, 0).number, 22);
    expect("a station that isn't there", sleep_enter(table, 16, SLEEP_CONTENT, 0).number, 21);
    expect("enter", sleep_enter(table, 9, SLEEP_CONTENT, 2).number, 0);
    expect("enter", sleep_enter(table, 2, SLEEP_CONTENT, 0).number, 0);
    for (int k = 0; k < 6; k++) {
        served = sleep_serve(table, LENT(r), COUNTS(r), LENT(r), COUNTS(r), part);
        expect("a turn", served.station, turns[k][0]);
        expect("the read that came first", served.chunk, turns[k][1]);
        expect("what it is answered", served.answer.number, served.chunk < r->n ? 0 : 9);
        if (served.answer.number == 0) printf("station %" PRIu64 ": %.*s\n", served.station, (int)part[1], r->data + part[0]);
    }
    expect("nobody waits", sleep_serve(table, LENT(r), COUNTS(r), LENT(r), COUNTS(r), part).served, 0);
}

/* The path of a piece, and where it lies in the content register: its chunk and its first byte. */
static void name_piece(store *names, const char *path, uint64_t length, uint64_t chunk, uint64_t first) {
    const sleep_number none = {0, 0};
    sleep_node node = {0};
    uint8_t record[SLEEP_NODE_ROOM], root[32];
    uint64_t written;
    node.path.length = strlen(path);
    node.value = (sleep_stat){1, {1, 0100644}, none, none, {1, length}, {1, 1}, {1, chunk}, {1, first}, none, none};
    expect("a Node", sleep_write_node((const uint8_t *)path, strlen(path), node, record, sizeof record, &written).number, 0);
    add_bytes(names, record, written, root);
}

/* Three pieces in the content register, and beside them a metadata register with their names; "/coat/sleeve" is written twice. */
static void find_by_name(void) {
    static store names, pieces;
    static const char *const coat[3][2] = {{"/coat/sleeve", "twill 2/2"}, {"/coat/collar", "satin 5/3"}, {"/coat/sleeve", "twill 3/1"}};
    static const uint8_t key[SLEEP_CONTENT_BYTES] = "the content register's key";
    uint8_t header[SLEEP_HEADER_BYTES], root[32];
    uint64_t written, part[2];
    expect("start", sleep_start(LENT(&names)).number | sleep_start(LENT(&pieces)).number, 0);
    expect("a Header", sleep_write_header(key, sizeof key, header, sizeof header, &written).number, 0);
    add_bytes(&names, header, written, root);
    for (int k = 0; k < 3; k++) {
        name_piece(&names, coat[k][0], strlen(coat[k][1]), pieces.n, pieces.size);
        add(&pieces, coat[k][1], root);
    }
    sleep_found found = sleep_find(LENT(&names), COUNTS(&names), (const uint8_t *)"/coat/sleeve", 12);
    expect("find", found.answer.number, 0);
    expect("the latest sleeve", found.chunk, 3);
    sleep_node_read record = sleep_node_of(LENT(&names), COUNTS(&names), found.chunk);
    expect("its record", record.answer.number, 0);
    expect("the piece", sleep_read(LENT(&pieces), COUNTS(&pieces), record.node.value.offset.value, part).number, 0);
    expect("its length", part[1], record.node.value.size.value);
    expect("where it begins", part[0], record.node.value.byte_offset.value);
    printf("/coat/sleeve: chunk %" PRIu64 ", piece %" PRIu64 ": %.*s\n", found.chunk, record.node.value.offset.value, (int)part[1], pieces.data + part[0]);
    expect("a name that isn't there", sleep_find(LENT(&names), COUNTS(&names), (const uint8_t *)"/coat", 5).found, 0);
    expect("a Node read as a Header", sleep_header_of(LENT(&names), COUNTS(&names), 1, part).number, 15);
}

/* The machine makes room: a piece that the office keeps is dropped. Its place stays, and every other piece is read as before. */
static void make_room(store *r, uint64_t chunk) {
    uint64_t part[2];
    expect("all are held", (sleep_search(LENT(r), COUNTS(r), 0, part), part[0]), 0);
    expect("release", sleep_release(LENT(r), COUNTS(r), chunk).number, 0);
    expect("audit", sleep_audit(LENT(r), COUNTS(r)).number, 0);
    expect("search", sleep_search(LENT(r), COUNTS(r), 0, part).number, 0);
    expect("one is not held", part[0], 1);
    printf("chunk %" PRIu64 " is not held\n", part[1]);
    expect("a read of it", sleep_read(LENT(r), COUNTS(r), chunk, part).number, 18);
    expect("its place", sleep_place(LENT(r), COUNTS(r), chunk, part).number, 0);
    for (uint64_t k = 0; k < part[1]; k++) expect("its bytes", r->data[part[0] + k], 0);
}

int main(void) {
    static store first, second;
    uint8_t root[32], again[32];
    sleep_comparison c;

    add_list();
    find_by_name();

    expect("start", sleep_start(LENT(&first)).number, 0);
    add(&first, "twill 2/2", root);
    add(&first, "", root);
    add(&first, "satin 5/3", root);
    expect("audit", sleep_audit(LENT(&first), COUNTS(&first)).number, 0);
    expect("root hash", sleep_root_hash(LENT(&first), COUNTS(&first), again).number, 0);
    expect("the root hash again", (uint64_t)memcmp(root, again, 32), 0);

    expect("label", sleep_label(root, (const uint8_t *)"the maker's key", 15, again), 0);
    printf("label: %02x%02x%02x%02x..\n", again[0], again[1], again[2], again[3]);
    read_back(&first, 2);
    pass_on(&first, 2, root);
    take_turns(&first);

    second = first;
    expect("a copy", compared(&first, &second).outcome, SLEEP_EQUAL);
    add(&second, "", again);
    expect("one empty chunk more", compared(&first, &second).outcome, SLEEP_ROOTS_DIFFER);
    second.data[10] ^= 1;
    c = compared(&first, &second);
    expect("a damaged copy", c.outcome, SLEEP_SECOND_REFUSED);
    printf("damaged copy: refusal %" PRIu64 " at tree index %" PRIu64 "\n", c.answer.number, c.answer.place);
    expect("the kind of its place", c.answer.place_kind, SLEEP_PLACE_TREE_INDEX);
    expect("its place", c.answer.place, 4);

    make_room(&first, 0);
    c = compared(&first, &second);
    expect("a comparison with a piece gone", c.outcome, SLEEP_FIRST_REFUSED);
    expect("and its number", c.answer.number, 18);
    return 0;
}

/* Empty buffers from C: each call, with each of its buffers NULL and of length 0 in turn, answers what it answers for an empty buffer that is
 * not NULL. The archive's own calls are declared nonnull, so the sanitizers that tests/run builds this with see each NULL that is handed on. */
#include <inttypes.h>
#include <stdio.h>
#include <stdlib.h>
#include <string.h>

#include "sleep_register.h"

enum { TREE, SIGNATURES, BITFIELD, DATA, BUFFERS, ROOM = 32 + 3328 };

typedef struct {
    uint8_t *at[BUFFERS];
    size_t length[BUFFERS];
    uint64_t n, s, size;
} lent;

#define IMAGES(r)                                                                                                               \
    (r).at[TREE], (r).length[TREE], (r).at[SIGNATURES], (r).length[SIGNATURES], (r).at[BITFIELD], (r).length[BITFIELD],         \
        (r).at[DATA], (r).length[DATA]
#define REGISTER(r) IMAGES(r), (r).n, (r).s, (r).size
#define COPY(r) (r).at[TREE], (r).length[TREE], (r).at[BITFIELD], (r).length[BITFIELD], (r).at[DATA], (r).length[DATA], (r).n, (r).size

static uint8_t images[BUFFERS][ROOM], signature[64], packet[SLEEP_PACKET_EXTRA], root[32];
static uint64_t packet_length, tried;

/* The register of n empty chunks: its data buffer has length 0. */
static lent empty_chunks(uint64_t n) {
    lent r = {{images[TREE], images[SIGNATURES], images[BITFIELD], NULL}, {ROOM, ROOM, ROOM, 0}, 0, 0, 0};
    uint64_t failed = sleep_start(IMAGES(r)).number;
    while (r.n < n) {
        failed |= sleep_append(REGISTER(r), NULL, 0, root).number;
        r.n += 1;
        failed |= sleep_store_signature(REGISTER(r), signature).number;
        r.s += 1;
    }
    if (failed) exit((puts("a register of empty chunks can't be written"), 1));
    return r;
}

/* Each call on a register, by the number that it answers; the comparing walk by its outcome. */
static uint64_t start(lent r) { return sleep_start(IMAGES(r)).number; }
static uint64_t append(lent r) { return sleep_append(REGISTER(r), NULL, 0, root).number; }
static uint64_t append_a(lent r) { return sleep_append(REGISTER(r), (const uint8_t *)"a", 1, root).number; }
static uint64_t append_list(lent r) { const uint64_t none[2] = {0, 0}; return sleep_append_list(REGISTER(r), none, 2, NULL, 0, root).number; }
static uint64_t append_list_a(lent r) { const uint64_t one = 1; return sleep_append_list(REGISTER(r), &one, 1, (const uint8_t *)"a", 1, root).number; }
static uint64_t append_no_list(lent r) { return sleep_append_list(REGISTER(r), NULL, 0, NULL, 0, root).number; }
static uint64_t preview(lent r) { return sleep_preview(REGISTER(r), NULL, 0, root).number; }
static uint64_t preview_a(lent r) { return sleep_preview(REGISTER(r), (const uint8_t *)"a", 1, root).number; }
static uint64_t store(lent r) { return r.s -= r.n > 0, sleep_store_signature(REGISTER(r), signature).number; }
static uint64_t old_root(lent r) { return sleep_old_root(REGISTER(r), 2, root).number; }
static uint64_t stored_leaf(lent r) { uint8_t hash[32]; uint64_t length; return sleep_stored_leaf(REGISTER(r), 2, hash, &length).number; }
static uint64_t root_hash(lent r) { return sleep_root_hash(REGISTER(r), root).number; }
static uint64_t audit(lent r) { return sleep_audit(REGISTER(r)).number; }
static uint64_t place(lent r) { uint64_t out[2]; return sleep_place(REGISTER(r), 2, out).number; }
static uint64_t byte(lent r) { uint64_t out[2]; return sleep_byte(REGISTER(r), 0, out).number; }
static uint64_t verified(lent r) { uint64_t out[2]; return sleep_read(REGISTER(r), 2, out).number; }
static uint64_t release(lent r) { return sleep_release(REGISTER(r), 2).number; }
static uint64_t search(lent r) { uint64_t out[2]; return sleep_search(REGISTER(r), 0, out).number; }
static uint64_t short_place(lent r) { uint64_t out[2]; return sleep_short_place(REGISTER(r), 2, out).number; }
static uint64_t short_byte(lent r) { uint64_t out[2]; return sleep_short_byte(REGISTER(r), 0, out).number; }
static uint64_t short_search(lent r) { uint64_t out[2]; return sleep_short_search(REGISTER(r), 0, out).number; }
static uint64_t make(lent r) { return sleep_make_packet(REGISTER(r), 2, packet, sizeof packet, &packet_length).number; }
static uint64_t make_in_nothing(lent r) { uint64_t length; return sleep_make_packet(REGISTER(r), 2, NULL, 0, &length).number; }
static uint64_t serve(lent r, int name) {
    uint64_t table[SLEEP_TABLE_NUMBERS], out[2];
    lent other = {{NULL, NULL, NULL, NULL}, {0, 0, 0, 0}, 0, 0, 0};
    sleep_fresh(table);
    sleep_enter(table, 3, (uint64_t)name, 2);
    return name == SLEEP_METADATA ? sleep_serve(table, REGISTER(r), REGISTER(other), out).answer.number
                                  : sleep_serve(table, REGISTER(other), REGISTER(r), out).answer.number;
}
static uint64_t serve_metadata(lent r) { return serve(r, SLEEP_METADATA); }
static uint64_t serve_content(lent r) { return serve(r, SLEEP_CONTENT); }
static uint64_t header_of(lent r) { uint64_t out[2]; return sleep_header_of(REGISTER(r), 0, out).number; }
static uint64_t node_of(lent r) { return sleep_node_of(REGISTER(r), 2).answer.number; }
static uint64_t find(lent r) { return sleep_find(REGISTER(r), (const uint8_t *)"/a", 2).answer.number; }
static uint64_t find_nothing(lent r) { return sleep_find(REGISTER(r), NULL, 0).answer.number; }
static uint64_t make_copy(lent r) { return sleep_make_copy(COPY(r)).number; }
static uint64_t take_in(lent r) { return sleep_take_in(COPY(r), packet, packet_length, 2, root).number; }
static uint64_t take_nothing(lent r) { return sleep_take_in(COPY(r), NULL, 0, 2, root).number; }
static uint64_t copy_audit(lent r) { return sleep_copy_audit(COPY(r)).number; }
static uint64_t copy_root_hash(lent r) { return sleep_copy_root_hash(COPY(r), root).number; }
static uint64_t copy_old_root(lent r) { uint8_t old[32]; return sleep_copy_old_root(COPY(r), 2, old).number; }
static uint64_t copy_stored_leaf(lent r) { uint8_t hash[32]; uint64_t length; return sleep_copy_stored_leaf(COPY(r), 2, hash, &length).number; }
static uint64_t copy_place(lent r) { uint64_t out[2]; return sleep_copy_place(COPY(r), 2, out).number; }
static uint64_t copy_byte(lent r) { uint64_t out[2]; return sleep_copy_byte(COPY(r), 0, out).number; }
static uint64_t copy_read(lent r) { uint64_t out[2]; return sleep_copy_read(COPY(r), 2, out).number; }
static uint64_t copy_release(lent r) { return sleep_copy_release(COPY(r), 2).number; }
static uint64_t copy_search(lent r) { uint64_t out[2]; return sleep_copy_search(COPY(r), 0, out).number; }
static uint64_t copy_short_place(lent r) { uint64_t out[2]; return sleep_copy_short_place(COPY(r), 2, out).number; }
static uint64_t copy_short_byte(lent r) { uint64_t out[2]; return sleep_copy_short_byte(COPY(r), 0, out).number; }
static uint64_t copy_short_search(lent r) { uint64_t out[2]; return sleep_copy_short_search(COPY(r), 0, out).number; }
static uint64_t copy_make(lent r) { uint64_t length; return sleep_copy_make_packet(COPY(r), 2, packet, sizeof packet, &length).number; }
static uint64_t copy_make_in_nothing(lent r) { uint64_t length; return sleep_copy_make_packet(COPY(r), 2, NULL, 0, &length).number; }
static uint64_t copy_header_of(lent r) { uint64_t out[2]; return sleep_copy_header_of(COPY(r), 0, out).number; }
static uint64_t copy_node_of(lent r) { return sleep_copy_node_of(COPY(r), 2).answer.number; }
static uint64_t copy_find(lent r) { return sleep_copy_find(COPY(r), (const uint8_t *)"/a", 2).answer.number; }
static uint64_t copy_find_nothing(lent r) { return sleep_copy_find(COPY(r), NULL, 0).answer.number; }
static uint64_t audit_tree_part(lent r) { return sleep_audit_tree_part(REGISTER(r), 1, 4).number; }
static uint64_t audit_bitfield_part(lent r) { return sleep_audit_bitfield_part(REGISTER(r), 0, 1).number; }
static uint64_t copy_audit_tree_part(lent r) { return sleep_copy_audit_tree_part(COPY(r), 1, 4).number; }
static uint64_t copy_audit_bitfield_part(lent r) { return sleep_copy_audit_bitfield_part(COPY(r), 0, 1).number; }
static uint64_t compare_held_part(lent r) { return sleep_compare_held_part(REGISTER(r)).number; }
static uint64_t roots_first(lent r) { lent b = empty_chunks(3); return sleep_compare_roots_part(REGISTER(r), REGISTER(b)).outcome; }
static uint64_t roots_second(lent r) { lent a = empty_chunks(3); return sleep_compare_roots_part(REGISTER(a), REGISTER(r)).outcome; }
static uint64_t walk_first(lent r) { lent b = empty_chunks(3); return sleep_compare_walk_part(REGISTER(r), REGISTER(b), 1, 4).outcome; }
static uint64_t walk_second(lent r) { lent a = empty_chunks(3); return sleep_compare_walk_part(REGISTER(a), REGISTER(r), 1, 4).outcome; }
static uint64_t compare_first(lent r) { lent b = empty_chunks(3); return sleep_compare(REGISTER(r), REGISTER(b)).outcome; }
static uint64_t compare_second(lent r) { lent a = empty_chunks(3); return sleep_compare(REGISTER(a), REGISTER(r)).outcome; }

static void expect(const char *call, int buffer, uint64_t answered, uint64_t expected) {
    tried += 1;
    if (answered != expected) {
        printf("%s, buffer %d empty: answered %" PRIu64 ", expected %" PRIu64 "\n", call, buffer, answered, expected);
        exit(1);
    }
}

/* `without` is the answer where tree, signatures or bitfield is empty, `done` where the data are. */
static void each_buffer(const char *name, uint64_t (*call)(lent), uint64_t without, uint64_t done) {
    static uint8_t some[1];
    for (int b = TREE; b < BUFFERS; b++) {
        lent r = empty_chunks(3);
        r.at[b] = NULL;
        r.length[b] = 0;
        expect(name, b, call(r), b == DATA ? done : without);
        r = empty_chunks(3);
        r.at[b] = some;
        r.length[b] = 0;
        expect(name, b, call(r), b == DATA ? done : without);
    }
}

/* A call on a copy is lent no signatures, so that it is done where those are empty. */
static void each_of_a_copy(const char *name, uint64_t (*call)(lent), uint64_t without, uint64_t done) {
    static uint8_t some[1];
    for (int b = TREE; b < BUFFERS; b++) {
        for (int null = 0; null < 2; null++) {
            lent r = empty_chunks(3);
            root_hash(r);
            make(r);
            r.at[b] = null ? NULL : some;
            r.length[b] = 0;
            expect(name, b, call(r), b == DATA || b == SIGNATURES ? done : without);
        }
    }
}

int main(void) {
    uint8_t digest[64], again[32];
    uint64_t out[2], needed[SLEEP_NEEDS_NUMBERS];
    sleep_node node = {0};
    lent r, nothing = {{NULL, NULL, NULL, NULL}, {0, 0, 0, 0}, 0, 0, 0};
    static const uint8_t of_nothing[4] = {0x0e, 0x57, 0x51, 0xc0}; /* BLAKE2b-256 of the empty message begins so */

    expect("hash", 0, sleep_hash(32, NULL, 0, NULL, 0, digest), 0);
    expect("hash", 0, (uint64_t)memcmp(digest, of_nothing, sizeof of_nothing), 0);
    expect("hash_parts", 0, sleep_hash_parts(NULL, 0, NULL, 0, NULL, 0, again), 0);
    expect("hash_parts", 0, (uint64_t)memcmp(digest, again, 32), 0);
    expect("hash_parts", 1, sleep_hash_parts(NULL, 0, digest, 1, NULL, 0, again), 0);
    expect("hash_parts", 1, sleep_hash_parts(NULL, 0, NULL, 0, digest, 1, root), 0);
    expect("hash_parts", 1, (uint64_t)memcmp(root, again, 32), 0);
    expect("label", 0, sleep_label(digest, NULL, 0, again), 0);
    expect("label", 0, sleep_hash_parts(NULL, 0, NULL, 0, digest, 32, root), 0);
    expect("label", 0, (uint64_t)memcmp(root, again, 32), 0);

    each_buffer("start", start, 14, 0);
    each_buffer("append", append, 4, 0);
    each_buffer("append of a byte", append_a, 4, 14);
    each_buffer("append_list", append_list, 4, 0);
    each_buffer("append_list of a byte", append_list_a, 4, 14);
    each_buffer("append_list of no list", append_no_list, 4, 16);
    each_buffer("preview", preview, 4, 0);
    each_buffer("preview of a byte", preview_a, 4, 14);
    each_buffer("store_signature", store, 4, 0);
    each_buffer("root_hash", root_hash, 4, 0);
    each_buffer("old_root", old_root, 4, 0);
    each_buffer("stored_leaf", stored_leaf, 4, 0);
    each_buffer("audit", audit, 4, 0);
    each_buffer("place", place, 4, 0);
    each_buffer("byte", byte, 4, 0);
    each_buffer("read", verified, 4, 0);
    each_buffer("release", release, 4, 0);
    each_buffer("search", search, 4, 0);
    each_buffer("short_place", short_place, 4, 0);
    each_buffer("short_byte", short_byte, 4, 0);
    each_buffer("short_search", short_search, 4, 0);
    each_buffer("serve, metadata", serve_metadata, 4, 0);
    each_buffer("serve, content", serve_content, 4, 0);
    each_buffer("make_packet", make, 4, 0);
    each_buffer("make_packet in no room", make_in_nothing, 4, 14);
    each_buffer("header_of", header_of, 4, 15);
    each_buffer("node_of", node_of, 4, 15);
    each_buffer("find", find, 4, 15);
    each_buffer("find of no path", find_nothing, 4, 15);
    each_buffer("compare, the first", compare_first, SLEEP_FIRST_REFUSED, SLEEP_EQUAL);
    each_buffer("compare, the second", compare_second, SLEEP_SECOND_REFUSED, SLEEP_EQUAL);
    each_buffer("audit_tree_part", audit_tree_part, 4, 0);
    each_buffer("audit_bitfield_part", audit_bitfield_part, 4, 0);
    each_buffer("compare_held_part", compare_held_part, 4, 0);
    each_buffer("compare_roots_part, the first", roots_first, SLEEP_FIRST_REFUSED, SLEEP_EQUAL);
    each_buffer("compare_roots_part, the second", roots_second, SLEEP_SECOND_REFUSED, SLEEP_EQUAL);
    each_buffer("compare_walk_part, the first", walk_first, SLEEP_FIRST_REFUSED, SLEEP_EQUAL);
    each_buffer("compare_walk_part, the second", walk_second, SLEEP_SECOND_REFUSED, SLEEP_EQUAL);
    each_of_a_copy("copy_audit_tree_part", copy_audit_tree_part, 4, 0);
    each_of_a_copy("copy_audit_bitfield_part", copy_audit_bitfield_part, 4, 0);
    each_of_a_copy("make_copy", make_copy, 14, 0);
    each_of_a_copy("take_in", take_in, 4, 0);
    each_of_a_copy("take_in of no packet", take_nothing, 4, 12);
    each_of_a_copy("copy_audit", copy_audit, 4, 0);
    each_of_a_copy("copy_root_hash", copy_root_hash, 4, 0);
    each_of_a_copy("copy_old_root", copy_old_root, 4, 0);
    each_of_a_copy("copy_stored_leaf", copy_stored_leaf, 4, 0);
    each_of_a_copy("copy_place", copy_place, 4, 0);
    each_of_a_copy("copy_byte", copy_byte, 4, 0);
    each_of_a_copy("copy_read", copy_read, 4, 0);
    each_of_a_copy("copy_release", copy_release, 4, 0);
    each_of_a_copy("copy_search", copy_search, 4, 0);
    each_of_a_copy("copy_short_place", copy_short_place, 4, 0);
    each_of_a_copy("copy_short_byte", copy_short_byte, 4, 0);
    each_of_a_copy("copy_short_search", copy_short_search, 4, 0);
    each_of_a_copy("copy_make_packet", copy_make, 4, 0);
    each_of_a_copy("copy_make_packet in no room", copy_make_in_nothing, 4, 14);
    each_of_a_copy("copy_header_of", copy_header_of, 4, 15);
    each_of_a_copy("copy_node_of", copy_node_of, 4, 15);
    each_of_a_copy("copy_find", copy_find, 4, 15);
    each_of_a_copy("copy_find of no path", copy_find_nothing, 4, 15);
    expect("all four", 0, start(nothing) + audit(nothing) + append(nothing), 14 + 4 + 4);

    r = empty_chunks(3);
    expect("root_hash", 0, root_hash(r), 0);
    expect("make_packet", 0, make(r), 0);
    expect("check_packet", 0, sleep_check_packet(packet, packet_length, 3, 2, root, out).number, 0);
    expect("check_packet", 0, sleep_check_packet(NULL, 0, 3, 2, root, out).number, 12);
    expect("compare_packets", 0, sleep_compare_packets(packet, packet_length, packet, packet_length, 3, 2, root).outcome, SLEEP_EQUAL);
    expect("compare_packets", 1, sleep_compare_packets(NULL, 0, packet, packet_length, 3, 2, root).outcome, SLEEP_FIRST_REFUSED);
    expect("compare_packets", 2, sleep_compare_packets(packet, packet_length, NULL, 0, 3, 2, root).outcome, SLEEP_SECOND_REFUSED);
    expect("group", 0, sleep_group(NULL, 0, NULL, 0).number, 0);
    expect("group in no room", 0, sleep_group(packet, 1, NULL, 0).number, 14);
    expect("ungroup", 0, sleep_ungroup(NULL, 0, NULL, 0).number, 0);
    expect("ungroup in no room", 0, sleep_ungroup(packet, 1, NULL, 0).number, 14);
    expect("needs", 0, sleep_needs(3, 5, NULL, 0, needed).number, 0);
    expect("needs", 0, needed[SLEEP_NEEDS_TREE], 32 + 40 * 5);
    expect("needs", 0, needed[SLEEP_NEEDS_RUNS], 1);
    expect("needs beyond the size", 0, sleep_needs(0, 1, NULL, 0, needed).number, 9);
    expect("write_header", 0, sleep_write_header(NULL, 0, packet, sizeof packet, out).number, 15);
    expect("write_header in no room", 0, sleep_write_header(root, sizeof root, NULL, 0, out).number, 14);
    expect("read_header", 0, sleep_read_header(NULL, 0, out).number, 15);
    expect("read_node", 0, sleep_read_node(NULL, 0).answer.number, 15);
    expect("write_node", 0, sleep_write_node(NULL, 0, node, packet, sizeof packet, out).number, 15);
    node.path.length = 1;
    node.trie.given = 1;
    expect("write_node with an empty trie", 0, sleep_write_node((const uint8_t *)"/", 1, node, packet, sizeof packet, out).number, 0);
    expect("write_node with an empty trie", 0, (uint64_t)memcmp(packet, "\n\1/\x1a", 5), 0);
    expect("write_node in no room", 0, sleep_write_node((const uint8_t *)"/", 1, node, NULL, 0, out).number, 14);
    printf("empty buffers: %" PRIu64 " answers as expected\n", tried);
    return 0;
}
